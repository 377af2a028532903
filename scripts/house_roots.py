"""house_roots: what is named by CRATE.MODULE.NAME, CRATE.MODULE.NAME.FIELD, CRATE::FUNCTION and CRATE::TYPE::FUNCTION, and how much it rests on, for
`believed` and `check-believed`."""
import sys
from house import Context
from house_code import CodeItem
from house_specs import with_field

HEADLINE = "rl_program.Headline."
HEADLINES = [HEADLINE + "IsReplay", "rl_program.RunHeadline.IsRun"]


def rows(house):
    """The rows of the table: how each is called, and what it names."""
    kinds = [it for it in house.modules["rl_locks", "Kinds"].items.values() if it.code()[0].endswith(" %s : LockKind" % it.name)]
    return [
        ("exclusion, of a trace", ["rl_step.Exclusion.IsExclusive"]),
        ("what a machine promises", ["rl_machine.Promises.IsSound"]),
        ("no dead end, whatever the lock", ["rl_machine::no_dead_end"]),
        ("what a replay promises, whatever the lock", [HEADLINE + "IsKept"]),
        *[("the same with " + it.name, [HEADLINE + "IsKept", it.called()]) for it in kinds],
        ("the same with all of them", [HEADLINE + "KeepsPromises"]),
        ("what a check tells", ["rl_check::check_one"]),
        ("both headlines, with their texts", HEADLINES),
        ("that reports are read back and legal", ["rl_program.ReadBack.IsReadBack"]),
    ]


def owner_of(part):
    return None if part.outer is None else part.outer.name if part.outer.word == "trait" else part.outer.whom.split("<")[0]


def function_named(house, name):
    """The function, and the one that has its contract: where its type has it from a trait, the trait's, and what the type is there."""
    crate, *rest = name.split("::")
    found = [it for it in house.functions() if it.code.crate == crate and it.name == rest[-1] and (len(rest) == 1 or owner_of(it) == rest[0])]
    if len(found) > 1:
        sys.exit("believed: which one? " + ", ".join("%s::%s::%s" % (crate, owner_of(it), it.name) for it in found))
    for part in found:
        trait = part.outer and house.traits.get(part.outer.trait) if part.outer and part.outer.word == "impl" else None
        if trait is None:
            return part, part, ()
        said = next((it for it in trait.inner if it.word == "fn" and it.name == part.name), part)
        return part, said, (("Self", house.type_of(part.outer.whom, Context(part.code, None, part.outer.bounds, {}))),)
    sys.exit("believed: no function %s" % name)


def roots_of(house, name):
    """The function that is named, if it is one, and the nodes that its contract, or the definition, rests on."""
    if "::" in name:
        part, said, env = function_named(house, name)
        if not said.clauses:
            sys.exit("believed: no contract of %s" % name)
        found = [it for clause in said.clauses for it in house.of_clause(said, clause, env)] + list(house.models_in(part))
        return said, [it for it in found if it[0] in house.items]
    parts = name.split(".")
    key = (parts[0], ".".join(parts[1:-1]), parts[-1])
    record = house.items.get((parts[0], ".".join(parts[1:-2]), parts[-2])) if len(parts) > 3 else None
    if key not in house.items and record and parts[-1] in record.parts:
        key = house.add(with_field(record, parts[-1])).key
    if key not in house.items:
        sys.exit("believed: no definition %s" % name)
    return None, [(key, ())]


def cone_of(house, found):
    """The cone of what is named. Of definitions alone it is without what nothing reads of a table; a contract may read a table in its own words."""
    nodes = [node for _, nodes in found for node in nodes]
    return house.cone(nodes) if any(part for part, _ in found) else house.cone_of_statements(nodes)


def twins(house, names):
    """The names of definitions and types that mean more than one thing within what these rest on, each with its meanings."""
    why, _ = cone_of(house, [roots_of(house, name) for name in names])
    meanings = {}
    for key in {key for key, _ in why}:
        if house.items[key].kind not in ("member", "value"):
            meanings.setdefault(house.items[key].name, []).append(".".join(house.items[key].whole))
    return {name: sorted(of) for name, of in meanings.items() if len(of) > 1}


def counted(house, names):
    """The definitions, their lines, the types and members of the code, their lines."""
    why, _ = cone_of(house, [roots_of(house, name) for name in names])
    items = [house.items[it] for it in {key for key, _ in why}]
    parts = [[it for it in items if isinstance(it, CodeItem) == code] for code in (False, True)]
    return [number for part in parts for number in (len(part), sum(it.size() for it in part))]


def count_lines(house, names):
    table = [(name, [name]) for name in names] + ([("all of these", names)] if len(names) > 1 else []) if names else rows(house)
    wide = max(len(title) for title, _ in table)
    yield "%-*s  definitions  lines  code  lines" % (wide, "")
    for title, of in table:
        yield "%-*s  %11d  %5d  %4d  %5d" % (wide, title, *counted(house, of))
