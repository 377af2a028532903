"""house_print: what definitions rest on as one text, for `believed`."""
import os, re
from house_code import CodeItem
from house_roots import cone_of
from house_specs import free_in

MOST_CLAUSES = 12


def within(house, path):
    return os.path.relpath(path, house.top)


def listed(house, crate):
    """The modules of a crate in the order of its lists."""
    found = []
    for name, before in (("Lib", ""), ("laws", "laws.")):
        path = os.path.join(house.top, "crates", crate, "specs", name + ".antt")
        if os.path.exists(path):
            with open(path) as lines:
                found += [before + it for it in re.findall(r"^pub mod (\S+)", lines.read(), re.M)]
    return found


def group_of(item):
    """What is printed in one piece: the definitions of a module; and each item of the code by itself, a type with its model."""
    return getattr(item, "group", item.key) if isinstance(item, CodeItem) else (item.unit.crate, item.unit.name)


def in_order(house, nodes):
    """The items by groups, each group behind those of its crate that it rests on."""
    groups, below = {}, {}
    for node in sorted(nodes, key=str):
        item = house.items[node[0]]
        group = group_of(item)
        groups.setdefault(group, {})[item.key] = item
        below.setdefault(group, set()).update(group_of(house.items[it]) for it, _ in house.rests_on(node) if it in house.items)
    order = []

    def place(group):
        if group in order or group in opened:
            return
        opened.add(group)
        for it in sorted(below[group], key=rank):
            if it in groups and it[0] == group[0]:
                place(it)
        order.append(group)
    opened = set()
    for crate in house.crates:
        numbers = {name: at for at, name in enumerate(listed(house, crate))}

        def rank(group):
            return (len(group) == 3, numbers.get(group[1], len(numbers)), str(group))
        for group in sorted((it for it in groups if it[0] == crate), key=rank):
            place(group)
    return [sorted(groups[it].values(), key=lambda item: item.line) for it in order]


def notes(house, items, keys, twins):
    """What names mean here that are renamed, or that mean two things in the text."""
    said = {}
    for item in items:
        unit = item.unit
        for token in free_in(item, house.is_constructor(unit)):
            head = token.rstrip(".").split(".")[0]
            key = house.meaning(unit, token)
            if key in keys and head in unit.spaces:
                variants = "TheVariants" in unit.spaces[head]
                said[head] = "%s.X is a variant of %s" % (head, house.items[key].called()) if variants else "%s is %s" % (head, ".".join(key[:2]))
            elif key in keys and head in unit.names and (head != key[2] and unit.names[head][1] != head or head in twins):
                said[head] = "%s is %s" % (head, house.items[key].called())
    return [said[it] for it in sorted(said)]


def folded(start, parts):
    """Parts with commas between, in comments of 150 columns."""
    lines = [start]
    for at, part in enumerate(parts):
        if len(lines[-1]) + len(part) > 148:
            lines.append("--  ")
        lines[-1] += " " + part + ("," if at + 1 < len(parts) else "")
    return lines


def borrowed(item, keys):
    """The comment of the definition before an item that has none, where that one isn't printed: it may be of both."""
    before = None
    for other in item.unit.items.values():
        if other is item:
            break
        before = other if other.comment else before
    if item.comment or before is None or before.key in keys or before.over != item.over:
        return []
    return ["  " * len(item.over) + "-- (the comment of %s, which stands before it)" % before.name] + before.comment


def member_lines(house, item):
    """What a member of a trait or an impl is of: of a trait the first sentence, and where its impls have it."""
    owner = item.part.outer
    if owner.word == "trait":
        said = " ".join(it.lstrip("/ ") for it in owner.docs()).split(". ")[0].rstrip(".")
        yield "-- a member of trait %s: %s" % (owner.name, said)
        values = [it.members[item.part.name] for it in house.impls.get(owner.name, []) if item.part.name in it.members and "test" not in it.code.crate]
        if values:
            yield from folded("-- its values:", ["%s (%s:%d)" % (it.part.outer.whom, within(house, it.unit.path), it.line) for it in values])
    else:
        yield "-- in %s" % owner_text(owner)


def group_lines(house, items, keys, twins):
    """The text of a group."""
    first = items[0]
    for item in items if isinstance(first, CodeItem) else []:
        yield "-- %s:%d" % (within(house, item.unit.path), item.line)
        if item.part.outer is not None:
            yield from member_lines(house, item)
        yield from item.comment + item.lines + [""]
    if isinstance(first, CodeItem):
        return
    yield "-- ---- %s of %s" % (first.unit.name, first.unit.crate)
    yield from first.unit.head
    said = notes(house, items, keys, twins)
    if said:
        yield from folded("-- Here", said)
    yield ""
    over = []
    for item in items:
        for header in [it for it in item.over if it not in over]:
            yield from header.comment + header.lines
            yield ""
        over = item.over
        indent = "  " * len(item.over)
        yield "%s-- %s:%d" % (indent, within(house, item.unit.path), item.line)
        if item.unread:
            yield from folded(indent + "-- without these, which nothing here reads:", item.unread)
        yield from borrowed(item, keys) + item.comment + trimmed(item.lines) + [""]


def trimmed(lines):
    while lines and not lines[-1].strip():
        lines = lines[:-1]
    return lines


def owner_text(owner):
    return "trait " + owner.name if owner.word == "trait" else "impl %s for %s" % (owner.trait, owner.whom)


def function_lines(house, part):
    owner = part.outer
    whose = "" if owner is None else ", of " + (owner_text(owner) if owner.word == "trait" or owner.trait else owner.whom)
    yield "-- %s:%d%s" % (within(house, part.code.path), part.line(), whose)
    text = part.text(part.signature_end).rstrip()
    if not part.text().startswith("pub") and part.public:
        text = "pub " + text
    indent = len(part.code.all_lines[part.line() - 1]) - len(part.code.all_lines[part.line() - 1].lstrip())
    yield from part.docs() + [it[indent:] if it[:indent].isspace() else it for it in text.split("\n")]
    yield ""


def clause_lines(house, keys):
    """The clauses of public functions that come to one of these definitions, the shortest ways first."""
    above, found = {}, []
    for part in house.public_functions():
        for clause in part.clauses:
            roots = [it for it in house.of_clause(part, clause) if it[0] in house.items]
            why, _ = house.cone(roots)
            hit = next((it for it in why if it[0] in keys), None)
            if hit:
                way, at = [], hit
                while why[at]:
                    at = why[at]
                    way.append(house.items[at[0]].name)
                found.append((len(way), part, clause, way[::-1]))
    found.sort(key=lambda it: it[0])
    for _, part, clause, way in found[:MOST_CLAUSES]:
        owner = "" if part.outer is None else (part.outer.name or re.split("<", part.outer.whom)[0]) + "::"
        label, by = " " + clause.label if clause.label else "", ", by " + ", ".join(way) if way else ""
        yield "--   %s::%s%s, %s%s%s" % (part.code.crate, owner, part.name, clause.word, label, by)
    if len(found) > MOST_CLAUSES:
        yield "--   and %d more" % (len(found) - MOST_CLAUSES)
    if not found:
        yield "--   none"


def printed(house, names, found):
    functions = [it[0] for it in found]
    named_roots = [node for part, nodes in found for node in nodes if part is None]
    why, outside = cone_of(house, found)
    groups = in_order(house, why)
    items = [it for group in groups for it in group]
    keys = {it.whole for it in items}
    named = {}
    for item in items:
        named.setdefault(item.name, set()).add(item.key)
    twins = {it for it, of in named.items() if len(of) > 1}
    code = [it for it in items if isinstance(it, CodeItem)]
    yield "-- What is to be believed of %s: %d definitions in %d lines, and %d of the code of which they speak, in %d." % (
        ", ".join(names), len(items) - len(code), sum(it.size() for it in items) - sum(it.size() for it in code), len(code), sum(it.size() for it in code))
    yield "-- The lowest crate comes first, and each name before it is used; names of the kit stand at the end. CONTRIBUTING says what the symbols mean."
    yield ""
    for part in functions:
        if part is not None:
            yield from function_lines(house, part)
    keyed = {house.items[it[0]].whole for it in named_roots}
    if keyed:
        yield "-- The clauses of public functions that rest on %s:" % ("it" if len(keyed) == 1 else "one of them")
        yield from clause_lines(house, keyed)
        yield ""
    crate = None
    for group in groups:
        if group[0].unit.crate != crate:
            crate = group[0].unit.crate
            yield "-- ======== %s" % crate
            yield ""
        yield from group_lines(house, group, keys, twins)
    yield from kit_lines(outside)


def kit_lines(outside):
    """The names that are the kit's, by their modules."""
    by_path = {}
    for _, path, name in outside:
        by_path.setdefault(path, set()).add(name)
    yield "-- ======== names of the kit"
    for path in sorted(by_path):
        yield from folded("-- %s:" % path, sorted(by_path[path]))
