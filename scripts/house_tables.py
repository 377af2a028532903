"""house_tables: what is read of the tables of plain functions, for `believed`.

A lock, a way of working and a rank's machine are given as tables, records of plain functions whose name ends with `Table`. A text may speak of a table and
read some of its fields alone: of a run the atoms and what they leave, and not which acts the lock lets a rank make. What a field is that nothing in the text
reads can't make a statement of it true or false, so nobody has to believe it: the field is left out, of the record and of each value that is written as one,
and with it what only that rests on.

A field is read where its name stands behind a point, whatever is before the point. Where a side of an equation is a table, or a value that holds tables, all
fields are read; what a side is says the type of the field, of the definition or of the binder at its head. A field behind another is one of a record that the
other's type names."""
import re
from house_specs import CLOSES, OPENS, TOKEN, Item, bare

COMPARED = ("≡", "≢")
BOUNDS = set("→ × ⊎ ↔ = : , ; | ↦ in let".split())
BINDER = re.compile(r"[({]([\w ]+) : ([^(){}]*(?:\([^()]*\)[^(){}]*)*)[)}]")
FIELD = re.compile(r"\s*(?:pub )?(\w+) (?::|=) ")


def result_of(text):
    """The last part of a type."""
    return re.split(r"→| : |=", text)[-1]


def fields_of(item):
    """The fields of a record with their types."""
    found = {}
    for line in map(bare, item.lines[1:]):
        sign = re.match(r"\s*pub (\w+) : (.*)", line)
        name, text = sign.groups() if sign else (next(reversed(found), None), line)
        if name:
            found[name] = found.get(name, "") + " " + text
    return found


class Tables:
    def __init__(self, house):
        self.house, self.known, self.made = house, {}, {}
        specs = [it for module in house.modules.values() for it in module.items.values()]
        records = {it: fields_of(it) for it in specs if it.kind == "record"}
        types = [it for it in specs if it.kind == "abbrev" and result_of(bare(it.lines[0])).strip().startswith("Type ")]
        tables = {it.key for it in records if it.name.endswith("Table")}
        self.fields = set().union(*(it.parts for it in records if it.key in tables))
        self.holders = set(tables)
        while True:
            more = {it.key for it, fields in records.items() if any(self.holds(it.unit, text) for text in fields.values())}
            more |= {it.key for it in types if self.holds(it.unit, bare(it.lines[-1]))}
            if more <= self.holders:
                break
            self.holders |= more
        # of each field that is a table, or holds one: the records that have it, each with what its type names
        self.holding_fields = {}
        for it, fields in records.items():
            for name, text in fields.items():
                if self.holds(it.unit, text):
                    self.holding_fields.setdefault(name, {})[it.key] = self.meanings(it.unit, result_of(text))
        self.named_types = {it.key for it in types}
        values = {it.key: self.meanings(it.unit, result_of(bare(it.lines[0]))) for it in specs if it.kind in ("abbrev", "unfoldable")}
        self.holding = {key for key, of in values.items() if of & self.holders}
        self.written = tables | {key for key, of in values.items() if of & tables}

    def meanings(self, unit, text):
        return {self.house.meaning(unit, it) for it in re.findall(r"[\w.]+", text)}

    def holds(self, unit, text):
        """What is of this type is a table, or holds one."""
        return bool(self.holders & self.meanings(unit, result_of(text)))

    def read_in(self, item):
        """The fields that an item's text reads."""
        if item.key not in self.known:
            tokens = [it for line in item.code() for it in TOKEN.findall(line)]
            text = " ".join([bare(line) for header in item.over for line in header.lines] + item.code())
            bound = {name: self.holds(item.unit, of) for names, of in BINDER.findall(text) for name in names.split()}
            given = bool(self.holders & self.meanings(item.unit, bare(item.lines[0])))
            sides = [it for at, sign in enumerate(tokens) if sign in COMPARED for it in heads(tokens, at)]
            found = {part for it in tokens for part in it.rstrip(".").split(".")[1:]} & self.fields
            self.known[item.key] = set(self.fields) if any(self.is_holder(item, it, bound, given) for it in sides) else found
        return self.known[item.key]

    def is_holder(self, item, token, bound, given):
        """This head of a side is a table, or holds one. What isn't known is one where the definition is given one."""
        path = token.rstrip(".").split(".")
        key = self.house.meaning(item.unit, token)
        first = bound[path[0]] if path[0] in bound else key in self.holding if key else given and path[0][:1].isalpha()
        return bool(first) and self.leads(path[1:])

    def leads(self, path):
        """Fields one behind the other may end at a table, or at what holds one."""
        records = None
        for field in path:
            found = [of for record, of in self.holding_fields.get(field, {}).items() if records is None or record in records]
            if not found:
                return False
            records = set().union(*found)
            if records & self.named_types:    # (another name of a type, whose records aren't looked for)
                records = None
        return True

    def part_of(self, item, read):
        """The record or the value without the fields that aren't read."""
        unread = tuple(sorted(self.fields - read))
        if item.key not in self.written or not unread:
            return item
        if (item.key, unread) not in self.made:
            self.made[item.key, unread] = without(item, set(unread))
        return self.made[item.key, unread]


def heads(tokens, at):
    """The names at the heads of both sides of an equation; and one that ends a side behind a bracket, as a field does."""
    first, depth = at - 1, 0
    while first >= 0:
        depth += (tokens[first] in CLOSES) - (tokens[first] in OPENS)
        if depth < 0 or (depth == 0 and (tokens[first] in BOUNDS or tokens[first].endswith("."))):
            break
        first -= 1
    return tokens[first + 1:first + 2] + [it for it in tokens[at - 1:at] if it.startswith(".")] + tokens[at + 1:at + 2]


def without(item, unread):
    """Each line of such a field goes, with the lines that go on with it; and a comment where all fields go that stand below it."""
    lines, above, gone, last = [], [], None, None
    for line in item.lines:
        indent = len(line) - len(line.lstrip(" "))
        if not bare(line).strip():
            above = above + [line] if last == "comment" else [line]
            last = "comment"
            continue
        last = "code"
        if gone is not None and indent > gone:
            continue
        found = FIELD.match(line)
        gone = indent if indent > 2 * len(item.over) and found and found.group(1) in unread else None
        if gone is None:
            lines += above + [line]
            above = []
    made = Item(item.unit, item.name, item.kind, item.line)
    made.comment, made.lines, made.over, made.parts, made.whole = item.comment, lines, item.over, item.parts - unread, item.key
    made.unread = sorted(it for it in unread if any(re.match(r"\s*(pub )?%s (:|=) " % it, line) for line in item.lines))
    made.key = item.key[:2] + ("%s without %s" % (item.name, " ".join(made.unread)),)
    return made if made.unread else item
