"""house_specs: the definitions of crates/*/specs as their text shows them, for `believed` and `check-believed`. It knows layouts and scopes, and nothing of
types: a name means what it is imported as, where no binder around it has it."""
import re

EDGE = r"\s(){}\[\],;"
TOKEN = re.compile(r"[(){}\[\];,]|[^%s]+" % EDGE)
SIGN = re.compile(r"(?:pub\s+)?([^%s.:]+)\s*:(?:\s|$)" % EDGE)
DEFINED = re.compile(r"(?:pub\s+)?(abbrev|unfoldable|record|data)\b\s*(?:pub\s+)?([^%s.:]+)" % EDGE)
USE = re.compile(r"^[ \t]*(pub )?(?:ghost )?use ([\w.+-]+?)(?:\.\{(.*?)\}|\s+as\s+(\S+?));?[ \t]*$", re.S | re.M)
OPENS, CLOSES = "([{", ")]}"


def bare(line):
    """A line of specs/ without its comment."""
    return re.sub(r"(^|\s)--(\s.*|-*$)", "", line)


def imports(text):
    """What a text imports: names and spaces with where they come from, and the names that it hands on."""
    names, spaces, handed = {}, {}, {}
    for public, path, listed, space in USE.findall(text):
        if space:
            spaces[space] = path
            continue
        for part in re.sub(r"(--|//).*", "", listed).split(","):
            name, _, new = (it.strip() for it in part.partition(" as "))
            if name:
                names[new or name] = (path, name)
                if public:
                    handed[new or name] = (path, name)
    return names, spaces, handed


class Item:
    """A definition, a lemma or an item of the code: the key, the kind, the place, the comment above it, its lines, the headers over it; and the key
    of the record, where it has only one field of it."""
    def __init__(self, unit, name, kind, line):
        self.unit, self.name, self.kind, self.line = unit, name, kind, line
        self.key = (unit.crate, unit.name, name)
        self.comment, self.lines, self.over, self.parts, self.whole, self.unread = [], [], [], set(), self.key, []

    def place(self):
        return "%s:%d" % (self.unit.path, self.line)

    def called(self):
        return ".".join(self.key)

    def code(self):
        """Its lines without comments."""
        return [it for it in map(bare, self.lines) if it.strip()]

    def size(self):
        return len(self.code())

    def is_definition(self):
        return self.kind != "lemma"


class Header:
    """The lines `module _ (parameters) where` over some definitions, with the comment above them."""
    def __init__(self, line, comment):
        self.line, self.comment, self.lines = line, comment, []


class Module:
    """A file of specs/: its imports, and its items in their order."""
    def __init__(self, crate, name, path):
        self.crate, self.name, self.path = crate, name, path
        with open(path) as file:
            self.text = file.read()
        self.names, self.spaces, self.handed = imports(self.text)
        self.items, self.parts, self.unread = {}, {}, []
        self.all_lines = self.text.split("\n")
        self.read(self.past_imports())
        for item in self.items.values():
            for part in item.parts:
                self.parts.setdefault(part, item)

    def past_imports(self):
        """The number of the first line behind the imports; the comment before them is the head."""
        at, self.head = 0, []
        for number, line in enumerate(self.all_lines):
            if number == len(self.head) and line.startswith("--"):
                self.head.append(line)
            if re.match(r"(pub )?use ", line):
                while "{" in line and "}" not in line:
                    number += 1
                    line += self.all_lines[number]
                at = number + 1
        return at or len(self.head)

    def read(self, at):
        over, item, above, header = [], None, [], False
        for number in range(at, len(self.all_lines)):
            line = self.all_lines[number]
            code, start = bare(line).rstrip(), line.lstrip(" ")
            depth = len(line) - len(start)
            if header:                                       # a header of several lines
                over[-1].lines.append(line)
                header = not code.endswith("where")
            elif not code or start.startswith("infix"):
                above.append(line)
            elif depth < 2 * len(over) and start[0] not in CLOSES:
                over, item = over[:depth // 2], None
                above, item, header = self.begin(number, start, code, depth, over, item, above)
            else:
                above, item, header = self.begin(number, start, code, depth, over, item, above)

    def begin(self, number, start, code, depth, over, item, above):
        """Reads a line of code: a header, the first line of an item, or a further one."""
        line = self.all_lines[number]
        if depth == 2 * len(over) and start.startswith("module _"):
            over.append(Header(number + 1, comment_of(above)))
            over[-1].lines.append(line)
            return [], None, not code.endswith("where")
        if depth == 2 * len(over) and start[0] not in CLOSES:
            found = self.first_line(start, number)
            if found:
                found.comment, found.over = comment_of(above), list(over)
                found.lines.append(line)
                return [], found, False
            item = self.items.get(TOKEN.match(start).group(0), item)
        if item is None:
            self.unread.append("%s:%d" % (self.path, number + 1))
            return [], item, False
        item.lines.extend([it for it in above if it.strip()] + [line])
        part = SIGN.match(start)
        if item.kind in ("record", "data") and depth > 2 * len(over) and part:
            item.parts.add(part.group(1))
        return [], item, False

    def first_line(self, start, number):
        defined, sign = DEFINED.match(start), SIGN.match(start)
        name = defined.group(2) if defined else sign.group(1) if sign else None
        if name is None or (not defined and name in self.items):
            return None
        item = self.items[name] = Item(self, name, defined.group(1) if defined else "lemma", number + 1)
        return item


def comment_of(above):
    """The lines of comment that stand directly above, without a blank line between."""
    kept = []
    for line in reversed(above):
        if not line.strip():
            break
        kept.insert(0, line)
    return kept


def is_name(token):
    return token[0] not in "([{)]};,→×=:|↦≡" and token not in ("λ", "in", "let", "where")


def group_end(tokens, at):
    depth = 0
    for to in range(at, len(tokens)):
        depth += (tokens[to] in OPENS) - (tokens[to] in CLOSES)
        if depth == 0:
            return to
    return len(tokens) - 1


class Scope:
    """Goes through the tokens of a text from left to right, and gives those that no binder around them has. `is_constructor` says of a name in a
    pattern that it is no variable."""
    def __init__(self, bound, is_constructor):
        self.bound, self.outer, self.is_constructor = set(bound), [], is_constructor

    def binder(self, tokens, at):
        """The names of a group `(x y : T)`, and where its type begins."""
        to = at + 1
        while to < len(tokens) and is_name(tokens[to]) and tokens[to] != "pub":
            to += 1
        return (tokens[at + 1:to], to + 1) if to > at + 1 and to < len(tokens) and tokens[to] == ":" else ([], at + 1)

    def pattern(self, tokens):
        """Binds the variables of a pattern, and gives its constructors."""
        for token in tokens:
            if is_name(token) and token != "_":
                if self.is_constructor(token):
                    yield token
                else:
                    self.bound.add(token)

    def case(self, tokens, at):
        """The place of the arrow of a case that begins here, or nothing."""
        to = at
        while to < len(tokens) and tokens[to] not in ("|", "↦", "]", "[", ";"):
            to = group_end(tokens, to) + 1 if tokens[to] in "({" else to + 1
        return to if to < len(tokens) and tokens[to] == "↦" else None

    def free(self, tokens):
        at = 0
        while at < len(tokens):
            token, at = tokens[at], at + 1
            if token in OPENS:
                names, to = self.binder(tokens, at - 1)
                self.outer.append((set(self.bound) | set(names), set(self.bound), token))
                at = to
            elif token in CLOSES and self.outer:
                self.bound = self.outer.pop()[0]
            elif token == ";" and self.outer:
                self.bound = set(self.outer[-1][1])
            elif token == "λ":
                while at < len(tokens):
                    self.bound.add(tokens[at].rstrip("."))
                    at += 1
                    if tokens[at - 1].endswith("."):
                        break
                continue
            elif token == "let" and at < len(tokens):
                self.bound.add(tokens[at])
            elif tokens[at:at + 1] == ["←"]:                 # a step of a `do`: all behind it may speak of it
                for bound in [self.bound] + [it[1] for it in self.outer[-1:]]:
                    bound.add(token)
            elif not (at < len(tokens) and tokens[at] == "=" and self.outer and self.outer[-1][2] == "{") and token.split(".")[0] not in self.bound:
                yield token
            if token == "[" and tokens[at:at + 1] == ["]"]:
                yield "[]"
            elif token in ("[", "|"):
                if token == "|" and self.outer:
                    self.bound = set(self.outer[-1][1])
                arrow = self.case(tokens, at)
                if arrow is not None:
                    yield from self.pattern(tokens[at:arrow])
                    at = arrow + 1


def clauses_of(item):
    """The tokens of the item's signature, and those of each of its clauses."""
    parts, name = [], item.name
    for line in item.code():
        first = TOKEN.match(line.strip()).group(0)
        if item.kind not in ("record", "data") and parts and first == name and len(line) - len(line.lstrip()) == 2 * len(item.over):
            parts.append([])
        if not parts:
            parts.append([])
        parts[-1].extend(TOKEN.findall(re.sub(r'"[^"]*"', '""', line)))
    return parts


def header_names(lines):
    """The parameters of a header."""
    tokens, names, at = TOKEN.findall(" ".join(map(bare, lines))), [], 0
    while at < len(tokens):
        if tokens[at] in OPENS:
            names += Scope([], None).binder(tokens, at)[0]
            at = group_end(tokens, at)
        at += 1
    return names


def free_in(item, is_constructor):
    """The names in an item, in its headers too, that no binder has."""
    bound = set()
    for header in item.over:
        yield from Scope(bound, is_constructor).free(TOKEN.findall(" ".join(map(bare, header.lines)))[2:-1])
        bound |= set(header_names(header.lines))
    if item.kind in ("record", "data"):
        bound |= item.parts
    for number, tokens in enumerate(clauses_of(item)):
        scope = Scope(bound, is_constructor)
        if number and item.kind not in ("record", "data"):
            depth, to = 0, 1
            while to < len(tokens) and (depth or tokens[to] != "="):
                depth += (tokens[to] in OPENS) - (tokens[to] in CLOSES)
                to += 1
            yield from scope.pattern(tokens[1:to])
            tokens = tokens[to:]
        yield from scope.free(tokens)


def with_field(item, field):
    """A record with this field alone, and those that it speaks of."""
    head = next(at for at, it in enumerate(item.lines) if bare(it).rstrip().endswith("where")) + 1
    chunks, above = {}, []
    for line in item.lines[head:]:
        sign = SIGN.match(line.strip())
        above.append(line)
        if bare(line).strip():
            name = sign.group(1) if sign and sign.group(1) in item.parts else name
            chunks.setdefault(name, []).extend(above)
            above = []
    todo = [field]
    for name in todo:
        words = {it.split(".")[0] for line in chunks[name] for it in TOKEN.findall(bare(line))}
        todo += [it for it in chunks if it in words and it not in todo]
    made = Item(item.unit, "%s.%s" % (item.name, field), item.kind, item.line)
    made.comment, made.over, made.parts, made.whole = item.comment, item.over, item.parts, item.key
    made.lines = item.lines[:head] + [line for name, lines in chunks.items() if name in todo for line in lines]
    return made
