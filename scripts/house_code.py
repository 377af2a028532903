"""house_code: the types, traits, impls and functions of crates/*/src with their contracts, as their text shows them, for `believed` and
`check-believed`."""
import re
from house_specs import Item, imports

WORDS = r"(?:(pub(?:\([^)]*\))?)\s+)?(?:unsafe\s+)?(?:const\s+(?=fn))?(fn|struct|enum|trait|impl|const|type|mod|use|static|ghost|pub)\b"
ITEM = re.compile(WORDS)
CLAUSE = re.compile(r"\s*(requires|ensures|reads|decreases)\b\*?\s*(\w*)\s*(?=\{)")
BRACKET = re.compile(r"[()\[\]{}]")
OUTSIDE = re.compile(r'//[^\n]*|/\*.*?\*/|b?"(?:\\.|[^"\\])*"|b?\'(?:\\(?:x..|u\{[^}]*\}|.)|[^\'\\])\'', re.S)


def masked(text):
    """The text with blanks for comments, strings and characters, at the same places."""
    return OUTSIDE.sub(lambda it: re.sub(r"[^\n]", " ", it.group(0)), text)


def closing(text, at):
    """The place of the bracket that closes the one here."""
    depth = 0
    for found in BRACKET.finditer(text, at):
        depth += 1 if found.group(0) in "([{" else -1
        if depth == 0:
            return found.start()
    return len(text) - 1


def until(text, at, ends):
    """The first of these characters from here on that stands in no bracket, or the end."""
    while at < len(text) and text[at] not in ends:
        at = closing(text, at) + 1 if text[at] in "([{" else at + 1
    return at


def angled(text, at):
    """The place behind the `>` that closes the `<` here."""
    depth = 0
    for to in range(at, len(text)):
        depth += (text[to] == "<") - (text[to] == ">" and text[to - 1] not in "-=")
        if depth == 0:
            return to + 1
    return len(text)


def split_types(text):
    """The parts of a list of types or parameters, by the commas that stand in no bracket."""
    parts, depth, last = [], 0, 0
    for at, sign in enumerate(text):
        depth += (sign in "<([{") - (sign in ")]}" or (sign == ">" and text[at - 1] not in "-="))
        if sign == "," and depth == 0:
            parts.append(text[last:at].strip())
            last = at + 1
    return [it for it in parts + [text[last:].strip()] if it]


class Clause:
    def __init__(self, word, label, text, line):
        self.word, self.label, self.text, self.line = word, label, text, line


class Part:
    """An item of a file of code, or of a trait or an impl: its word (`fn`, `ghost`, ..), its name, its place, and what stands in it."""
    def __init__(self, code, word, public, start, outer):
        self.code, self.word, self.public, self.start, self.outer = code, word, public, start, outer
        self.name, self.bounds, self.clauses, self.inner, self.value = "", {}, [], [], ""

    def line(self):
        return self.code.text.count("\n", 0, self.start) + 1

    def text(self, end=None):
        return self.code.text[self.start:end or self.end]

    def docs(self):
        """The lines of its comment, `///`."""
        lines, at, kept = self.code.all_lines, self.line() - 2, []
        while at >= 0 and re.match(r"\s*(///|#\[)", lines[at]):
            if lines[at].lstrip().startswith("///"):
                kept.insert(0, lines[at].strip())
            at -= 1
        return kept

    def in_scope(self):
        """The type parameters with their bounds, those of the trait or impl around it too."""
        return dict(self.outer.bounds, **self.bounds) if self.outer else self.bounds


def bounds_of(text):
    """The parameters of `<A: X + Y, B>`, each with its bounds."""
    found = {}
    for part in split_types(text):
        name, _, rest = part.partition(":")
        if not name.startswith("'"):
            found[name.replace("const ", "").strip()] = [it.strip() for it in rest.split("+") if it.strip()]
    return found


class Code:
    """A file of src/."""
    def __init__(self, crate, name, path):
        self.crate, self.name, self.path = crate, name, path
        with open(path) as file:
            self.text = file.read()
        self.all_lines = self.text.split("\n")
        self.mask = masked(self.text)
        self.names, self.spaces = {}, {}
        for use in re.findall(r"ghost use [^;]*;", self.mask):
            names, spaces, _ = imports(use)
            self.names.update(names)
            self.spaces.update(spaces)
        self.used = self.rust_imports()
        self.parts = list(self.read(0, len(self.mask), None))

    def rust_imports(self):
        """What `use` brings from a crate: by its name here, the crate and the name there."""
        found = {}
        for path, listed in re.findall(r"(?<!ghost )\buse ([\w:]+?)(?:::\{([^}]*)\})?;", self.mask):
            first = path.split("::")[0]
            crate = self.crate if first in ("crate", "self", "super") else first
            for part in [it.strip() for it in listed.split(",") if it.strip()] or [path.split("::")[-1]]:
                name, _, new = part.partition(" as ")
                found[new or name] = (crate, name.split("::")[-1])
        return found

    def read(self, at, end, outer):
        while True:
            skipped = re.compile(r"(?:\s|#!?(?=\[))*").match(self.mask, at, end).end()
            if skipped < end and self.mask[skipped] == "[":
                at = closing(self.mask, skipped) + 1
                continue
            found = ITEM.match(self.mask, skipped, end)
            if not found:
                if skipped >= end:
                    return
                at = skipped + 1
                continue
            part = Part(self, found.group(2), found.group(1) == "pub", skipped, outer)
            at = part.end = self.past(part, found.end(), end)
            yield part

    def past(self, part, at, end):
        """Reads the part on from here, and gives the place behind it."""
        word, text = part.word, self.mask
        named = re.compile(r"\s*(\w+)").match(text, at)
        if word in ("fn", "struct", "enum", "trait", "const", "type", "ghost", "mod", "static") and named:
            part.name, at = named.group(1), named.end()
        if word == "ghost" and part.name != "use":
            to = until(text, at, ";,")
            opened = text.index("{", at)
            part.value = self.text[opened + 1:closing(text, opened)]
            return to + 1
        if word in ("use", "const", "type", "static") or part.name == "use":
            to = until(text, at, ";")
            part.value = text[at:to]
            return to + 1
        if word in ("fn", "struct", "enum", "trait", "impl"):
            blank = re.compile(r"\s*").match(text, at).end()
            if text[blank:blank + 1] == "<":
                to = angled(text, blank)
                part.bounds, at = bounds_of(text[blank + 1:to - 1]), to
        return self.past_function(part, at) if word == "fn" else self.past_block(part, at, end)

    def past_block(self, part, at, end):
        to = min(until(self.mask, at, "{;"), end)
        part.header = self.mask[at:to].strip()
        if to >= end or self.mask[to] == ";":
            return to + 1
        close = closing(self.mask, to)
        if part.word in ("trait", "impl"):
            part.inner = list(self.read(to + 1, close, part))
        part.value = self.mask[to + 1:close]
        return close + 1

    def past_function(self, part, at):
        text, to = self.mask, at
        while to < len(text) and text[to] not in "{;" and not (text[to] in "red" and not text[to - 1].isalnum() and CLAUSE.match(text, to)):
            to = closing(text, to) + 1 if text[to] in "([" else to + 1
        part.header = text[at:to]
        part.signature_end = to
        while True:
            found = CLAUSE.match(text, to)
            if not found:
                break
            close = closing(text, found.end())
            line = text.count("\n", 0, found.start(1)) + 1
            part.clauses.append(Clause(found.group(1), found.group(2), self.text[found.end() + 1:close], line))
            to = part.signature_end = close + 1
        to = until(text, to, "{;")
        return closing(text, to) + 1 if text[to:to + 1] == "{" else to + 1


class CodeItem(Item):
    """A type or a constant of the code, a member of a trait, a value in an impl, or what a type's model is, as something that definitions rest on."""
    def __init__(self, part, name, kind):
        Item.__init__(self, part.code, name, kind, part.line())
        self.part, self.comment = part, part.docs()
        self.lines = shown_lines(part)

    def size(self):
        return sum(1 for it in self.lines if it.strip() and not it.lstrip().startswith("//"))


def shown_lines(part):
    """The lines of an item without attributes and ghost fields (these hold of every value that there is)."""
    text, mask = part.text(), part.code.mask[part.start:part.end]
    if part.word in ("struct", "enum"):
        for found in reversed(list(re.finditer(r"[ \t]*(?:///[^\n]*\n[ \t]*)*ghost \w+:", text))):
            if mask[found.end() - 1] == ":":
                end = until(mask, found.end(), ",}")
                text, mask = [it[:found.start()] + it[end + 1:].lstrip("\n") for it in (text, mask)]
    indent = len(part.code.all_lines[part.line() - 1]) - len(part.code.all_lines[part.line() - 1].lstrip())
    lines = [it[indent:] if it[:indent].isspace() else it for it in text.split("\n")]
    return [it for it in lines if it.strip() and not it.lstrip().startswith("#[")]
