"""house: all definitions of the repository and all contracts, and what each rests on, for `believed` and `check-believed`. What a name means is found by
imports, renamed or handed on, by spaces (`as`), by the names of its own module, and where it is a member of a trait by the trait, or by the impl of the
type that is named."""
import glob, os, re
from here import TOP
from house_specs import TOKEN, Module, Scope, free_in
from house_code import Code, CodeItem, split_types
from house_tables import Tables

KINDS = ("struct", "enum", "const", "type")


def crates_in_order():
    """The crates, each behind those that it stands on."""
    below, order = {}, []
    with open(os.path.join(TOP, "crates.txt")) as lines:
        for line in lines:
            name, colon, rest = line.partition(":")
            if colon and not line.startswith("#"):
                below[name.strip()] = rest.split()

    def add(crate):
        if crate in below and crate not in order:
            for it in below[crate]:
                add(it)
            order.append(crate)
    for crate in below:
        add(crate)
    return order


def is_test(code):
    return re.search(r"(^|_)tests?$", code.name.split(".")[-1]) is not None


class Context:
    """Where a text of the code stands: the file, the trait or impl around it, and what its type parameters are."""
    def __init__(self, code, outer, bounds, env):
        self.code, self.outer, self.bounds, self.env = code, outer, bounds, dict(env)


class House:
    """The repository; or one with some crates of another folder, and all others as they are `known`."""
    def __init__(self, top=TOP, known=None):
        self.top, self.crates = top, crates_in_order()
        self.modules, self.codes, self.items, self.types, self.traits, self.impls, self.models = {}, {}, {}, {}, {}, {}, {}
        self.cited, self.std, self.tables = {}, {}, None
        for crate in self.crates:
            if known and not os.path.isdir(os.path.join(top, "crates", crate)):
                for mine, theirs in ((self.modules, known.modules), (self.codes, known.codes)):
                    mine.update((it, unit) for it, unit in theirs.items() if it[0] == crate)
            else:
                self.read(crate)
        for module in self.modules.values():
            self.items.update((it.key, it) for it in module.items.values())
        for code in self.codes.values():
            self.take_code(code)
        for impl in self.impls.get("Model", []):
            for item in impl.members.values():
                item.group = self.type_of(impl.whom, Context(impl.code, None, impl.bounds, {}))[0]

    def read(self, crate):
        for kind, unit, end in (("specs", Module, ".antt"), ("src", Code, ".rt")):
            base = os.path.join(self.top, "crates", crate, kind) + "/"
            for path in sorted(glob.glob(base + "**/*" + end, recursive=True)):
                name = path[len(base):-len(end)].replace("/", ".")
                if kind == "src" or name not in ("Lib", "laws"):
                    (self.modules if kind == "specs" else self.codes)[crate, name] = unit(crate, name, path)

    def take_code(self, code):
        for part in code.parts:
            if part.word in KINDS:
                self.types.setdefault(code.crate, {}).setdefault(part.name, self.add(CodeItem(part, part.name, part.word)))
            elif part.word == "trait":
                part.supers = [it.strip().split("<")[0] for it in part.header.lstrip(": ").split("+") if it.strip()]
                self.traits[part.name] = part
                self.take_members(part, part.name)
            elif part.word == "impl":
                head = part.header.split(" where ")[0]
                trait, _, whom = head.rpartition(" for ")
                part.trait, part.whom = trait.split("<")[0].strip().split("::")[-1], whom.strip()
                self.impls.setdefault(part.trait, []).append(part)
                self.take_members(part, "%s for %s" % (part.trait, part.whom))

    def take_members(self, part, title):
        part.members = {}
        for inner in part.inner:
            if (inner.word == "ghost" and inner.name != "use") or inner.word == "type":
                inner.outer = part
                part.members[inner.name] = self.add(CodeItem(inner, "%s.%s" % (title, inner.name), "member" if part.word == "trait" else "value"))

    def add(self, item):
        self.items[item.key] = item
        return item

    # What a name means.

    def resolve(self, path, name):
        """The key of the item that this name of this path means; or what it is outside of the house, where the kit has it or makes it."""
        found = re.match(r"Rattle\.(\w+)\.specs\.(.+)$", path)
        if not found or found.group(1) not in self.crates or found.group(2).startswith("contracts."):
            return ("", path, name)
        crate, parts = found.group(1), found.group(2).split(".")
        if parts[0] == "declared":
            return self.declared(crate, parts[1:], name)
        for cut in range(len(parts), 0, -1):
            module = self.modules.get((crate, ".".join(parts[:cut])))
            if module:
                return self.in_module(module, parts[cut] if cut < len(parts) else name)
        return None

    def in_module(self, module, name):
        if name in module.items:
            return module.items[name].key
        if name in module.handed:
            return self.resolve(*module.handed[name])
        owner = module.parts.get(name)
        return owner.key if owner and owner.kind == "data" else None

    def declared(self, crate, parts, name):
        """A type or a constant of the code; a variant means its type."""
        for want in (name, parts[-1], parts[-2] if len(parts) > 1 else name):
            for cut in range(len(parts), 0, -1):
                key = (crate, ".".join(parts[:cut]), want)
                if key in self.items:
                    return key
        found = self.types.get(crate, {}).get(name)
        return found.key if found else None

    def meaning(self, unit, token):
        """What a token means in a file of specs/, or in what the code says of itself."""
        path = token.rstrip(".").split(".")
        if path[0] in unit.names:
            return self.resolve(*unit.names[path[0]])
        if path[0] in unit.spaces:
            return self.resolve(unit.spaces[path[0]], path[1] if len(path) > 1 else path[0])
        return self.in_module(unit, path[0]) if isinstance(unit, Module) else None

    def is_constructor(self, unit):
        def test(token):
            key = self.meaning(unit, token)
            item = self.items.get(key)
            return bool(key) and (item is None or item.kind in ("data", "struct", "enum", "const"))
        return test

    def mixed(self, unit, tokens):
        """The operators among the names of a file that stand in the text: those whose signs do, and `>>=` where there is a `do`."""
        signs = set(tokens) | ({">>="} if "do" in tokens else set())
        for name in list(unit.names) + (list(unit.items) if isinstance(unit, Module) else []):
            if "◌" in name and name not in ("◌",) and all(it in signs for it in name.split("◌") if it):
                yield name

    # What an item rests on.

    def rests_on(self, node):
        """The nodes that this one cites: each a key, and what type parameters are there."""
        if node not in self.cited:
            key, env = node
            item = self.items[key]
            if isinstance(item, CodeItem):
                found = self.of_code(item, env)
            else:
                tokens = list(free_in(item, self.is_constructor(item.unit)))
                found = [(self.meaning(item.unit, it), ()) for it in tokens + list(self.mixed(item.unit, tokens))]
            self.cited[node] = sorted({it for it in found if it[0] and it[0] not in (key, item.whole)}, key=str)
        return self.cited[node]

    def of_code(self, item, env):
        part = item.part
        if item.kind in KINDS:
            text = " ".join(re.sub(r"//.*", "", it) for it in item.lines)
            found = {self.type_named(part.code, name) for name in re.findall(r"\b[A-Z]\w*", text)} - {None}
            return [(it, ()) for it in found] + list(self.model_of(item.key))
        context = Context(part.code, part.outer, part.in_scope(), env)
        if part.word == "type":
            return self.types_in(part.value.lstrip(" ="), context)
        whom = self.type_of(part.outer.whom, context)[0] if item.kind == "value" else None
        return [*self.in_text(part.value, context), *([(whom, ())] if whom in self.items else [])]

    def type_named(self, code, name):
        crate, there = code.used.get(name, (code.crate, name))
        found = self.types.get(crate, {}).get(there)
        return found.key if found else None

    def types_in(self, text, context):
        """The types of the house that a type names, and the values of their models."""
        for name in re.findall(r"\b[A-Z]\w*", text):
            key = self.type_named(context.code, name)
            if key:
                yield key, ()

    def in_text(self, text, context):
        """What a clause, or what a member of a trait or an impl is, cites."""
        said = []
        text = re.sub(r"⟦(.*?)⟧", lambda it: said.append(it.group(1)) or "⟦%d" % (len(said) - 1), text)
        for name, what in re.findall(r"\blet (\w+) = (⟦\d+) in", text):
            text = re.sub(r"(?<![\w.])%s\." % name, what + ".", text)
        text = re.sub(r"(⟦\d+) (?=\.)", r"\1", text)
        tokens = list(Scope([], self.is_constructor(context.code)).free(TOKEN.findall(re.sub(r"//.*", "", text))))
        for token in tokens + list(self.mixed(context.code, tokens)):
            path = token.rstrip(".").split(".")
            if path[0].startswith("⟦") and len(path) > 1:
                yield from self.member(self.type_of(re.sub(r"^<|>$", "", said[int(path[0][1:])]).split(" as ")[0], context), path[1])
            elif path[0] == "Self" and len(path) > 1:
                yield from self.member(self.type_of("Self", context), path[1])
            elif path[0] in context.bounds:
                yield from self.member(self.type_of(path[0], context), path[1] if len(path) > 1 else "")
            elif path[0] in context.code.names or path[0] in context.code.spaces:
                yield self.meaning(context.code, token), ()
            elif context.outer is not None and path[0] in getattr(context.outer, "members", {}) and "Self" in context.env:
                yield from self.member(context.env["Self"], path[0])
            elif context.outer is not None and path[0] in getattr(context.outer, "members", {}):
                yield context.outer.members[path[0]].key, tuple(sorted(context.env.items())) if context.outer.word == "impl" else ()
            elif path[0][:1].isupper() and self.type_named(context.code, path[0]):
                yield self.type_named(context.code, path[0]), ()

    # Types and members of traits.

    def type_of(self, text, context):
        """A type as a value: a key with its arguments, or a parameter with its bounds."""
        text = text.strip().lstrip("&").replace("mut ", "").strip()
        head, _, rest = text.partition("<")
        head = head.strip().split("::")[-1]
        if head == "Self" and "Self" not in context.env and context.outer is not None:
            if context.outer.word == "trait":
                return ("?", "Self", (context.outer.name,))
            return self.type_of(context.outer.whom, context)
        if head in context.env:
            return context.env[head]
        if head in context.bounds:
            return ("?", head, tuple(it.split("<")[0].strip().split("::")[-1] for it in context.bounds[head]))
        key = self.type_named(context.code, head)
        arguments = tuple(self.type_of(it, context) for it in split_types(rest[:rest.rfind(">")])) if rest else ()
        item = self.items.get(key)
        if item is not None and item.kind == "type" and item.part.value:
            return self.type_of(item.part.value.split("=", 1)[1], Context(item.unit, None, {}, zip(item.part.bounds, arguments)))
        return (key or head, "", arguments)

    def supers(self, names):
        todo, found = list(names), []
        while todo:
            name = todo.pop(0)
            if name in self.traits and name not in found:
                found.append(name)
                todo += self.traits[name].supers
        return found

    def member(self, what, name):
        """The nodes of a member of this type: its value in the impl, or what the trait says of it."""
        if what[0] == "?":
            for trait in self.supers(what[2]):
                if name in self.traits[trait].members:
                    yield self.traits[trait].members[name].key, ()
                    return
            return
        for impls in self.impls.values():
            for part in impls:
                env = self.match(part, what) if name in part.members else None
                if env is not None:
                    yield part.members[name].key, tuple(sorted(env.items()))
                    return
        for trait in self.traits.values():
            if name in trait.members and trait.name in self.impls and any(self.match(it, what) is not None for it in self.impls[trait.name]):
                yield trait.members[name].key, ()
                return

    def match(self, part, what):
        """What the parameters of an impl are where its type is this one, or nothing."""
        pattern = self.type_of(part.whom, Context(part.code, None, part.bounds, {}))
        env = {}
        return env if unify(pattern, what, env) else None

    # Contracts.

    def functions(self):
        """Each function of a file that is no test's, with the trait or impl around it."""
        for code in self.codes.values():
            if not is_test(code):
                for part in code.parts:
                    for it in part.inner if part.word in ("trait", "impl") else [part]:
                        if it.word == "fn":
                            yield it

    def public_functions(self):
        for it in self.functions():
            if it.public or (it.outer is not None and it.outer.word == "trait"):
                yield it

    def of_clause(self, part, clause, env=()):
        context = Context(part.code, part.outer, part.in_scope(), env)
        return [it for it in self.in_text(clause.text, context) if it[0]]

    def models_in(self, part, env=()):
        """The types in a signature; where one has a model, its value and view: `.now` and `.old` mean these."""
        text, context = part.header, Context(part.code, part.outer, part.in_scope(), env)
        names = set(re.findall(r"\b[A-Z]\w*", text))
        if "self" in re.findall(r"\w+", text.split(")")[0]):
            names.add("Self")
        for name in sorted(names):
            what = self.type_of(name, context)
            if what[0] in self.items:
                yield from list(self.model_of(what[0])) or [(what[0], ())]

    def model_of(self, key):
        """What definitions see of a type: the value and the view of its model, if it has one."""
        for impl in self.impls.get("Model", []):
            if self.type_of(impl.whom, Context(impl.code, None, impl.bounds, {}))[0] == key:
                for member in ("Value", "view"):
                    if member in impl.members:
                        yield impl.members[member].key, ()

    def cone(self, roots, read=None):
        """All that these nodes rest on, each with the one that cites it first, and which of these names are the kit's. Where the fields of tables are
        given that are read, it is without the others."""
        why, outside, todo = {it: None for it in roots}, set(), list(roots)
        for node in todo:
            if self.items[node[0]].kind == "lemma":
                continue
            for other in self.rests_on(node):
                if other[0] not in self.items:
                    outside.add(other[0])
                    continue
                other = other if read is None else (self.add(self.tables.part_of(self.items[other[0]], read)).key, other[1])
                if other not in why:
                    why[other] = node
                    todo.append(other)
        return why, outside

    def cone_of_statements(self, roots):
        """The cone of definitions that are named, without the fields of tables that nothing in it reads (house_tables)."""
        self.tables, read = self.tables or Tables(self), set()
        while True:
            why, outside = self.cone(roots, read)
            more = read.union(*(self.tables.read_in(self.items[it]) for it, _ in why))
            if more == read:
                return why, outside
            read = more


def unify(pattern, what, env):
    if pattern[0] == "?":
        env[pattern[1]] = what
        return True
    return pattern[0] == what[0] and len(pattern[2]) == len(what[2]) and all(unify(a, b, env) for a, b in zip(pattern[2], what[2]))
