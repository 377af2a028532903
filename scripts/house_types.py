"""house_types: whether a type is that of evidence: of a proof of some statement, rather than of a value or of a statement itself.

A type is evidence where its last part, behind all arrows and binders, is an equation, an order, an equivalence or the impossible; a product, or a record
or a data type with a field that is; or a definition into a Type that stands for such a type. Into `Type n` goes a statement, which is none."""
import re
from house_specs import OPENS, TOKEN, bare, clauses_of, group_end
from house_code import CodeItem

TESTS = set("≡ ≢ ≤ < ≥ > ↔ ≈ ⊥".split())
# Types of the kit that hold values; what else the kit says of something is evidence.
VALUES = set("ℕ Bool List Option Result Unit FinMap Map Vec Fml Coded".split())


def parts_at(tokens, signs):
    """The parts between such signs that stand in no bracket."""
    parts, at = [[]], 0
    while at < len(tokens):
        if tokens[at] in signs:
            parts.append([])
            at += 1
            continue
        to = group_end(tokens, at) + 1 if tokens[at] in OPENS else at + 1
        parts[-1].extend(tokens[at:to])
        at = to
    return parts


def past_colon(tokens):
    """What stands behind the first colon, in `name : T` and in `(x y : T)`."""
    return tokens[tokens.index(":") + 1:] if ":" in tokens else tokens


class Types:
    def __init__(self, house):
        self.house, self.known = house, {}

    def is_evidence(self, tokens, unit):
        last = parts_at(tokens, "→")[-1]
        while last and last[0] == "let" and "in" in last:
            last = last[last.index("in") + 1:]
        if last and last[0] == "λ":
            dots = [at for at, it in enumerate(last) if it.endswith(".")]
            return bool(dots) and self.is_evidence(last[dots[0] + 1:], unit)
        factors = parts_at(last, "×⊎")
        if len(factors) > 1:
            return any(self.is_evidence(it, unit) for it in factors)
        if last and last[0] in "({" and group_end(last, 0) == len(last) - 1:
            inner = last[1:-1]
            named = re.match(r"^[^():]+ : ", " ".join(inner))
            return self.is_evidence(past_colon(inner) if named else inner, unit)
        if len(parts_at(last, TESTS)) > 1:
            return True
        return bool(last) and self.of_name(last[0], len(last) > 1, unit)

    def of_name(self, token, applied, unit):
        """Whether a type with this name at its head is; a variable that is applied is a statement of what it is applied to."""
        if token == "Type" or token in OPENS:
            return False
        if token == "⊥":
            return True
        key = self.house.meaning(unit, token)
        if not key:
            return applied
        item = self.house.items.get(key)
        if item is None:
            return key[2] not in VALUES
        if key not in self.known:
            self.known[key] = False
            self.known[key] = self.of_item(item)
        return self.known[key]

    def of_item(self, item):
        """Whether a definition, as a type, is one of evidence."""
        if isinstance(item, CodeItem):
            return False
        if item.kind in ("record", "data"):
            return any(self.is_evidence(it, item.unit) for it in field_types(item))
        return any(self.is_evidence(it[it.index("=") + 1:], item.unit) for it in clauses_of(item)[1:] if "=" in it)

    def is_proof(self, item):
        """Whether an item is a proof: by its word, a lemma is `name : T` without `abbrev`; and by its type."""
        if item.kind == "member":
            return item.part.word == "ghost" and self.is_evidence(TOKEN.findall(item.part.value), item.unit)
        if item.kind == "value":
            trait = self.house.traits.get(item.part.outer.trait)
            member = trait and trait.members.get(item.part.name)
            return bool(member) and self.is_proof(member)
        if isinstance(item, CodeItem) or item.kind in ("record", "data"):
            return False
        return item.kind == "lemma" or self.is_evidence(past_colon(clauses_of(item)[0]), item.unit)


def field_types(item):
    """The types of a record's fields; of a data type those of what its constructors take."""
    texts = []
    for line in item.code()[1:]:
        found = re.match(r"\s*(?:pub )?([^\s(){}:]+) : (.*)", line)
        if found:
            texts.append(found.group(2))
        elif texts:
            texts[-1] += " " + line
    for text in texts:
        tokens = TOKEN.findall(text)
        yield from [tokens] if item.kind == "record" else parts_at(tokens, "→")[:-1]
