"""Rattle's text: items with their doc comments and attributes, and contracts with their clauses."""
import re
from dataclasses import dataclass, field

# The heads of types and functions, of a clause in a contract or in the impl of a trait, and the line behind a contract.
OF_TRAIT = r"(?:(?:\w+::)*(?P<trait>\w+)(?:<.*?>)? for )?"
PARTS = {
    "type": re.compile(
        rf"(?P<pub>pub )?(?P<impl>impl)?(?:(?<=impl)(?:<.*?>)? {OF_TRAIT}|trait )&?(?P<type>\w+)"),
    "function": re.compile(r"(?P<indent> *)(?:(?P<pub>pub) |pub\(\w+\) )?(?:const |extern \"C\" )*fn (?P<name>\w+)"),
    "clause": re.compile(r" *(?:ensures ?(?P<name>\w*)|ghost (?P<ghost>\w+) =) ?\{"),
    "end": re.compile(r"\s*(?:\{\}?)?\s*$"),
}


@dataclass
class Clause:
    """A clause of a contract, or a ghost member of the impl of a trait."""

    name: str
    is_ghost: bool
    body: str


@dataclass
class Contract:
    """A function with its clauses, or the impl of a trait with its ghost members.

    A group is the lines of a comment, and the clauses below it. The first group has no comment.
    """

    type: str
    trait: str
    name: str
    is_public: bool
    comment: list
    groups: list = field(default_factory=lambda: [([], [])])

    @property
    def clauses(self):
        return [clause for _, clauses in self.groups for clause in clauses]


def documented(text, pattern):
    """Yields each item that fits the pattern: its doc comment, its attributes, and the groups of the pattern."""
    form = rf"^(?P<comment>(?: *///.*\n)*)(?P<attributes>(?: *#\[.*\n)*) *{pattern}"
    for it in re.finditer(form, text, re.M):
        lines = [line.strip().removeprefix("///").strip() for line in it["comment"].splitlines()]
        yield " ".join(lines), it["attributes"], it.groups()[2:]


def block(text, start):
    """Returns what is between the brace before `start` and its partner."""
    depth = 1
    for place in range(start, len(text)):
        depth += {"{": 1, "}": -1}.get(text[place], 0)
        if depth == 0:
            return text[start:place]
    return text[start:]


def parts(text):
    """Yields the parts of a text: the kind, the match, the lines of the comment above, and the text in its braces."""
    comment, place = [], 0
    for line in text.splitlines(keepends=True):
        bare, start, place = line.strip(), place, place + len(line)
        if bare.startswith("//") and not bare.startswith("//!"):
            comment.append(bare.lstrip("/ "))
            continue
        for kind, form in PARTS.items():
            if it := form.match(line):
                yield kind, it, comment, block(text, start + it.end()) if kind == "clause" else ""
                break
        comment = []


def contracts_in(text):
    """Returns the functions of a text, and the impls of traits, with their clauses."""
    found, type, is_of_public_trait, current = [], "", False, None
    for kind, it, comment, body in parts(text):
        if kind == "type":
            type, is_of_public_trait = it["type"], bool(it["pub"] and not it["impl"])
            current = Contract(type, it["trait"], "", True, comment) if it["trait"] else None
        elif kind == "function":
            is_public = bool(it["pub"]) or is_of_public_trait
            current = Contract(type if it["indent"] else "", "", it["name"], is_public, comment)
        elif kind == "clause" and current:
            if comment:
                current.groups.append((comment, []))
            current.groups[-1][1].append(Clause(it["name"] or it["ghost"] or "", bool(it["ghost"]), body))
        elif kind == "end" and current and current.trait:
            current.groups.append(([], []))
        elif kind == "end":
            current = None
        if current and kind in ("type", "function"):
            found.append(current)
    return found
