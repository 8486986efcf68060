"""The functions of a crate's text: which of them an edit changes, and how a check names them."""
import functools
import re
from typing import NamedTuple

from edits import changes, text_of

# The head of a function with the attributes above it, the head of an `impl`, and a constant.
HEAD = re.compile(
    r"(?P<above>(?:^[ \t]*#\[[^\n]*\n)*)^(?P<indent>[ \t]*)(?:pub(?:\(\w+\))? )?(?:extern \"C\" )?fn (?P<word>\w+)",
    re.M,
)
IMPL = re.compile(
    r"^impl(?P<parameters><[^{\n]*?>)? (?:(?:\w+::)*(?P<trait>\w+)(?P<of><[^{\n]*?>)? for )?&?(?:'\w+ )?(?P<type>\w+)",
    re.M,
)
CONSTANT = re.compile(r"^(?:pub(?:\(\w+\))? )?const (?P<word>\w+): [^=\n]+ = [^;]*;", re.M)

# The head of a closure.
CLOSURE = re.compile(r"[(,=]\s*(?:move )?\|[^|\n]*\|\s*[^|]")

# The name that a definition of the specs begins with.
DEFINITION = re.compile(r"^(?:(?:pub|abbrev|opaque) )*(\w+) :", re.M)


class Function(NamedTuple):
    """A function of a crate's text: its module, the type and the trait of its `impl` if it has those, as a check prints
    them, its name, and its cycle of calls."""

    module: str
    type: str
    trait: str
    word: str
    cycle: str

    @property
    def path(self):
        """The end of the name by which a check prints the function: that fits no other function of its crate.

        A method is printed by its type's name, with the trait's name after that where it is of a trait, but for `drop`.
        """
        if self.type:
            return f"{self.type}{'' if self.word == 'drop' else self.trait}::{self.word}"
        return self.word if self.module in ("main", "lib") else f"{self.module}::{self.word}"

    def is_named(self, name):
        """Whether a check prints the function by this name, below its crate."""
        return f"::{name}".endswith(f"::{self.path}")

    def has_closure(self, name):
        """Whether a check prints a closure of the function by this name, below its crate."""
        folders = self.path.split("::")[-2 if self.type else -1 :]
        return "::".join(["", "fn", *folders, ""]) in f"::{name}"

    def is_answered_in(self, path):
        """Whether the file of written answers at this path is the function's. The functions of a cycle share one."""
        folder = [*self.path.split("::")[:-1], f"+{self.cycle}" if self.cycle else self.word]
        return f"/{path}".endswith("/".join(["", *folder, "Answers.antt"]))


def printed(impl):
    """The type and the trait of an `impl`, as a check prints them: a parameter is `Any`, and the trait's arguments are
    behind it, but for parameters."""
    parameters = re.findall(r"[<,] ?(\w+)", impl["parameters"] or "")
    words = [it for it in re.findall(r"(?<!')\b\w+", impl["of"] or "") if it not in parameters]
    arguments = [it[0].upper() + it[1:] for it in words]
    return "Any" if impl["type"] in parameters else impl["type"], "".join([impl["trait"] or "", *arguments])


@functools.cache
def functions_of(crate):
    """The functions of the crate's text, each with its file, where its text begins and ends there, and that text."""
    found = []
    for file in sorted(crate.glob("src/**/*.rt")):
        text, path = text_of(file), str(file.relative_to(crate))
        heads, impls = [*HEAD.finditer(text)], [*IMPL.finditer(text)]
        for head, next in zip(heads, [*[head.start() for head in heads[1:]], len(text)]):
            closed = re.compile(rf"^{head['indent']}}}\n", re.M).search(text, head.end(), next)
            end = closed.end() if closed else next
            above = [impl for impl in impls if impl.start() < head.start()]
            type, trait = printed(above[-1]) if head["indent"] and above else ("", "")
            cycle = re.search(r"#\[cycle\((\w+)\)\]", head["above"])
            module = path[len("src/") : -len(".rt")].replace("/", "::")
            it = Function(module, type, trait, head["word"], cycle[1] if cycle else "")
            found.append((it, path, head.start(), end, text[head.end() : end]))
    return found


def with_closures(crate):
    """The functions of the crate that have closures. A check proves these by themselves."""
    return {it for it, *_, body in functions_of(crate) if CLOSURE.search(body)}


def naming(constant, crate):
    """The functions of the crate that name a constant, or a definition of its specs that names it."""
    words = {constant}
    for file in sorted(crate.glob("specs/**/*.antt")):
        for part in text_of(file).split("\n\n"):
            if re.search(rf"\b{constant}\b", part):
                words |= {*DEFINITION.findall(part)}
    sought = re.compile(rf"\b({'|'.join(sorted(words))})\b")
    return [it for it, *_, body in functions_of(crate) if sought.search(body)]


def constants_of(edit, crate):
    """The constants that the edit changes."""
    found = set()
    for path, old, _ in changes(edit):
        text = text_of(crate / path)
        at = text.find(old)
        found |= {it["word"] for it in CONSTANT.finditer(text) if it.start() <= at and at + len(old) <= it.end()}
    return found


def changed_by(edit, crate):
    """The functions that the edit changes, with those of the crate that name a constant that it changes.

    None where it changes anything else.
    """
    found = {it for constant in constants_of(edit, crate) for it in naming(constant, crate)}
    for path, old, _ in changes(edit):
        text = text_of(crate / path)
        at = text.find(old)
        end = at + len(old)
        its = {it for it, file, start, stop, _ in functions_of(crate) if file == path and start < end and at < stop}
        is_of_constant = any(it.start() <= at and end <= it.end() for it in CONSTANT.finditer(text))
        if not its and not is_of_constant:
            return set()
        found |= its
    return found
