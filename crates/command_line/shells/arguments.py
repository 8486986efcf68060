"""The command line of manifest_check, as src/arguments.rt states it: its subcommands with their arguments.

The rows there are constants of Rust: structs, lists, strings, and names of other constants. As expressions of Python
these are calls with named arguments.
"""
import pathlib
import re
from typing import NamedTuple

SOURCE = pathlib.Path(__file__).resolve().parent.parent / "src" / "arguments.rt"

CONSTANT = re.compile(r"^const (\w+): [^=]+ =\s+(.*?);\n\n", re.S | re.M)

# A string, and what Python writes otherwise: the name of a field, the braces of a struct, a reference, and a path.
PIECE = re.compile(r'(?P<text>"(?:[^"\\]|\\.)*")|(?P<field>\w+):(?!:)|(?P<open>\{)|(?P<close>\})|&|Given::', re.S)

# What may be given to an argument.
KINDS = ("Flag", "ShortFlag", "FlagOf", "Value", "ValueWithout", "ValueWith", "OneOf", "Number", "Positive", "Values",
         "ValuesWithout", "Lists", "ShortValues", "Place", "Places", "Needed")


class Argument(NamedTuple):
    """An argument: its name, the letter that is enough for it, how it is given, what its value is called, the words
    that it may be, and its help."""

    name: str
    letter: str
    kind: str
    value: str
    words: list
    help: str

    @property
    def is_option(self):
        return self.kind not in ("Place", "Places")

    @property
    def is_repeated(self):
        return self.kind in ("Values", "ValuesWithout", "Lists", "ShortValues", "Places", "Needed")

    @property
    def is_needed(self):
        return self.kind in ("Needed", "Place")


class Subcommand(NamedTuple):
    """A subcommand: its name, what it does, what its help ends in, and its arguments."""

    name: str
    about: str
    end: str
    arguments: list


def argument(name, given, help):
    kind, *parts = given() if callable(given) else given
    letter = parts.pop(0) if kind.startswith("Short") else ""
    # A flag that needs another option has no value.
    value = parts[0] if parts and kind != "FlagOf" else ""
    return Argument(name, letter, kind, value, parts[1] if kind == "OneOf" else [], help)


def in_python(value):
    """Returns a constant's value as an expression of Python. A line of a string that ends in `\\` continues."""
    marks = {"text": lambda it: it["text"], "field": lambda it: f"{it['field']}=", "open": lambda _: "(",
             "close": lambda _: ")", None: lambda _: ""}
    return PIECE.sub(lambda it: marks[it.lastgroup](it), re.sub(r"\\\n\s*", "", value))


def subcommands():
    """Returns the subcommands, in the order of the help."""
    names = {kind: lambda *parts, kind=kind: (kind, *parts) for kind in KINDS}
    names |= {"Argument": argument, "Subcommand": Subcommand}
    for name, value in CONSTANT.findall(SOURCE.read_text(encoding="utf-8")):
        names[name] = eval(f"({in_python(value)})", names)
    return [*names["ON_MANIFESTS"], *names["ON_KEYS"], *names["ON_GRAPHS"]]
