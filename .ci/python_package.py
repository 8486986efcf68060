"""Tries the Python package `nevgrasi`, which has to be on the path: that its values are compared, sorted, hashed,
copied and pickled, that other types raise `TypeError`, what a condition consists of, what is true on the targets of
rustc, that many keys are one call and a graph is computed once, and the lines of Python in docs/OTHER-LANGUAGES.md.

The values, errors and parts of conditions are in crates/nevgrasi_c/python.json. The facts of targets are what `rustc
--print cfg` prints, where rustc 1.95.0 is, and `conditions.py` finds the keys that are true for these lines. The last
line is `N passed, M failed`.
"""
import copy
import doctest
import json
import pickle
import shutil
import sys

import nevgrasi
from checks import check, count, ended, finish, try_each
from conditions import inside_of_key, is_true, read
from crates import ROOT
from graph_model import dependency, document_of, graphs
from installed import PAGE, blocks
from nevgrasi import Condition, Fault, Facts, Key, facts_of, keys_at, known_targets, match_keys

FLAT = b"unix" + bytes([4]) + bytes(16)

# Expressions over this module, and what their values are.
STATED = json.loads((ROOT / "crates" / "nevgrasi_c" / "python.json").read_text(encoding="utf-8"))
KEYS = STATED["keys"]
RELEASE = "rustc 1.95.0 "


def value(expression):
    """The value of an expression over this module."""
    return eval(expression, globals())


def raised(expression):
    """The type of what an expression raises."""
    try:
        return f"returns {value(expression)!r}"
    except Exception as error:
        return type(error)


def try_values():
    """Values of one type are equal, sorted and hashed as they should be, and survive a copy."""
    for name, expressions in STATED["ordered"].items():
        values = [value(it) for it in expressions]
        check(f"{name}, printed", [repr(it) for it in values], expressions)
        check(f"{name}, sorted", sorted(reversed(values)), values)
        for a, one in enumerate(values):
            for b, other in enumerate(values):
                found = one == other, one != other, one < other, one <= other, one > other, one >= other
                check(f"{one!r} and {other!r}", found, (a == b, a != b, a < b, a <= b, a > b, a >= b))
            for made in (copy.copy(one), copy.deepcopy(one), pickle.loads(pickle.dumps(one)), value(repr(one))):
                check(f"{one!r}, copied", (type(made), made == one, hash(made) == hash(one)), (value(name), True, True))
    for first, second in STATED["equal"]:
        one, other = value(first), value(second)
        check(f"{first} == {second}", (one == other, hash(one) == hash(other), len({one, other})), (True, True, 1))
    values = [value(it) for it in STATED["different"]]
    check("values that differ", len({*values}), len(values))
    count(not any(one == other for place, one in enumerate(values) for other in values[:place]), "values are equal")


def try_errors():
    """What is wrong raises an error of its own type."""
    for expression, error in [*((it, "TypeError") for it in STATED["of_other_types"]), *STATED["wrong"]]:
        check(expression, raised(expression), value(error))
    for name in ("text", "canonical", "other"):
        check(f"a key's {name} is set", raised(f"setattr(Key('a'), {name!r}, 'b')"), AttributeError)


def parts(condition):
    """What a condition consists of."""
    own = condition.kind, condition.name, condition.value, condition.is_raw
    return [*own, *map(parts, condition.members)]


def try_conditions():
    """A condition has its parts, of whatever it was created."""
    for text, wanted in STATED["conditions"]:
        condition = Condition(text)
        for made in (condition, Condition(condition.flat), Key(text).condition(), copy.copy(condition)):
            check(f"parts of {text}", parts(made), wanted)
    deep = Condition(f"cfg({'not(' * 9_999}a{')' * 9_999})")
    last, levels = deep, 0
    while last.members:
        (last,), levels = last.members, levels + 1
    check("the last part of a deep condition", (str(last), levels), ("cfg(a)", 9_999))


def try_facts():
    """Facts have their lines, and match by them, however they are spelled."""
    for given, wanted in STATED["lines"]:
        facts = Facts(given)
        check(f"lines of {given!r}", (list(facts), facts.lines, len(facts)), (wanted, tuple(wanted), len(wanted)))
        check(f"text of {given!r}", str(facts), "\n".join(wanted))
        for line in wanted:
            spaced = f" {line} ".replace("=", " = ", 1)
            count(line in facts and spaced in facts and f"r#{line}" in facts, f"{line!r} is not in {facts!r}")
        count(all(it not in facts for it in ("", "c", 'k="w"', "k=v", "a b", None, 1)), f"more is in {facts!r}")
    facts = Facts(["unix", 'os="é"'], "some-target")
    for key, is_so in (("cfg(unix)", True), ("cfg(r#unix)", True), ('cfg(os = "é")', True), ("cfg(os)", False),
                       ("some-target", True), ("another", False), ("cfg(all())", True), ("cfg(any())", False)):
        found = Condition(key).matches(facts), Key(key).matches("some-target", facts), keys_at([key], facts)
        check(f"{key} of {facts!r}", found, (is_so, is_so, [key] if is_so else []))


def try_target(target):
    """The facts of a target are those of rustc, and keys are true by them."""
    printed = ended(["rustc", "--print", "cfg", "--target", target]).output
    lines, facts = printed.splitlines(), facts_of(target)
    check(f"facts of {target}", (list(facts), f"{facts}\n", facts == Facts(printed, target)), (lines, printed, True))
    inside = {key: inside_of_key(key) for key in KEYS}
    wanted = [key for key, it in inside.items() if (key == target if it is None else is_true(read(it), lines))]
    check(f"keys at {target}", keys_at(KEYS, target), wanted)
    check(f"keys at {target}, read", keys_at(map(Key, KEYS), Facts(lines, target)), [*map(Key, wanted)])
    check(f"answers at {target}", match_keys([*KEYS, "cfg(a b)"], target), [*(key in wanted for key in KEYS), None])


class Counting:
    """The shared library, which counts the calls that are made."""

    def __init__(self, library):
        self.library, self.calls = library, 0

    def __getattr__(self, name):
        self.calls += 1
        return getattr(self.library, name)


def counted(*given, asked=nevgrasi.graph):
    """A graph, or what else is asked, and how many calls it took."""
    library = nevgrasi._library.LIBRARY
    nevgrasi._library.LIBRARY = counting = Counting(library)
    try:
        return asked(*given), counting.calls
    finally:
        nevgrasi._library.LIBRARY = library


def try_batches():
    """Many keys are one call, whichever of them are rejected."""
    deep = f"cfg({'not(' * 10_000}a{')' * 10_000})"
    facts, given = Facts(["unix"], "x"), [*KEYS, "cfg(a b)", Key("cfg(unix)"), "x", "cfg(é", "cfg(\0)", deep] * 100
    rejected = ("cfg(a b)", "cfg(é", "cfg(\0)", deep)
    wanted = [None if it in rejected else Key(str(it)).matches("x", ["unix"]) for it in given]
    check("many keys", counted(given, facts, asked=match_keys), (wanted, 1))
    found = [it for it in given if it not in rejected]
    kept = [it for it, is_so in zip(given, wanted) if is_so]
    check("many keys at a target", counted(found, facts, asked=keys_at), (kept, 1))
    check("no keys", (match_keys([], facts), keys_at((), "avr-none")), ([], []))


def unix_graph(count):
    """A document of one package, and of others that it depends on where `cfg(unix)` is true."""
    names = [f"p{number}" for number in range(count)]
    return document_of([{"id": it} for it in ["a", *names]], {"a": [dependency(it, "cfg(unix)") for it in names]})


def try_graphs():
    """A graph is computed once, and again only if its lines are much longer than its document, which may be a text,
    bytes, or the object of its JSON."""
    found = graphs()
    count(found, "there are no graphs")
    for name, document in found.items():
        text = json.dumps(document)
        packages, calls = counted(text)
        check(f"calls for {name}", calls, 1)
        check(f"{name}, as bytes and parsed", (counted(text.encode()), counted(document)), ((packages, 1),) * 2)
    names = Key("cfg(unix)").targets()
    packages, calls = counted(unix_graph(100))
    check("calls for many lines", calls, 2)
    check("targets of many lines", [it["at"] for it in packages], ["all"] + [names] * 100)


def try_page():
    """The lines of Python on the page give what the page has below them."""
    for block in blocks("python"):
        lines = doctest.DocTestParser().get_doctest(block, {}, PAGE.name, str(PAGE), 0)
        failed, tried = doctest.DocTestRunner().run(lines)
        count(tried and not failed, f"{PAGE.name}: {failed} of {tried} lines of Python")


def main():
    try_values()
    try_errors()
    try_conditions()
    try_facts()
    try_batches()
    try_graphs()
    try_page()
    if shutil.which("rustc") and ended(["rustc", "--version"]).output.startswith(RELEASE):
        try_each([(try_target, it) for it in known_targets()])
    else:
        print(f"there is no {RELEASE}: the facts of its targets were not compared")
    return finish()


if __name__ == "__main__":
    sys.exit(main())
