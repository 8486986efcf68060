"""What the prover's output says of an edit: whether it is refused, proved, or shows nothing.

`rattle check --start FN` looks for a proof of the function FN as if it had no written answers. It prints that nothing
is left to answer, or writes the goals that stay open into a file. No proof of another function is checked: a function
is proved by the contracts of those that it calls.
"""
import re
from typing import NamedTuple

REFUSED, PROVED, SILENT = "refused", "proved", "shows nothing"
UNREADABLE, UNJUDGED, ANSWERED = "does not compile", "not judged", "open where answers are written"

# What a start says of a function of which no goal stays open; an item of a file of answers, and one that is a goal.
CLOSED = re.compile(r"^note: `\w+::(\S+)` needs no (?:other )?file: nothing is left to choose or to answer$", re.M)
ITEM = re.compile(r"^(?:(?:pub|abbrev|opaque) )*([^\s:]+)\s+:\s", re.M)
GOAL = re.compile(r"^(?:(?:pub|abbrev|opaque) )*([^\s:]+)\s+:\s+goal\.", re.M)

# What a check says of code that it cannot read: the whole line, the file and the line's number; and of a function that
# it does not find by its name, or not that one alone.
UNREAD = re.compile(r"^((?:\./)?(src/\S+\.rt):(\d+):\d+: error.*)", re.M)
UNNAMED = re.compile(r"^rattle: error: .*(?:has no function|several functions are named) `([^`]+)`.*", re.M)

# What a check past holes says of a function that is proved.
HOLDS = "no holes"

# What it says of one whose goals it does not prove, and for which no answer is written.
OPEN = re.compile(r"`search` did not prove `")

# The files of answers by which it says that a function is not proved.
ANSWERS = re.compile(r"`Rattle\.\w+\.proofs\.([^`]*?\.Answers)\b")


class Judgement(NamedTuple):
    """A judgement, and the words that it goes by."""

    kind: str
    line: str


class Said(NamedTuple):
    """What a start said, and the files of goals that it wrote: their texts by their paths in the crate."""

    text: str
    files: dict


def items_of(function, files, item=ITEM):
    """The items in those of these files of answers that are the function's. The functions of a cycle have one proof,
    and so share a file."""
    return frozenset(it for path, text in files.items() if function.is_answered_in(path) for it in item.findall(text))


def left_open(function, said):
    """The goals of the function that stay open, or None where the start says nothing of it, or wrote no goal."""
    goals, is_told = items_of(function, said.files, GOAL), any(map(function.is_answered_in, said.files))
    is_closed = any(function.is_named(name) for name in CLOSED.findall(said.text))
    return None if is_told == is_closed or is_told and not goals else goals


def judged(functions, said, answers, open_anyway=frozenset()):
    """What a start says of an edit of these functions.

    A goal that stays open refuses the edit where the real code has no written answer to it: there the prover finds the
    proof itself. Where it has one, the goal may be open without it in the real code too. `open_anyway` are those goals
    that are, with their functions, and None where that is not known.
    """
    found = [(it, left_open(it, said)) for it in functions]
    untold = [it.path for it, goals in found if goals is None]
    if untold:
        return Judgement(UNJUDGED, f"nothing is said of {', '.join(untold)}: {said.text[-300:]}")
    known = {(it, goal) for it in functions for goal in items_of(it, answers)} if open_anyway is None else open_anyway
    new = [f"{it.path}: {goal}" for it, goals in found for goal in sorted(goals) if (it, goal) not in known]
    if new:
        return Judgement(REFUSED, f"open: {', '.join(new)}")
    if any(goals for _, goals in found):
        return Judgement(ANSWERED, ", ".join(f"{it.path}: {goal}" for it, goals in found for goal in sorted(goals)))
    return Judgement(PROVED, "nothing is left to answer")


def judged_with_answers(crate, functions, text):
    """What a check past holes, with the written answers, says of an edit that a start does not judge: a goal with no
    answer is open, in the function or a closure of it; or it is proved; or the prover refuses a written answer, which
    shows nothing of the contract."""
    lines = re.findall(rf"^fn {crate}::(\S+): (.*)$", text, re.M)
    own = [(it, line) for it in functions for name, line in lines if it.is_named(name)]
    closures = [(it, line) for it in functions for name, line in lines if it.has_closure(name)]
    open = [f"{it.path}: {line}" for it, line in [*own, *closures] if OPEN.search(line)]
    if open:
        return Judgement(REFUSED, open[0])
    if len(own) == len(functions) and {line for _, line in [*own, *closures]} == {HOLDS}:
        return Judgement(PROVED, "it is proved with the written answers")
    for it, line in own:
        if any(it.is_answered_in(f"{name.replace('.', '/')}.antt") for name in ANSWERS.findall(line)):
            return Judgement(SILENT, line)
    return Judgement(UNJUDGED, next((line for _, line in own if line != HOLDS), text[-300:]))


def is_well(judgement, is_control):
    """Whether an edit was judged as it must be: a control proved, and a mutant refused, or found to show nothing."""
    return judgement.kind == PROVED if is_control else judgement.kind in (REFUSED, SILENT)
