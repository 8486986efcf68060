"""The record of judged mutants, .ci/judged: a line for each crate with edits.

A line has the crate, the sum of all that its edits were judged by, and how many mutants were refused, controls proved
and mutants found to show nothing, with the processor seconds that this took. Only `.ci/mutants` writes lines.
"""
import collections
import functools
import re
import subprocess
from typing import NamedTuple

from crates import ROOT
from edits import all_edits, text_of
from judge import PROVED, REFUSED, SILENT, is_well

FILE = ".ci/judged"
LINE = re.compile(r"(\w+) ([0-9a-f]{40}) refused=(\d+) proved=(\d+) silent=(\d+) seconds=(\d+)")
HEAD = """\
# What the edits of each crate were judged to be. `make mutants` writes this file; see docs/GATE.md.
"""

# What judges an edit, as git has it.
JUDGING = ("crates", ".ci", "crates.txt", "HANDLES")

# A commit in which a count falls has this word in its message.
WORD = re.compile(r"\bmutants\b", re.I)


class Counts(NamedTuple):
    refused: int
    proved: int
    silent: int

    def __str__(self):
        return f"{self.refused} refused, {self.proved} proved, {self.silent} showing nothing"


class Line(NamedTuple):
    sum: str
    counts: Counts
    seconds: int


def counts_of(kinds):
    found = collections.Counter(kinds)
    return Counts(found[REFUSED], found[PROVED], found[SILENT])


def lines_of(text):
    """The lines of a record by their crates, and what is wrong with it."""
    found, wrong = {}, []
    for line in text.splitlines():
        told = LINE.fullmatch(line)
        if told and told[1] not in found:
            found[told[1]] = Line(told[2], Counts(*map(int, told.group(3, 4, 5))), int(told[6]))
        elif line and not line.startswith("#"):
            wrong.append(f"{FILE} has a line that is none of its form, or of a crate that it has already: {line}")
    return found, wrong


def read():
    """The record of this checkout."""
    file = ROOT / FILE
    return lines_of(text_of(file) if file.exists() else "")


def write(lines):
    """Writes the record."""
    told = (f"{crate} {sum} refused={counts.refused} proved={counts.proved} silent={counts.silent} seconds={seconds}\n"
            for crate, (sum, counts, seconds) in sorted(lines.items()))  # fmt: skip
    (ROOT / FILE).write_text(HEAD + "".join(told), encoding="utf-8")


def git(*words):
    """What a command of git prints, or None where it fails."""
    try:
        done = subprocess.run(["git", *words], cwd=ROOT, capture_output=True, text=True, errors="replace")
    except OSError:
        return None
    return None if done.returncode else done.stdout


def is_clean():
    """Whether all that judges an edit is as the commit has it, but for the record."""
    told = git("status", "--porcelain", "--", *JUDGING)
    return told is not None and all(line[3:] == FILE for line in told.splitlines())


def counts_at(commit):
    """The counts of the record at a commit."""
    lines, _ = lines_of(git("show", f"{commit}:{FILE}") or "")
    return {crate: (line.counts.refused, line.counts.proved) for crate, line in lines.items()}


def falls(counts, before):
    """The crates of which fewer mutants are refused, or fewer controls proved, than in each of the records before."""
    crates = {*before[0]}.intersection(*before) if before else ()
    pairs = {crate: zip(counts.get(crate, (0, 0)), *(it[crate] for it in before)) for crate in crates}
    return sorted(crate for crate in crates if any(now < min(then) for now, *then in pairs[crate]))


def falls_in_history():
    """The commits in which a count fell and whose message does not say so, and what could not be looked at."""
    told = git("log", "--format=%H %P", "--", FILE)
    if told is None:
        return [], "this is no checkout of git, so nothing is known of earlier counts"
    wrong, is_shallow = [], (git("rev-parse", "--is-shallow-repository") or "").strip() == "true"
    for commit, *parents in map(str.split, told.splitlines()):
        before = [counts_at(it) for it in parents if git("cat-file", "-e", it) is not None]
        fallen = falls(counts_at(commit), before)
        if fallen and not WORD.search(git("log", "-1", "--format=%B", commit) or ""):
            wrong.append(f"{FILE}: counts of {', '.join(fallen)} fall in {commit[:12]}, whose message lacks `mutants`")
    return wrong, "this clone is shallow, so counts of commits that it lacks are not compared" if is_shallow else ""


class Record:
    """The record of this checkout, beside the edits of its crates and their sums."""

    def __init__(self, kept):
        self.edits, self.kept = collections.defaultdict(list), kept
        for edit in all_edits()[0]:
            self.edits[edit.crate].append(edit)
        self.lines, self.wrong = read()

    def sum_of(self, crate):
        return self.kept.sum_with_edits(crate, self.edits[crate])

    @functools.cached_property
    def fitting(self):
        """The crates whose line is of the state of the checkout."""
        return [it for it in sorted(self.edits) if it in self.lines and self.lines[it].sum == self.sum_of(it)]

    def check(self):
        """What is wrong with the record by itself: counts that do not fit the edits, and counts that fell."""
        strange = sorted(self.lines.keys() - self.edits)
        wrong = [*self.wrong, *(f"{FILE} has a line of {crate}, which has no edits" for crate in strange)]
        for crate in self.fitting:
            counts, controls = self.lines[crate].counts, sum(edit.is_control for edit in self.edits[crate])
            if (counts.refused + counts.silent, counts.proved) != (len(self.edits[crate]) - controls, controls):
                wrong.append(f"{FILE} says {counts} of {crate}, which has other edits")
        fallen, note = falls_in_history()
        return wrong + fallen, note

    def counts(self, run, crate):
        """The counts of a crate, if the run judged all its edits as they must be."""
        found = [run.judgements.get(edit) for edit in self.edits[crate]]
        if all(it and is_well(it, edit.is_control) for edit, it in zip(self.edits[crate], found)):
            return counts_of(it.kind for it in found)
        return None

    def differences(self, run):
        """Where the run judged other than the lines say. If it judged some edits of a crate alone, only a surplus of those
        that show nothing is a difference."""
        for crate in sorted(self.edits.keys() & self.lines.keys()):
            said, counts = self.lines[crate].counts, self.counts(run, crate)
            found = counts_of(it.kind for edit, it in run.judgements.items() if edit.crate == crate)
            if counts and counts != said or found.silent > said.silent:
                yield f"{FILE} says {said} of {crate}, but there are {found}"

    def write(self, run):
        """Writes the lines of crates that the run judged whole. Returns their names."""
        found = {it: counts for it in self.edits if (counts := self.counts(run, it))}
        new = {it: Line(self.sum_of(it), counts, round(sum(run.seconds[edit] for edit in self.edits[it])))
               for it, counts in found.items()}  # fmt: skip
        new = {it: line for it, line in new.items() if self.lines.get(it, line)[:2] != line[:2] or it not in self.lines}
        lines = {it: line for it, line in (read()[0] | new).items() if it in self.edits}
        if lines != self.lines:
            write(lines)
        return sorted(new)
