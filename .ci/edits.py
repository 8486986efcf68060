"""The edits of the crates: mutants, which the prover has to refuse, and controls, which it has to prove.

A mutant is a function with a fault put in: a file crates/CRATE/mutants/FILE/NAME.edit, where FILE is the path of the
file that it edits, below src and without its ending. It has a line `file: src/PATH`, and then pairs of lines
`old: TEXT` and `new: TEXT`. Each old text stands exactly once in the file, as the pairs before it left that. A control
is such an edit in crates/CRATE/mutants/controls. It writes a body in another way that is right.
"""
import functools
import pathlib
import re
from typing import NamedTuple

from crates import ROOT

CRATES = ROOT / "crates"


class NotFit(Exception):
    """The edit cannot be applied."""


class Edit(NamedTuple):
    crate: str
    file: pathlib.Path

    def __str__(self):
        return f"{self.crate}/{self.file.stem}"

    @property
    def is_control(self):
        return self.file.parent.name == "controls"


def text_of(file):
    return file.read_text(encoding="utf-8")


def all_edits():
    """The edits of all crates, and what is wrong with their names."""
    files = sorted(CRATES.glob("*/mutants/**/*.*"))
    found = [Edit(file.relative_to(CRATES).parts[0], file) for file in files]
    names = [str(edit) for edit in found]
    strange = [f"{edit.file} is no edit" for edit in found if edit.file.suffix != ".edit"]
    return found, strange + [f"two edits are {name}" for name in sorted({*names}) if names.count(name) > 1]


@functools.cache
def changes(edit):
    """The edit's changes: a path in the crate, an old text and a new one each."""
    path, old, found = None, None, []
    for line in text_of(edit.file).split("\n"):
        word, _, text = line.partition(": ") if ": " in line else line.partition(":")
        if word == "file":
            path = text.strip()
            if not re.fullmatch(r"src/[\w/]+\.rt", path):
                raise NotFit(f"{path} is no file of code")
        elif word == "old" and path and text and old is None:
            old = text
        elif word == "new" and old is not None:
            found.append((path, old, text))
            old = None
        elif line:
            raise NotFit(f"a line is out of place: {line}")
    if old is not None or not found:
        raise NotFit("it has no pair of an old and a new text, or half of one")
    folder = str(edit.file.parent.relative_to(CRATES / edit.crate / "mutants"))
    if folder not in ("controls", found[0][0][len("src/") : -len(".rt")]):
        raise NotFit(f"it lies in the folder {folder}, and edits {found[0][0]}")
    return found


def applied(edit, crate, texts={}):
    """The texts of the files that the edit changes, by their paths in the crate, and those that are given."""
    texts = {**texts}
    for path, old, new in changes(edit):
        if not (crate / path).is_file():
            raise NotFit(f"there is no file {path}")
        before = texts.get(path) or text_of(crate / path)
        if before.count(old) != 1:
            raise NotFit(f"an old text stands in {path} {before.count(old)} times, and not once: {old}")
        texts[path] = before.replace(old, new)
    if any(text == text_of(crate / path) for path, text in texts.items()):
        raise NotFit("it leaves a file as it is")
    return texts
