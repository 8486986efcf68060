"""What edits were judged to be earlier on this machine, by checksums, outside of each checkout."""
import functools
import hashlib
import json
import os
import pathlib
import subprocess
import threading

from crates import ROOT, lines_of_crates, stands_on, with_those_below
from edits import text_of
from judge import Judgement
from proved import RT

HERE = pathlib.Path(__file__).resolve().parent

# The scripts by which an edit is judged. Those that choose edits and keep judgements decide none.
SCRIPTS = tuple(f"{name}.py" for name in ("crates", "edits", "functions", "judge", "proved", "trial"))

# How a line begins that is a comment, by the ending of its file.
COMMENT = {".rt": b"//", ".antt": b"--"}


def folder_of_judgements():
    """The folder for judgements of all checkouts."""
    cache = os.environ.get("XDG_CACHE_HOME") or pathlib.Path.home() / ".cache"
    return pathlib.Path(cache) / "nevgrasi" / "judged"


def code_of(file):
    """The bytes of a file without the lines that are comments, which change no judgement."""
    mark = COMMENT.get(file.suffix)
    lines = file.read_bytes().splitlines(keepends=True)
    return b"".join(it for it in lines if mark is None or not it.lstrip().startswith(mark))


class Kept:
    """A file for each edit that was judged as it must be, named by the sum of all that it was judged by: the edit, its
    crate and those below as they lie in a folder of crates, without comments, the toolchain and the scripts."""

    def __init__(self, crates):
        self.crates, self.folder, self.below = crates, folder_of_judgements(), stands_on()
        version = subprocess.run([RT, "version"], capture_output=True, check=True).stdout
        files = [ROOT / "HANDLES", *(HERE / name for name in SCRIPTS)]
        self.base = b"".join([version, *(file.read_bytes() for file in files)])

    @functools.cache
    def sum_of(self, crate):
        """The sum of what proves a crate."""
        found, lines = hashlib.sha256(self.base), {words[0]: (words, below) for words, below in lines_of_crates()}
        for name in with_those_below([crate], self.below):
            found.update(repr(lines[name]).encode())
            for part in ("src", "specs", "proofs"):
                for file in sorted(it for it in (self.crates / name / part).glob("**/*") if it.is_file()):
                    found.update(repr([str(file.relative_to(self.crates)), code_of(file)]).encode())
        return found.hexdigest()

    @functools.cache
    def sum_of_edit(self, edit):
        text = repr([self.sum_of(edit.crate), str(edit), edit.is_control, edit.file.read_bytes()])
        return hashlib.sha256(text.encode()).hexdigest()

    def sum_with_edits(self, crate, edits):
        """The sum of a crate and all its edits, as the record has it."""
        sums = sorted(self.sum_of_edit(edit) for edit in edits)
        return hashlib.sha256(repr([self.sum_of(crate), sums]).encode()).hexdigest()[:40]

    def judgement_of(self, edit):
        """What the edit was judged to be, and the processor seconds that this took, or None."""
        try:
            kind, line, seconds = json.loads(text_of(self.folder / self.sum_of_edit(edit)))
            return Judgement(kind, line), float(seconds)
        except (OSError, ValueError, TypeError):
            return None

    def keep(self, edit, judgement, seconds):
        self.folder.mkdir(parents=True, exist_ok=True)
        new = self.folder / f"new-{os.getpid()}-{threading.get_ident()}"
        new.write_text(json.dumps([*judgement, round(seconds, 1)]), encoding="utf-8")
        new.rename(self.folder / self.sum_of_edit(edit))
