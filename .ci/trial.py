"""Judges edits of one crate, many in one run of the prover."""
import collections
import os
import pathlib
import shutil
import subprocess
import tempfile
import threading
import time

from crates import LEFT_OUT
from edits import NotFit, applied, changes, text_of
from functions import changed_by, constants_of, with_closures
from judge import ANSWERED, PROVED, REFUSED, UNJUDGED, UNNAMED, UNREAD, UNREADABLE, Judgement, Said
from judge import items_of, judged, judged_with_answers, left_open
from proved import kit, words_of_sources

# A run of the prover that takes longer, in seconds, is cut off, and judges nothing.
LIMIT = 3600

# As many edits are in a round at most.
MOST = 40


class Trial:
    """The edits of one crate that are left to judge, over copies of the crates in a folder."""

    def __init__(self, crate, run, crates, room):
        self.crate, self.run, self.source, self.room = crate, run, crates / crate, room
        self.words = words_of_sources(crate, crates)
        self.own, self.waiting, self.lock = {}, [], threading.Lock()
        for edit in run.wanted:
            if edit.crate == crate and edit in run.left:
                self.take(edit)
        # The written answers, by their paths in the crate.
        files = self.source.glob("proofs/**/Answers.antt")
        self.answers = {str(file.relative_to(self.source)): text_of(file) for file in files}
        # The functions with closures, which a start does not look at.
        self.closing = with_closures(self.source)
        # The edits that a start does not judge, with what it said, and the seconds that they took so far. Their goals
        # are open where answers are written, or may be open in a closure, or an invariant does not fit.
        self.answered = {}

    def take(self, edit):
        """Takes an edit that can be judged, with the functions that it changes."""
        try:
            applied(edit, self.source)
            own = sorted(changed_by(edit, self.source))
            if not own:
                raise NotFit("it changes no function and no constant that a function names")
            self.own[edit] = own
            self.waiting.append(edit)
        except NotFit as why:
            self.run.settle(edit, Judgement(UNJUDGED, str(why)), 0)

    def rounds(self, edits):
        """Rounds of these edits: no two of a round change one function, or functions of one cycle of calls. First come
        edits of functions with many edits, of which a round takes one each. An edit of a constant is a round by itself,
        since other functions may read the constant through definitions."""
        alone = [edit for edit in edits if constants_of(edit, self.source)]
        yield from ([edit] for edit in alone)
        left = [edit for edit in edits if edit not in alone]
        crowds = collections.Counter(it for edit in left for it in self.own[edit])
        left.sort(key=lambda edit: max(crowds[it] for it in self.own[edit]), reverse=True)
        while left:
            found, taken, texts = [], set(), {}
            for edit in left:
                marks = {(it.module, it.type, it.cycle) if it.cycle else it for it in self.own[edit]}
                if len(found) < MOST and not marks & taken:
                    try:
                        texts = applied(edit, self.source, texts)
                    except NotFit:
                        continue
                    found.append(edit)
                    taken |= marks
            left = [edit for edit in left if edit not in found]
            yield found

    def with_edits(self, edits):
        """The texts of the files that these edits change."""
        texts = {}
        for edit in edits:
            texts = applied(edit, self.source, texts)
        return texts

    def rattle(self, texts, has_answers, *given):
        """Runs a check of a copy of the crate with these texts. Returns what it said, with the files of answers that
        lie there then, and the processor seconds that it took."""
        with tempfile.TemporaryDirectory(dir=self.room) as room:
            folder, said = pathlib.Path(room) / self.crate, pathlib.Path(room) / "said"
            shutil.copytree(self.source, folder, ignore=shutil.ignore_patterns(*LEFT_OUT))
            for file in [] if has_answers else folder.glob("proofs/**/Answers.antt"):
                file.unlink()
            for path, text in texts.items():
                (folder / path).write_text(text, encoding="utf-8")
            words = [kit() / "bin" / "rattle", "check", *self.words, *given]
            with open(said, "w") as log:
                began = time.monotonic()
                process = subprocess.Popen(words, cwd=folder, stdin=subprocess.DEVNULL, stdout=log, stderr=log)
                while not (ended := os.wait4(process.pid, os.WNOHANG))[0]:
                    if time.monotonic() - began > LIMIT:
                        process.kill()
                    time.sleep(0.1)
                process.returncode = os.waitstatus_to_exitcode(ended[1])
            files = {str(file.relative_to(folder)): text_of(file) for file in folder.glob("proofs/**/Answers.antt")}
            text = said.read_text(encoding="utf-8", errors="replace")
            return Said(text, files), ended[2].ru_utime + ended[2].ru_stime

    def start(self, texts, functions):
        """What a start of these functions says, with these texts and without written answers."""
        given = [word for path in sorted({it.path for it in functions}) for word in ("--start", path)]
        return self.rattle(texts, False, *given)

    def try_round(self, edits):
        """Judges a round. Edits that no prover can read are taken out, and the others are judged without them. One of
        which nothing is said for another reason is judged alone."""
        said, seconds = self.start(self.with_edits(edits), [it for edit in edits for it in self.own[edit]])
        each, lost = seconds / len(edits), {edit: why for edit in edits if (why := self.stopped_by(edit, edits, said))}
        for edit, why in lost.items():
            self.run.settle(edit, why, each)
        left = [edit for edit in edits if edit not in lost]
        if lost and left:
            self.try_round(left)
            return
        for edit in left:
            judgement = judged(self.own[edit], said, self.answers, None)
            if judgement.kind == UNJUDGED and len(edits) > 1:
                self.try_round([edit])
            elif judgement.kind in (ANSWERED, UNJUDGED) or judgement.kind == PROVED and self.has_closures(edit):
                with self.lock:
                    self.answered[edit] = (said, each)
            else:
                self.run.settle(edit, judgement, each)

    def has_closures(self, edit):
        """Whether a function that the edit changes has closures."""
        return not self.closing.isdisjoint(self.own[edit])

    def stopped_by(self, edit, edits, said):
        """The judgement of an edit that stops the prover: it does not compile, or its function has another name."""
        for line, path, number in UNREAD.findall(said.text):
            if len(edits) == 1 or stands_at(edit, self.source, path, int(number)):
                return Judgement(UNREADABLE, line)
        told = UNNAMED.search(said.text)
        return Judgement(UNJUDGED, told[0]) if told and told[1] in [it.path for it in self.own[edit]] else None

    def try_answered(self):
        """Judges the edits that a start does not judge: by the goals that are open without written answers in the real
        code, and where that refuses none, by a check with the answers. A control is checked alone."""
        if not self.answered:
            return
        functions, left = sorted({it for edit in self.answered for it in self.own[edit]}), []
        said, seconds = self.start({}, functions)
        anyway = {(it, goal) for it in functions for goal in left_open(it, said) or items_of(it, self.answers)}
        for edit, (found, each) in self.answered.items():
            judgement, each = judged(self.own[edit], found, self.answers, anyway), each + seconds / len(self.answered)
            if judgement.kind != REFUSED:
                self.answered[edit] = found, each
                left.append(edit)
            else:
                self.run.settle(edit, judgement, each)
        with tempfile.TemporaryDirectory(dir=self.room) as kept:
            for edit in [it for it in left if it.is_control]:
                self.try_with_answers([edit], kept)
            for edits in self.rounds([it for it in left if not it.is_control]):
                self.try_with_answers(edits, kept)

    def try_with_answers(self, edits, kept):
        """Judges a round by a check with the written answers, over what such checks keep in a folder."""
        only = [word for edit in edits for it in self.own[edit] for word in ("--only", it.path)]
        said, seconds = self.rattle(self.with_edits(edits), True, "--allow-holes", "--incremental", kept, *only)
        for edit in edits:
            judgement = judged_with_answers(self.crate, self.own[edit], said.text)
            if judgement.kind == UNJUDGED and len(edits) > 1:
                self.try_with_answers([edit], kept)
            else:
                self.run.settle(edit, judgement, self.answered[edit][1] + seconds / len(edits))


def stands_at(edit, crate, path, line):
    """Whether the edit changes this line of a file. A changed line takes the place of one line."""
    return any(file == path and line == text_of(crate / path).partition(old)[0].count("\n") + 1
               for file, old, _ in changes(edit))  # fmt: skip
