"""Runs steps side by side, each once those that it waits for have passed, and reports their progress.

Each step writes all that it prints to out/log/NAME.log. What a person wants to see at once goes to standard output too:
how each step ended, each failure when it occurs, and a line a minute with the time that is left. A failure is a line
that begins with `FAILED: `. The end repeats all of them, with the command that runs the step alone.

The time that is left comes from an earlier run: the last one on this machine that passed, and else the one that is
committed in .ci/earlier-runs.json.
"""
import json
import os
import re
import subprocess
import threading
import time
from typing import NamedTuple

from crates import ROOT
from kept import folder_of_judgements

LOGS = ROOT / "out" / "log"
CACHE = folder_of_judgements().parent
EARLIER = (CACHE / "runs.json", ROOT / ".ci" / "earlier-runs.json")

# After so many seconds in which nothing was printed, a line says what is running.
SILENCE = 50

COUNTED = re.compile(r"(?:\w+: )?(\d+) passed, (\d+) failed")
FAILED = "FAILED: "


class Step(NamedTuple):
    """A step: its name, its command, the steps that it waits for, and the command that repeats it alone.

    A step that counts prints `N passed, M failed` at its end; each other one counts as one. A line that matches `mark`
    is its progress, and the first group names what was done. A line that matches `wrong` is a failure too, where a
    command that is not ours says so in its own words.
    """

    name: str
    words: list
    after: tuple = ()
    again: str = ""
    counts: bool = False
    mark: str = "(?!)()"
    wrong: str = "(?!)"


def script(name, *words, after=(), counts=True, title=""):
    """Returns the step that is a script of this folder."""
    again = " ".join([f".ci/{name}", *words])
    return Step(title or name, [ROOT / ".ci" / name, *words], after, again, counts)


def file_name(step):
    """Returns the name of the file with all that a step printed."""
    return re.sub(r"[^\w-]", "-", step.name) + ".log"


def earlier_runs():
    """Returns how long each step took in the last run of each kind, and when its marks came, in seconds."""
    found = {}
    for file in reversed(EARLIER):
        found |= json.loads(file.read_text()) if file.exists() else {}
    return found


class Run:
    """A run of steps, and their results so far. One of them prints at a time.

    The times of a run without a kind, which is one of some steps alone, are not kept.
    """

    def __init__(self, kind, steps, lanes=None):
        self.kind, self.steps = kind, {it.name: it for it in steps}
        assert len(self.steps) == len(steps), "two steps have one name"
        self.lanes = lanes or len(os.sched_getaffinity(0))
        self.start = self.last = time.monotonic()
        self.changed, self.printing = threading.Condition(), threading.Lock()
        self.taken, self.ended, self.running, self.marks, self.times = set(), {}, {}, {}, {}
        self.failures, self.failures_seen, self.passed, self.failed, self.processors = [], 0, 0, 0, 0.0
        self.earlier = earlier_runs().get(f"{kind} on {self.lanes}", {})

    def say(self, text):
        with self.printing:
            self.last = time.monotonic()
            print(f"[{(self.last - self.start) / 60:4.1f} min] {text}", flush=True)

    # ---- the time that is left

    def share(self, name, now):
        """Returns how many seconds of an earlier run of a step its progress comes to."""
        earlier = self.earlier.get(name, {"seconds": 0, "marks": {}})
        if name in self.ended:
            return earlier["seconds"]
        if name not in self.running:
            return 0
        reached = max((earlier["marks"].get(it, 0) for it in self.marks[name]), default=0)
        passed = now - self.running[name]
        return min(earlier["seconds"], reached if earlier["marks"] and reached else passed)

    def left(self):
        """Returns how many minutes are left, in words, or "" if no earlier run says so."""
        now = time.monotonic()
        whole = sum(it["seconds"] for name, it in self.earlier.items() if name in self.steps)
        done = sum(self.share(name, now) for name in self.steps)
        if done < 5 or not whole:
            return ""
        return f"; about {max(1, round((now - self.start) * (whole - done) / done / 60))} minutes left"

    def beat(self):
        """Says what is running, where nothing was said for a while."""
        while len(self.ended) < len(self.steps):
            time.sleep(2)
            if time.monotonic() - self.last > SILENCE:
                now = time.monotonic()
                each = [f"{name} ({len(self.marks[name])} done, {(now - since) / 60:.0f} min)"
                        for name, since in [*self.running.items()]]  # fmt: skip
                self.say(f"running: {', '.join(each)}; {self.failures_seen} failed so far{self.left()}")

    # ---- steps

    def next(self):
        """Waits for a step whose own steps have ended, and takes it. Returns None once all are taken."""
        with self.changed:
            while len(self.taken) < len(self.steps):
                for name, step in self.steps.items():
                    if name not in self.taken and all(it in self.ended for it in step.after if it in self.steps):
                        self.taken.add(name)
                        return step
                self.changed.wait()
        return None

    def lane(self):
        while step := self.next():
            missing = [it for it in step.after if it in self.steps and not self.ended[it]]
            if missing:
                self.end(step, 1, f"not run, since {', '.join(missing)} failed", [])
            else:
                self.run(step)
            with self.changed:
                self.changed.notify_all()

    def run(self, step):
        """Runs a step, and records how it ended."""
        self.marks[step.name], self.running[step.name] = {}, time.monotonic()
        last, count, reasons = "", "", []
        how = {"stdin": subprocess.DEVNULL, "stdout": subprocess.PIPE, "stderr": subprocess.STDOUT}
        with open(LOGS / file_name(step), "w", encoding="utf-8") as log:
            process = subprocess.Popen([*map(str, step.words)], cwd=ROOT, text=True, errors="replace", **how)
            for line in process.stdout:
                log.write(line)
                log.flush()
                last = line.strip() or last
                count = last if COUNTED.fullmatch(last) else count
                if mark := re.search(step.mark, line):
                    self.marks[step.name][mark[1]] = time.monotonic() - self.running[step.name]
                if line.startswith(FAILED) or re.search(step.wrong, line):
                    reasons.append(line.removeprefix(FAILED).strip())
                    self.failures_seen += 1
                    self.say(f"{step.name}: {FAILED}{reasons[-1]}")
            process.stdout.close()
            _, status, usage = os.wait4(process.pid, 0)
            process.returncode = os.waitstatus_to_exitcode(status)
            self.processors += usage.ru_utime + usage.ru_stime
            log.write(f"the step ended with status {process.returncode}\n")
        seconds = time.monotonic() - self.running.pop(step.name)
        marks = {mark: round(at) for mark, at in self.marks[step.name].items()}
        self.times[step.name] = {"seconds": round(seconds), "marks": marks}
        self.end(step, process.returncode, count if step.counts else last, reasons, usage.ru_utime + usage.ru_stime)

    def end(self, step, status, last, reasons, used=0):
        """Records how a step ended. One that counts is one failure if its count is missing or belies its status."""
        passed, failed = (0, 1) if status else (1, 0)
        if step.counts and step.name in self.times:
            found = COUNTED.fullmatch(last)
            if found and (status == 0) == (found[2] == "0"):
                passed, failed = int(found[1]), int(found[2])
            else:
                reasons.append(f"it was cut off, with status {status}")
                passed, failed = 0, 1
        self.passed += passed
        self.failed += failed
        if failed:
            log = f"out/log/{file_name(step)}"
            self.failures_seen += not reasons
            self.failures += [f"{step.name}: {it}" for it in reasons or [last]] + [f"  again: {step.again}   ({log})"]
            self.say(f"{step.name}: {FAILED}{reasons[-1] if reasons else last}; again: {step.again}")
        seconds = self.times.get(step.name, {"seconds": 0})["seconds"]
        self.say(f"{step.name}: {passed} passed, {failed} failed in {seconds} s, {used:.0f} s of processors")
        self.ended[step.name] = not failed

    # ---- the whole

    def run_all(self):
        """Runs the steps, and prints what failed. Returns the status."""
        LOGS.mkdir(parents=True, exist_ok=True)
        lanes = [threading.Thread(target=self.lane) for _ in range(self.lanes)]
        threading.Thread(target=self.beat, daemon=True).start()
        for it in lanes:
            it.start()
        for it in lanes:
            it.join()
        for it in self.failures:
            print(it if it.startswith(" ") else f"{FAILED}{it}")
        if self.kind and not self.failed:
            CACHE.mkdir(parents=True, exist_ok=True)
            kept = json.loads(EARLIER[0].read_text()) if EARLIER[0].exists() else {}
            EARLIER[0].write_text(json.dumps({**kept, f"{self.kind} on {self.lanes}": self.times}))
        minutes = (time.monotonic() - self.start) / 60
        print(f"{minutes:.1f} minutes, {self.processors / 60:.1f} minutes of processors", flush=True)
        return 1 if self.failed else 0
