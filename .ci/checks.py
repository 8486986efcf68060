"""What scripts that check something have in common: counted checks, runs of programs, and the last line."""
import collections
import concurrent.futures
import contextlib
import json
import os
import pathlib
import resource
import subprocess
import tempfile
import threading

# So many failures are printed, and so much of each value.
MAX_FAILURES, MAX_CHARACTERS = 100, 500

# The stack of each program that runs, by default.
STACK = 8 * 1024 * 1024
resource.setrlimit(resource.RLIMIT_STACK, (STACK, resource.getrlimit(resource.RLIMIT_STACK)[1]))

End = collections.namedtuple("End", "status output errors", defaults=("", ""))


class Tally:
    """The numbers of checks that passed and failed so far, in any thread. The first failures are printed at once."""

    def __init__(self):
        self.passed = self.failed = 0
        self.lock = threading.Lock()

    def add(self, passed, reasons):
        """Counts checks that were made elsewhere: how many passed, and why the others failed."""
        with self.lock:
            self.passed += passed
            for it in reasons:
                self.failed += 1
                if self.failed <= MAX_FAILURES:
                    print(f"FAILED: {it}", flush=True)

    def count(self, is_so, reason):
        """Counts one check, with the reason why it fails."""
        self.add(1 if is_so else 0, [] if is_so else [reason])

    def check(self, name, got, wanted):
        """Counts whether a value is the wanted one."""
        self.count(got == wanted, "" if got == wanted else f"{name}: {difference(str(got), str(wanted))}")

    def finish(self):
        """Prints the last line, and returns the status of the script."""
        print(f"{self.passed} passed, {self.failed} failed")
        return 1 if self.failed else 0


def difference(got, wanted):
    """Returns what two texts have from shortly before the place where they differ."""
    start = max(0, len(os.path.commonprefix([got, wanted])) - 100)
    cut = slice(start, start + MAX_CHARACTERS)
    return f"{got[cut]!r}, and not {wanted[cut]!r}"


# The checks of this script.
tally = Tally()
add, check, count, finish = tally.add, tally.check, tally.count, tally.finish


def ended(words, stack=STACK, memory=None, **given):
    """Runs a program on a stack of this size, and with so much memory if that is limited. Returns how it ended.

    A write that nobody reads fails, and does not end the program by a signal.
    """

    def limit():
        resource.setrlimit(resource.RLIMIT_STACK, (stack, stack))
        if memory is not None:
            resource.setrlimit(resource.RLIMIT_AS, (memory, memory))

    limits = {"preexec_fn": limit} if memory or stack != STACK else {}
    inputs = {} if "input" in given else {"stdin": subprocess.DEVNULL}
    given = {"stdout": subprocess.PIPE, "timeout": 120, **limits, **inputs, **given}
    words = [word if isinstance(word, bytes) else str(word) for word in words]
    done = subprocess.run(words, stderr=subprocess.PIPE, restore_signals=False, **given)
    return End(done.returncode, (done.stdout or b"").decode(), done.stderr.decode())


def json_lines(text):
    """Returns the value of each line of a text."""
    return [json.loads(line) for line in text.splitlines()]


def text_of(text):
    """Returns a text, which may be given as its lines."""
    return text if isinstance(text, str) else "".join(f"{line}\n" for line in text)


def bytes_of(data):
    """Returns the bytes of a file, which may be given as a text or as its lines."""
    return data if isinstance(data, bytes) else text_of(data).encode()


def write_files(folder, files):
    """Writes files by their paths into a folder, with the folders that they need. Returns the folder."""
    for path, data in files.items():
        file = pathlib.Path(folder, path)
        file.parent.mkdir(parents=True, exist_ok=True)
        file.write_bytes(bytes_of(data))
    return folder


@contextlib.contextmanager
def room_of(files={}):
    """Makes a temporary folder with these files."""
    with tempfile.TemporaryDirectory() as name:
        yield write_files(pathlib.Path(name), files)


def try_each(tries):
    """Calls functions with their arguments, as many at a time as there are processors. Returns what they return."""
    with concurrent.futures.ThreadPoolExecutor(len(os.sched_getaffinity(0))) as pool:
        return [it.result() for it in [pool.submit(*it) for it in tries]]
