"""Where built programs lie: those that `rt` has proved, and unproved ones, which `.ci/unproved` makes.

A script takes unproved builds, which are made within minutes. With `PROVED=yes` in its environment, as `make prove`
sets it, it takes the proved ones.
"""
import os
import subprocess
import sys

from crates import ROOT

IS_PROVED = os.environ.get("PROVED") == "yes"

# What the version of an unproved build says, and the text that every unproved build holds.
UNPROVED = "unproved build"
MARK = f"nevgrasi: {UNPROVED}"


def unproved(name, is_tests=False):
    """Where the unproved build of a crate lies: of its program, of its tests, or of the library for C."""
    is_program = (ROOT / "crates" / name / "src" / "main.rt").exists()
    file = f"{name}_tests" if is_tests else name if is_program else f"lib{name}.a"
    return ROOT / "out" / "unproved" / name / file


def program(name):
    """Where the program of a crate lies once it is built."""
    return ROOT / "crates" / name / "out" / name if IS_PROVED else unproved(name)


def build(*names):
    """Builds these programs, where they are not of the source as it stands. An unproved build may be `CRATE:tests` or
    the library for C too. It ends the script where that fails."""
    commands = [["build", name] for name in names] if IS_PROVED else [["unproved", *names]]
    for script, *arguments in commands:
        if subprocess.run([ROOT / ".ci" / script, *arguments], stdout=subprocess.DEVNULL).returncode:
            sys.exit(f"FAILED: {' '.join(arguments)}: not built")


def is_marked(file):
    """Whether a file holds the text that every unproved build holds."""
    return MARK.encode() in file.read_bytes()
