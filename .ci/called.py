"""The arguments of a script, by its docstring: `Usage: .ci/NAME`, and behind it the arguments that it takes.

`[..]` may be left out, `|` separates choices, a word in capitals stands for any argument that does not begin with `-`,
and `..` behind it for more of them. The usage ends at whatever is none of these.
"""
import argparse
import pathlib
import re
import sys

USAGE = re.compile(r"Usage: (?:\.ci|measure)/[a-z-]+")
PART = re.compile(r" ?(\[|\]|\||--?[a-z-]+|[A-Z]+(?:\.\.)?)")

# The regular expressions for `[`, `]`, `|` and a word in capitals. Each argument has a zero byte behind it.
MARKS = {"[": "(?:", "]": ")?", "|": "|"}
ANY = r"(?:[^-\0][^\0]*\0)"


def pattern(docstring):
    """Returns the regular expression for the arguments that this docstring names."""
    found, at = "", USAGE.search(docstring).end()
    while part := PART.match(docstring, at):
        word, at = part[1], part.end()
        found += MARKS.get(word) or (f"{word}\\0" if word[0] == "-" else ANY + "+" * word.endswith(".."))
    return found


def refuse(words):
    file = pathlib.Path(sys.argv[0])
    call = f"{file.resolve().parent.name}/{file.name}"
    print(f"{file.name}: it does not take `{' '.join(words)}`; see `{call} --help`", file=sys.stderr)
    sys.exit(2)


def words_given(docstring):
    """Returns the arguments of this call. `--help` and `-h` print the docstring. Others that it lacks are rejected."""
    words = sys.argv[1:]
    if {"-h", "--help"} & {*words}:
        print(docstring.strip())
        sys.exit(0)
    if not re.fullmatch(pattern(docstring), "".join(f"{word}\0" for word in words)):
        refuse(words)
    return words


def start(main, docstring):
    """Runs a script with this docstring. Ends it with the status that `main` returns."""
    words_given(docstring)
    sys.exit(main())


class Options(argparse.ArgumentParser):
    """Options in any order, of a script with this docstring."""

    def __init__(self, docstring):
        super().__init__(
            usage=argparse.SUPPRESS, description=docstring, formatter_class=argparse.RawDescriptionHelpFormatter)

    def error(self, message):
        refuse(sys.argv[1:])
