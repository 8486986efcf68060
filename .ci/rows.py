"""The test cases of crates/test_texts and crates/test_answers: how they write a text, and what answers them."""
import re
import subprocess
import sys

from builds import program

# The characters of a text that the program writes as escapes.
ESCAPED = re.compile("[\0-\x1f\x7f-\xa0\u0300-\u036f\u2000-\u206f\ufeff|\\\\]")
WORDS_ESCAPED = {"\n": "\\n", "\t": "\\t", "\r": "\\r", "|": "\\|", "\\": "\\\\"}
UNESCAPED = {"n": "\n", "t": "\t", "r": "\r"}


def escaped(text):
    """Returns a text as the program writes it."""
    return ESCAPED.sub(lambda it: WORDS_ESCAPED.get(it[0]) or f"\\u{{{ord(it[0]):X}}}", text)


def barred(text):
    return f"|{escaped(text)}|"


def unbarred(word):
    of = lambda it: chr(int(it[1], 16)) if it[1] else UNESCAPED.get(it[2], it[2])
    return re.sub(r"\\(?:u\{(\w+)\}|(.))", of, word[1:-1])


def rows_of(file):
    """Returns the rows of a file, each with its number and its lines. A line that begins with a space continues one."""
    rows = []
    for number, line in enumerate(file.read_text(encoding="utf-8").splitlines(), 1):
        if line.startswith(" ") and rows:
            rows[-1][1].append(line)
        else:
            rows.append((number, [line]))
    return rows


def answered(rows):
    """Returns the rows with the program's answers."""
    given = "".join(f"{row}\n" for row in rows).encode()
    done = subprocess.run([program("test_texts")], input=given, stdout=subprocess.PIPE, check=True)
    answers = done.stdout.decode().split("\n")[:-1]
    if len(answers) != len(rows):
        sys.exit(f"FAILED: {len(rows)} rows have {len(answers)} answers")
    return answers
