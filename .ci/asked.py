"""Runs of `manifest_check`, and the cases of its crate. The lines of JSON that it prints have to fit their schemas."""
import json
import os
import pathlib
import re

from builds import program
from checks import check, count, ended, json_lines, text_of
from crates import ROOT
from json_schemas import misfits
from shown import is_shown

# The program, or another one to try in its place.
PROGRAM = pathlib.Path(os.environ.get("GRAPH_PROGRAM", program("manifest_check")))
LINUX, WINDOWS = "x86_64-unknown-linux-gnu", "x86_64-pc-windows-msvc"

CRATE = ROOT / "crates" / "manifest_check"
MANIFESTS = {file.name: file.read_bytes() for file in (CRATE / "manifests").iterdir()}

# The name of a target whose facts are in NAME.cfg, and what messages call the known targets with it.
CUSTOM, CALLED = "my-own-target", "rustc 1.95.0 with --target-spec"

COLOUR = re.compile(r"\x1b\[\d*m")

# Files of facts that questions.json names, beside the manifests.
FACTS = {"facts": ["unix", 'target_os="linux"'], "no-facts": ["unix", "", "="], "nothing": ["", ""],
         "twice": ["a", "unix", "", "b", "", "a"]}


def cases(name):
    """Returns the cases of a JSON file of the program's crate."""
    return json.loads((CRATE / name).read_text(encoding="utf-8"))


def with_targets(value):
    """Returns a value of cases in which the words LINUX and WINDOWS are the names of targets."""
    return json.loads(json.dumps(value).replace("LINUX", LINUX).replace("WINDOWS", WINDOWS))


def ask(words, name="manifest_check", **given):
    """Runs the program under this name. Returns how it ended. It must print no character that could move or forge a
    line: those of a diff are the manifest's own."""
    found = ended([name, *words], executable=PROGRAM, **given)
    if faults := misfits([*map(str, words)], found.output):
        check(f"{words}: by the schema of the line", faults, [])
    texts = found.errors if "--dry-run" in words else found.output + found.errors
    if "always" in (*words, given.get("env", {}).get("CARGO_TERM_COLOR")):
        texts = COLOUR.sub("", texts)
    count(is_shown(texts), f"{words}: a character that could forge a line is printed")
    return found


def at(targets):
    """Returns the arguments that select these targets."""
    return [word for target in targets for word in ("--target", target)]


def graph(document, *words, **given):
    """Runs `graph` on a document, which is a value of JSON or bytes. Returns how it ended."""
    data = document if isinstance(document, bytes) else json.dumps(document).encode()
    return ask(["graph", *words], input=data, **given)


def graph_lines(document, *words):
    """Returns the lines of JSON that `graph` prints on a document."""
    return json_lines(graph(document, "--json", *words).output)


# The parts of a question that say how the program ends.
PARTS = ("status", "output", "errors")


def try_question(question, **given):
    """Asks a question of a JSON file. `ask` has the arguments, `name` the program's other name, and `input` what is on
    standard input. All else is what the program has to print: the whole `status`, `output` or `errors`, how the errors
    begin (`begins`), parts of the texts that are `told`, and JSON of standard output as an `object`, as some `members`
    of it, or as `objects`."""
    name = " ".join(question["ask"])
    if "input" in question:
        given["input"] = text_of(question["input"]).encode()
    end = ask(question["ask"], question.get("name", "manifest_check"), **given)
    for part, got in zip(PARTS, end):
        if part in question:
            check(f"{name}: {part}", got, question[part] if part == "status" else text_of(question[part]))
    if "object" in question:
        check(f"{name}: object", json.loads(end.output), question["object"])
    for field, value in question.get("members", {}).items():
        check(f"{name}: {field}", json.loads(end.output).get(field), value)
    if "objects" in question:
        check(f"{name}: objects", json_lines(end.output), question["objects"])
    if "begins" in question:
        check(f"{name}: how errors begin", end.errors[:len(question["begins"])], question["begins"])
    for text in question.get("told", []):
        check(f"{name}: {text!r} is told", text in end.output + end.errors, True)
