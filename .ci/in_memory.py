"""Tries `nevgrasi.run` of the Python package, which has to be on the path: for files that are handed over, it returns
the status, the output and the errors with which the program `manifest_check` ends in a folder that has these files.

The files and questions are those with which other scripts try the program: questions.json, lint.json and
workspaces.json in crates/manifest_check, and the graphs there; and those of crates/byte_commands/commands.json. The
program is built before. The last line is `N passed, M failed`.
"""
import json
import os
import sys

import nevgrasi
from asked import FACTS, MANIFESTS, PROGRAM, cases
from checks import bytes_of, check, count, ended, finish, room_of
from crates import ROOT
from graph_model import graphs

# What is asked of graphs and workspaces, and of files that are missing.
STATED = json.loads((ROOT / "crates" / "byte_commands" / "commands.json").read_text(encoding="utf-8"))


def handed_over(files):
    """Files as `run` takes them: by their names, with their bytes."""
    return {name: bytes_of(data) for name, data in files.items()}


def check_run(name, words, room, files, given=b""):
    """The same answer for these words and this standard input: of the program in a folder, and on its files in
    memory."""
    told = ended(["manifest_check", *words], executable=PROGRAM, cwd=room, input=given, env={"PATH": os.defpath})
    found = nevgrasi.run(words, {**files, "-": given})
    check(f"{name}: {' '.join(words)}"[:300], tuple(found), tuple(told))


def writes(words):
    return "--html" in words or "--fix" in words and "--dry-run" not in words


def try_questions():
    """The questions with stated answers."""
    files = handed_over({**FACTS, **MANIFESTS})
    with room_of(files) as room:
        for question in cases("questions.json"):
            if not writes(question["ask"]) and "name" not in question:
                check_run("question", question["ask"], room, files)


def try_lint():
    """The manifests with all that is to be found in them, the fixes of each, and each on standard input."""
    rustcs = {name: data for name, data in MANIFESTS.items() if name.startswith("rustc-")}
    for case in cases("lint.json"):
        text = "\n".join(case["manifest"]) + "\n"
        files, options = handed_over({**rustcs, "Cargo.toml": text}), case.get("options", [])
        with room_of(files) as room:
            for words in (["lint", "."], ["lint", "-q", "--json"], ["lint", "--fix", "--unsafe-fixes", "--dry-run"],
                          ["lint", "--message-format", "json", "Cargo.toml"]):  # fmt: skip
                check_run(text[:200], [*words, *options], room, files)
            check_run(text[:200], ["lint", "--message-format", "sarif", *options, "-"], room, rustcs, text.encode())


def try_graphs():
    """Graphs in a file and on standard input."""
    stated = cases("graphs/cases.json")
    documents = {"sample": stated["sample"], **graphs()}
    older = json.dumps(documents["sample"])
    for name, document in documents.items():
        text = json.dumps(document).encode()
        files = handed_over({**MANIFESTS, "older.json": older, "graph.json": text})
        with room_of(files) as room:
            asked = [words for it, words, *_ in stated["refused_words"] + stated["left_out"] if it == name]
            for words in STATED["graphs"] + asked:
                check_run(name, ["graph", *words], room, files, text)
                check_run(name, ["graph", "--metadata", "graph.json", *words], room, files)


def try_workspaces():
    """Workspaces with members in folders, without the links of some of them."""
    package = '[package]\nname = "{}"\nversion = "1.0.0"\n\n[target."cfg(windos)".dependencies]\na = "1"\n'
    for name, members, folders, *_ in cases("workspaces.json")["members"]:
        files = {"Cargo.toml": f"[workspace]\n{members}\n", ".cargo/config.toml": '[build]\nrustflags = "--cfg a"\n'}
        for folder, more in folders.items():
            file = f"{folder}/Cargo.toml" if folder else "Cargo.toml"
            files[file] = files.get(file, "") + package.format(folder.rsplit("/")[-1] or "root") + more
        files = handed_over(files)
        with room_of(files) as room:
            for words in STATED["workspaces"]:
                check_run(name, words, room, files)


def try_missing():
    """Files that are not handed over, names that are no files, and arguments that are wrong."""
    files = handed_over(STATED["files"])
    with room_of(files) as room:
        for words in STATED["missing"]:
            check_run("missing", words, room, files)


def try_writes():
    """What would write fails as on a read-only file system, and leaves the rest of the answer."""
    manifest = "[target.'cfg(windos)'.dependencies]\na = \"1\"\n"
    told = nevgrasi.run(["lint", "--fix", "--unsafe-fixes"], {"Cargo.toml": manifest})
    check("a fix is not written", (told.status, "Read-only file system" in told.output + told.errors), (2, True))
    document = json.dumps(cases("graphs/cases.json")["sample"])
    told = nevgrasi.run(["graph", "--html", "page.html"], {"-": document})
    check("a page is not written", told, (2, "", "page.html: error: Read-only file system (os error 30)\n"))


def try_forms():
    """Bytes that are no arguments and no files, by the call itself."""
    from nevgrasi._library import DONE, NOT_UTF8, REFUSED, call, of_bytes

    for words, files, code, argument in (
            (b"a", b"", REFUSED, 0), (b"", b"a", REFUSED, 1), (b"", b"a\0", REFUSED, 1), (b"", b"a\0x\0", REFUSED, 1),
            (b"", b"a\x001\0", REFUSED, 1), (b"\xff\0", b"", NOT_UTF8, 0), (b"", b"\xff\x000\0", NOT_UTF8, 1),
            (b"", b"a\x001\0b", DONE, 2), (b"lint\0a\0", b"a\x002\0[]", DONE, 2), (b"", b"", DONE, 2)):  # fmt: skip
        outcome, _ = call("nevgrasi_run", *of_bytes(words), *of_bytes(files))
        check(f"{words} {files}", (outcome.code, outcome.argument), (code, argument))
    for wrong in ("run('lint')", "run([1])", "run(b'a')", "run([], {1: ''})", "run([], {'a': 1})"):
        try:
            eval(f"nevgrasi.{wrong}")
            count(False, f"{wrong} has a value")
        except TypeError:
            count(True, "")


def main():
    for step in (try_questions, try_lint, try_graphs, try_workspaces, try_missing, try_writes, try_forms):
        step()
    return finish()


if __name__ == "__main__":
    sys.exit(main())
