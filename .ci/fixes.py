"""`lint --fix` on manifests in temporary folders: what it makes of them, byte by byte.

Each case has the files before and after, and the files that are named as fixed, with how many fixes. A dry run has to
write nothing, and `patch` has to make the same files by what it prints. A second run has to change nothing.
"""
import concurrent.futures
import os
import stat
import subprocess
import time

from asked import ask, cases, try_question
from checks import bytes_of, check, json_lines, room_of

# The user that may not write into a folder of root's.
NOBODY = 65534

CANONICAL = ["--warn", "not-canonical"]
SPACED, PLAIN = "[target.'cfg( unix )'.dependencies]\n", "[target.'cfg(unix)'.dependencies]\n"
STATED = cases("fixes.json")


def removed(name, before, after, count):
    """Returns the case of entries that are removed from a list of lints, of which `nowhere` is needed."""
    file = {}
    for which, entries in (("before", before), ("after", after)):
        rules = f"[package.metadata.manifest-check]\nallow = {entries}\n"
        file[which] = {"Cargo.toml": f"{rules}[target.'cfg(all(unix, windows))'.dependencies]\n"}
    return {"name": name, **file, "fixed": {"Cargo.toml": count} if count else {}, "ask": ["Cargo.toml"]}


def far_apart(space):
    """Returns a manifest with keys that have more and more lines between them, and these spaces in them."""
    lines = (f"[target.'cfg({space}a{it}{space})'.dependencies]\n" + "# \n" * it for it in range(12))
    return {"Cargo.toml": "".join(lines)}


def files_in(room):
    """Returns the bytes of each file below a folder, by their paths."""
    files = [file for file in room.rglob("*") if file.is_file()]
    return {str(file.relative_to(room)): file.read_bytes() for file in files}


def try_case(case):
    """Fixes the files that are there `before`, after a dry run, and a second time. Those of `after` differ then. Files
    are named as `fixed`, with the number of their fixes."""
    name, words, fixed, wanted = case["name"], case["ask"], case.get("fixed", {}), case.get("status", 0)
    before = {path: bytes_of(data) for path, data in case["before"].items()}
    after = before | {path: bytes_of(data) for path, data in case.get("after", {}).items()}
    with room_of(before) as room:
        kept = {path: (room / path).stat() for path in before.keys() - fixed}
        status, diff, _ = ask(["lint", "--fix", "--dry-run", *words], cwd=room)
        check(f"{name}: a dry run writes nothing", files_in(room), before)
        check(f"{name}: status of the dry run", status, wanted)
        with room_of(before) as other:
            if diff:
                subprocess.run(["patch", "--binary", "-p1", "-s"], input=diff.encode(), cwd=other, check=False)
            check(f"{name}: the patched files", files_in(other), after)
        status, output, errors = ask(["lint", "--fix", *words], cwd=room)
        check(f"{name}: the fixed files", files_in(room), after)
        check(f"{name}: status", status, wanted)
        lines = [f"       Fixed {path} ({count} fix{'es' * (count != 1)})" for path, count in fixed.items()]
        check(f"{name}: files that are named", errors.splitlines()[:-1], lines)
        for path, found in kept.items():
            now = (room / path).stat()
            check(f"{name}: {path} is not touched", (now.st_mtime_ns, now.st_ino), (found.st_mtime_ns, found.st_ino))
        safe = [word for word in words if word != "--unsafe-fixes"]
        check(f"{name}: what is left", ask(["lint", *safe], cwd=room).output, output)
        again = ask(["lint", "-q", "--fix", *words], cwd=room)
        check(f"{name}: the second time", (files_in(room), again), (after, (status, output, "")))


def try_diff():
    """The text of a diff."""
    lines = [f"# {number}\n" for number in range(1, 10)]
    with room_of({"Cargo.toml": "".join([*lines[:4], "[dev_dependencies]\n", *lines[4:]])}) as room:
        found = ask(["lint", "-q", "--fix", "--dry-run", "."], cwd=room)
        check("a diff", found, (0, "".join(f"{line}\n" for line in STATED["diff"]), ""))


def try_links():
    """Symbolic links, permissions, and files that can't be replaced."""
    with room_of({"real/Cargo.toml": SPACED}) as room:
        link, real = room / "Cargo.toml", room / "real" / "Cargo.toml"
        link.symlink_to("real/Cargo.toml")
        real.chmod(0o640)
        check("fix by a link", ask(["lint", "-q", "--fix", *CANONICAL, "Cargo.toml"], cwd=room), (0, "", ""))
        check("the link stays", (link.is_symlink(), real.read_text()), (True, PLAIN))
        check("the permissions stay", stat.S_IMODE(real.stat().st_mode), 0o640)
        check("nothing is left beside it", [file.name for file in real.parent.iterdir()], ["Cargo.toml"])
        # A name that is taken is left alone.
        real.write_text(SPACED)
        (real.parent / ".Cargo.toml.manifest_check-0000").write_text("a")
        check("fix beside a taken name", ask(["lint", "-q", "--fix", *CANONICAL, real], cwd=room), (0, "", ""))
        check("both files", files_in(real.parent),
              {"Cargo.toml": PLAIN.encode(), ".Cargo.toml.manifest_check-0000": b"a"})


def try_refused():
    """Files that are not written: they stay as they are, and what is wrong with them is reported."""
    user = {"user": NOBODY, "group": NOBODY, "extra_groups": []} if os.geteuid() == 0 else {}
    files = {"folder/Cargo.toml": SPACED, "read-only.toml": SPACED}
    with room_of(files) as room:
        room.chmod(0o755)
        (room / "read-only.toml").chmod(0o444)
        (room / "folder" / "Cargo.toml").chmod(0o666)
        (room / "folder").chmod(0o555)
        for file, given in (("folder/Cargo.toml", user), ("read-only.toml", {})):
            status, output, errors = ask(["lint", "-q", "--fix", *CANONICAL, file], cwd=room, **given)
            check(f"{file}: what is told", (status, errors.startswith(f"{file}: error: nothing is fixed: "),
                                            errors.count("\n")), (2, True, 1))
            check(f"{file}: diagnostics", output.startswith("warning[not-canonical]: "), True)
        check("the files stay", files_in(room), {path: text.encode() for path, text in files.items()})
        (room / "folder").chmod(0o755)


def change_between(path, text, pipe, run):
    """Writes a text to a file as soon as a run opens a named pipe, which it reads after the file. The pipe is empty
    each time that it is opened."""
    is_written = False
    while not run.done():
        try:
            file = os.open(pipe, os.O_WRONLY | os.O_NONBLOCK)
        except OSError:
            time.sleep(0.01)
            continue
        if not is_written:
            path.write_text(text)
            is_written = True
        os.close(file)


def try_changed():
    """A file that changes after it was read: it stays as it is, and what was read of it is reported."""
    with room_of({"Cargo.toml": SPACED}) as room, concurrent.futures.ThreadPoolExecutor() as pool:
        os.mkfifo(room / "pipe.toml")
        run = pool.submit(ask, ["lint", "-q", "--fix", *CANONICAL, "Cargo.toml", "pipe.toml"], cwd=room)
        change_between(room / "Cargo.toml", f"{SPACED}# changed\n", room / "pipe.toml", run)
        status, output, errors = run.result()
        check("a file that changes: errors", (status, errors),
              (2, "Cargo.toml: error: nothing is fixed: the file has changed since it was read\n"))
        check("a file that changes: what is reported", output.startswith("warning[not-canonical]: "), True)
        check("a file that changes: the file", (room / "Cargo.toml").read_text(), f"{SPACED}# changed\n")


def try_words():
    """Arguments beside `--fix`."""
    with room_of({"Cargo.toml": SPACED + "[target.'cfg(macos)'.dependencies]\n"}) as room:
        for question in STATED["arguments"]:
            try_question(question, cwd=room)
        status, output, errors = ask(["lint", "-q", "--fix", "--json", *CANONICAL, "."], cwd=room)
        check("what is left, as JSON", (status, [it["code"] for it in json_lines(output)], errors),
              (1, ["unknown-fact"], ""))
        check("the file", (room / "Cargo.toml").read_text(), PLAIN + "[target.'cfg(macos)'.dependencies]\n")


def try_overlapping():
    """Two suggestions for one key: the first is applied, and what is left is reported."""
    with room_of({"Cargo.toml": "[target.'cfg( macos )'.dependencies]\n"}) as room:
        words = ["lint", "--fix", "--unsafe-fixes", *CANONICAL, "Cargo.toml"]
        told = json_lines(ask(["lint", "-q", "--json", *CANONICAL, "Cargo.toml"], cwd=room).output)
        first = told[0]["suggestion"]
        ask(words, cwd=room)
        check("the first suggestion", (room / "Cargo.toml").read_text(), f"[target.'{first}'.dependencies]\n")
        ask(words, cwd=room)
        check("both", (room / "Cargo.toml").read_text(), "[target.'cfg(target_os = \"macos\")'.dependencies]\n")


def try_many():
    """Many fixes in one manifest."""
    before, after = ("".join(f"[target.'cfg({space}a{it}{space})'.dependencies]\n" for it in range(2000))
                     for space in (" ", ""))
    with room_of({"Cargo.toml": before}) as room:
        status, _, errors = ask(["lint", "--fix", *CANONICAL, "--allow", "custom", "."], cwd=room)
        check("many fixes", (status, errors.splitlines()[0]), (0, "       Fixed ./Cargo.toml (2000 fixes)"))
        check("many fixes: the file", (room / "Cargo.toml").read_text() == after, True)


def try_fixes():
    for row in STATED["removed"]:
        try_case(removed(*row))
    for case in STATED["cases"]:
        try_case(case)
    try_case({"name": "far apart", "before": far_apart(" "), "after": far_apart(""), "fixed": {"Cargo.toml": 12},
              "ask": [*CANONICAL, "--allow", "custom", "Cargo.toml"]})
    for step in (try_diff, try_links, try_refused, try_changed, try_words, try_overlapping, try_many):
        step()
