"""Commands of `rattle` on one crate, over what `rt ci` proved of the crates below it, or over their sources.

`rt ci` puts each library that it proved into crates/NAME/out/rlib, as its statements. Other commands of `rt` take no
such library and prove all below a crate again. A command of `rattle` takes it, and so proves one crate alone.
"""
import functools
import os
import pathlib
import subprocess

from crates import ROOT, lines_of_crates, stands_on, with_those_below

RT = os.environ.get("RT", "rt")


@functools.cache
def kit():
    """The folder of the toolchain."""
    doc = subprocess.run([RT, "doc"], capture_output=True, text=True, check=True).stdout
    return pathlib.Path(doc.strip()).parent


def static_libraries():
    """The crates that are libraries for C, by the lines of crates.txt."""
    return {words[0] for words, _ in lines_of_crates() if "staticlib" in words}


def library_in(folder, crate):
    return folder / "rlib" / f"{crate}.rlib"


def words(crate, folder_of):
    """The words by which a command of `rattle` in the folder of a crate reads that crate. They are those that `rt ci`
    gives it. The libraries below it lie in these folders of crates."""
    below = stands_on()
    own = [it for it in below[crate] if it in below]
    given = ["--crate-name", crate, "src/lib.rt", "-L", f"dependency={kit()}/rlibs"]
    for name in ["std", *(it for it in below[crate] if it not in below)]:
        given += ["--extern", f"{name}={kit()}/rlibs/{name}.rlib"]
    for name in own:
        given += ["--extern", f"{name}={library_in(folder_of(name), name)}"]
    for name in with_those_below(own, below):
        given += ["-L", f"dependency={folder_of(name)}/rlib"]
    return [*given, *last_words(crate)]


def words_of_sources(crate, crates):
    """The words by which a command of `rattle` in the folder of a crate reads that crate, and the crates below it as
    source, from this folder of crates: none of them has to be proved."""
    below = stands_on()
    sources = [it for it in with_those_below([crate], below) if it != crate]
    of_kit = {it for name in [*sources, crate] for it in below[name] if it not in below}
    given = ["--crate-name", crate, "src/lib.rt", "-L", f"dependency={kit()}/rlibs"]
    for name in sorted({"core", "std", *of_kit}):
        given += ["--extern", f"{name}={kit()}/rlibs/{name}.rlib"]
    for name in sources:
        used = ",".join(dict.fromkeys(["core", "std", *below[name]]))
        given += ["--lib", f"{name}:{used}={crates}/{name}/src/lib.rt"]
    return [*given, *last_words(crate)]


def last_words(crate):
    """The words for the kind of a crate, for the logic, and for its C code, of which there is none."""
    kind = ["--crate-type", "staticlib"] if crate in static_libraries() else []
    logic = ["--antt-project", f"{kit()}/rattle/logic/antt-project.json", "--logic-built", f"{kit()}/logic_built"]
    return [*kind, *logic, "--jobs", "1", "--links", f"{crate}="]


def rattle(verb, *given, **how):
    """Runs a command of `rattle`. What it says is one text."""
    how |= {"stdin": subprocess.DEVNULL, "stdout": subprocess.PIPE, "stderr": subprocess.STDOUT, "errors": "replace"}
    return subprocess.run([kit() / "bin" / "rattle", verb, *map(str, given)], text=True, **how)


def out_of(crate, root=ROOT):
    return root / "crates" / crate / "out"


def is_of_rt_ci(crate):
    """Whether the library that lies in this checkout is of `rt ci`: other commands put a stamp beside theirs, which
    `rt ci` sets aside, and puts back in the place of its own once it has ended."""
    folder = out_of(crate)
    return library_in(folder, crate).is_dir() and not (folder / "rlib" / "stamp").exists()
