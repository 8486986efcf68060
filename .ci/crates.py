"""Which crates of this repository stand on which, and copies of them."""
import pathlib
import shutil
import sys

ROOT = pathlib.Path(__file__).resolve().parent.parent

# What a copy of a crate leaves out: its mutants, and what was made of it.
LEFT_OUT = ("mutants", "out")


def lines_of_crates():
    """The lines of crates.txt: the words before the colon, of which the first is the crate, and those behind it."""
    lines = (ROOT / "crates.txt").read_text().splitlines()
    parts = (line.partition(":") for line in lines if line[:1] not in "#")
    return [(words.split(), below.split()) for words, _, below in parts]


def stands_on():
    """The crates that each crate stands on, by the lines of crates.txt."""
    return {words[0]: below for words, below in lines_of_crates()}


def with_those_below(names, below):
    """These crates and those of the repository that they stand on, each after those that it stands on."""
    found = []
    for name in names:
        mine = [it for it in below[name] if it in below]
        found += [it for it in (*with_those_below(mine, below), name) if it not in found]
    return found


def add_crates(folder, names, below, left_out=LEFT_OUT):
    """Copies crates into a repository, and names them in its crates.txt, also one of which there is nothing to copy."""
    for name in names:
        if (ROOT / "crates" / name).is_dir():
            ignored = shutil.ignore_patterns(*left_out)
            shutil.copytree(ROOT / "crates" / name, folder / "crates" / name, ignore=ignored)
    file = folder / "crates.txt"
    told = file.read_text(encoding="utf-8") if file.exists() else ""
    ended = "" if told.endswith("\n") or not told else "\n"
    before = {words[0]: " ".join(words) for words, _ in lines_of_crates()}
    lines = "".join(f"{before.get(name, name)}: {' '.join(below[name])}\n" for name in names)
    file.write_text(told + ended + lines, encoding="utf-8")


def lay_out(folder, names, below):
    """Makes a repository of copies of these crates and those that they stand on, but for those that it has already."""
    lacking = [it for it in with_those_below(names, below) if not (folder / "crates" / it).exists()]
    add_crates(folder, lacking, below)
    shutil.copyfile(ROOT / "HANDLES", folder / "HANDLES")


if __name__ == "__main__":
    # For scripts of the shell: these crates and those that they stand on, a line each.
    print("\n".join(with_those_below(sys.argv[1:], stands_on())))
