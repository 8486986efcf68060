"""Builds the library for C from its archive: `libnevgrasi.so` with the links to its version, and `libnevgrasi.a`.

The shared library is named `libnevgrasi.so.ABI.VERSION`. Its soname is `libnevgrasi.so.ABI`, so that a program that was
linked with one interface never loads another. Both libraries export the calls of the header alone.
"""
import os
import re
import subprocess
import sys

from builds import build, unproved
from c_header import constants
from crates import ROOT, stands_on, with_those_below
from proved import RT, is_of_rt_ci, kit, out_of, rattle, words
from wheel import version

COMPILER = os.environ.get("CC", "cc")
CRATE = ROOT / "crates" / "nevgrasi_c"
SHARED, STATIC = "libnevgrasi.so", "libnevgrasi.a"


def interface():
    """Returns the number of the interface."""
    return next(line.split()[2] for line in constants() if line.startswith("#define NEVGRASI_ABI "))


def shared_names():
    """Returns the name of the shared library, and those of the links to it: its soname, and what the linker opens."""
    soname = f"{SHARED}.{interface()}"
    return f"{soname}.{version()}", soname, SHARED


def proved_archive():
    """Builds the proved archive of the library, if something changed. After `rt ci` it is built over the libraries that
    this proved, if they are in place."""
    archive = CRATE / "out" / "libnevgrasi_c.a"
    below = [it for it in with_those_below([CRATE.name], stands_on()) if it != CRATE.name]
    if all(is_of_rt_ci(it) for it in below):
        archive.parent.mkdir(exist_ok=True)
        how = ["--toolchain", kit() / "toolchain", "--backend", "llvm"]
        made = rattle("build", *words(CRATE.name, out_of), *how, "-o", archive, cwd=CRATE)
    else:
        made = subprocess.run([RT, "lib", "--jobs", "1"], cwd=CRATE, text=True, stdout=subprocess.PIPE,
                              stderr=subprocess.STDOUT)
    if made.returncode:
        sys.exit(f"c-library: the archive was not made: {made.stdout[-2000:]}")
    return archive


def archives(is_proved):
    """Returns the archive of the library, and that of the toolchain on which it depends."""
    if not is_proved:
        build(CRATE.name)
    return [proved_archive() if is_proved else unproved(CRATE.name), kit() / "c" / "liblibc_c.a"]


def exported(library):
    """Returns the names of the calls in an archive."""
    listed = subprocess.run(["nm", "-g", "--defined-only", library], capture_output=True, text=True, check=True)
    return re.findall(r"^\w+ T (nevgrasi_\w+)$", listed.stdout, re.M)


def run(*command):
    subprocess.run([*map(str, command)], check=True)


def make_shared(folder, made_of):
    """Builds the shared library and its links, without what no export needs. Returns its path."""
    library, companion = made_of
    for old in folder.glob(f"{SHARED}*"):
        old.unlink()
    name, soname, link = shared_names()
    shown = folder / "exports.map"
    shown.write_text("{ global: " + " ".join(f"{it};" for it in exported(library)) + " local: *; };\n")
    run(COMPILER, "-shared", "-o", folder / name, f"-Wl,-soname,{soname}", f"-Wl,--version-script={shown}",
        "-Wl,-z,relro,-z,now,-z,text", "-Wl,--gc-sections", "-Wl,--whole-archive", library, "-Wl,--no-whole-archive",
        companion)
    shown.unlink()
    (folder / soname).symlink_to(name)
    (folder / link).symlink_to(soname)
    return folder / name


def make_static(folder, made_of):
    """Builds the static library: one object, in which only the exports are global. Returns its path."""
    library, companion = made_of
    made, joined, kept = folder / STATIC, folder / "nevgrasi.o", folder / "exports.txt"
    run(COMPILER, "-r", "-nostdlib", "-o", joined, "-Wl,--whole-archive", library, "-Wl,--no-whole-archive", companion)
    kept.write_text("".join(f"{it}\n" for it in exported(library)))
    run("objcopy", f"--keep-global-symbols={kept}", joined)
    made.unlink(missing_ok=True)
    run("ar", "rcs", made, joined)
    joined.unlink()
    kept.unlink()
    return made


def make_libraries(folder, made_of):
    """Builds both libraries. Returns the path of the shared one."""
    make_static(folder, made_of)
    return make_shared(folder, made_of)
