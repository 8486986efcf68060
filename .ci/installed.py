"""Installs the library for C as docs/OTHER-LANGUAGES.md says, and runs the commands of the page. Each has to print what
the page has below it, where no variable is set that the page does not set.

What is installed is the library that was built for this test. It is installed in a home folder that is made for it, and
in `/usr/local`, if a folder may be mounted over that which no other process sees.
"""
import functools
import os
import pathlib
import re
import shutil
import sys
import textwrap

from c_header import FOR_C, exports
from c_libraries import COMPILER, shared_names
from checks import count, ended, room_of, write_files
from crates import ROOT

PAGE = ROOT / "docs" / "OTHER-LANGUAGES.md"
BLOCK = re.compile(r"^```(\w+)\n(.*?)^```$", re.M | re.S)
COMMAND = re.compile(r"^% (.*)\n((?:^(?!% ).*\n)*)", re.M)
END = "% ended"

# `make install-c` installs what was built here. The page does not show what it prints.
MAKE = """make() {{
    command make --no-print-directory -C {root} "${{@/#install-c/install-library}}" C_LIBRARY={built} >&2
}}
"""

# Mounts a folder over another one, for this process alone.
MOUNT = "mount -t overlay overlay -o lowerdir={at},upperdir={room}/upper,workdir={room}/work {at}\n"
USR_LOCAL = "/usr/local"

# A program of another package, which links the shared library by the build script of the page.
DEPENDENT = """[package]
name = "dependent"
version = "0.0.0"
edition = "2021"

[dependencies]
nevgrasi = { path = "../rust/nevgrasi" }
"""


def blocks(language):
    """Returns the blocks of code of the page in this language."""
    return [text for name, text in BLOCK.findall(PAGE.read_text()) if name == language]


@functools.cache
def missing():
    """Returns the beginnings of the commands that this machine can't run: for want of cargo, or of a static libc."""
    found = [] if shutil.which("cargo") else ["cargo "]
    with room_of({"empty.c": "int main(void) { return 0; }"}) as room:
        is_linked = ended([COMPILER, "-static", "empty.c", "-o", "empty"], cwd=room).status == 0
    return tuple(found if is_linked else [*found, "cc -static "])


def commands():
    """Returns the commands of the page, each with the output below it, but for those that this machine can't run."""
    found = [it for text in blocks("text") for it in COMMAND.findall(text) if not it[0].startswith(missing())]
    return [(re.sub("^cc ", f"{COMPILER} ", command), told) for command, told in found]


def environment(home):
    """Returns the variables of a session in which none names a folder of the library."""
    kept = ("LANG", "PATH", "RUSTUP_TOOLCHAIN")
    given = {it: os.environ[it] for it in kept if it in os.environ}
    for name, folder in (("CARGO_HOME", ".cargo"), ("RUSTUP_HOME", ".rustup")):
        given[name] = os.environ.get(name, str(pathlib.Path.home() / folder))
    return {**given, "HOME": str(home), "CARGO_NET_OFFLINE": "true", "CARGO_TARGET_DIR": str(home / "target")}


# A library of another interface. Of its calls only the one that says so may be made.
OTHER = """#include <stdint.h>
uint32_t nevgrasi_abi(void) { return 99; }
"""
SAYS_OTHER = "has the interface 99, and this %s is written for 2"


def make_other(folder):
    """Builds a shared library with another interface. Returns its path."""
    calls = [name for _, name, _ in exports(FOR_C) if name != "nevgrasi_abi"]
    source = OTHER + "".join(f"void {name}(void) {{ __builtin_trap(); }}\n" for name in calls)
    write_files(folder, {"other.c": source})
    made = folder / shared_names()[1]
    found = ended([COMPILER, "-shared", "-fPIC", folder / "other.c", "-o", made])
    count(found.status == 0, f"a library of another interface: {found.errors}")
    return made


class Session:
    """A user with a new home folder, in which the examples and the crate are, and with the library built here."""

    def __init__(self, home, built):
        self.home, self.built = home, built
        for folder in ("examples", "rust"):
            shutil.copytree(ROOT / folder, home / folder, ignore=shutil.ignore_patterns("target"))
        self.environment = environment(home)

    def run(self, script, shell=("bash",), **given):
        """Runs a script in the home folder, in which `make install-c` installs the library built here."""
        made = MAKE.format(root=ROOT, built=self.built) + script
        return ended([*shell, "-c", made], **{"cwd": self.home, "env": self.environment, "timeout": 3600, **given})

    def own_python(self):
        """Makes a virtual environment active, so that the package is not installed outside the home folder."""
        made = ended([sys.executable, "-m", "venv", "--without-pip", self.home / "python"])
        count(made.status == 0, f"no virtual environment: {made.errors}")
        self.environment["PATH"] = os.pathsep.join([str(self.home / "python" / "bin"), self.environment["PATH"]])

    def try_commands(self, given, shell=("bash",), first=""):
        """Runs commands in one shell, and compares what each prints."""
        found = self.run(first + "".join(f"{command}\necho '{END}'\n" for command, _ in given), shell)
        printed = found.output.split(f"{END}\n")[:-1]
        count(len(printed) == len(given) > 5, f"{PAGE.name}: {len(printed)} of {len(given)} commands ran")
        for (command, told), output in zip(given, printed):
            count(output == told, f"{PAGE.name}: {command} prints {output}{found.errors[-2000:]}")

    def try_built(self, what, program, files, script):
        """Builds the example by these files as another program does, and compares what it prints."""
        if not shutil.which(program):
            print(f"there is no {program}: the page's lines for it were not tried")
            return
        write_files(self.home / what, files)
        found = self.run(script, cwd=self.home / what)
        told = next(told for command, told in commands() if command == "./example")
        count(found.output.endswith(told) and told, f"{what}: prints {found.output}{found.errors[-2000:]}")


    def try_other_interface(self):
        """A library of another interface is an error in Python, and in the program in Rust that was built last."""
        other = make_other(self.home / "other")
        found = self.run(f"NEVGRASI_LIBRARY={other} python3 -c 'import nevgrasi'")
        told = SAYS_OTHER % "package"
        count(found.status == 1 and f"ImportError: {other} {told}\n" in found.errors, f"in Python: {found.errors}")
        if shutil.which("cargo"):
            found = self.run(f"LD_LIBRARY_PATH={other.parent} target/debug/dependent")
            told = f'kind: OtherInterface, message: "libnevgrasi.so {SAYS_OTHER % "crate"}"'
            count(found.status == 1 and told in found.errors, f"in Rust: {found.status}, {found.errors}")


def try_at_home(home, built):
    """The commands as they are on the page."""
    session = Session(home, built)
    asked = ended(["python3", "-c", "import site; print(site.ENABLE_USER_SITE)"], env=session.environment)
    if asked.output != "True\n":
        session.own_python()
    given = commands()
    count(any(command.startswith("export ") for command, _ in given), f"{PAGE.name} sets no variable")
    session.try_commands(given)
    exports = "".join(f"{command}\n" for command, _ in given if command.startswith("export "))
    example = (ROOT / "examples" / "example.c").read_text()
    cmake, meson = (blocks(it)[0] for it in ("cmake", "meson"))
    session.try_built("cmake", "cmake", {"CMakeLists.txt": cmake, "example.c": example},
                      f"{exports}cmake -S . -B built && cmake --build built && built/example")
    session.try_built("meson", "meson", {"meson.build": meson, "example.c": example},
                      f"{exports}meson setup built && meson compile -C built && built/example")
    files = {"Cargo.toml": DEPENDENT, "build.rs": blocks("rust")[0],
             "src/main.rs": (ROOT / "rust" / "nevgrasi" / "examples" / "example.rs").read_text()}
    session.try_built("dependent", "cargo", files, f"{exports}NEVGRASI_LINK=dylib cargo run -q")
    session.try_other_interface()
    del files["build.rs"]
    session.try_built("linked", "cargo", files, "cargo run -q")


def try_in_usr_local(home, built):
    """The commands for a user who names no folder, and sets no variable."""
    over = home / "over"
    for it in ("upper", "work"):
        (over / it).mkdir(parents=True)
    mount, shell = MOUNT.format(at=USR_LOCAL, room=over), ("unshare", "--map-root-user", "--mount", "bash")
    if not shutil.which(shell[0]) or ended([*shell, "-c", mount]).status:
        print(f"no folder may be mounted over {USR_LOCAL}: the library was not installed there")
        return
    searched = ended(["pkg-config", "--variable=pc_path", "pkg-config"]).output
    if f"{USR_LOCAL}/lib/pkgconfig" not in searched.strip().split(":"):
        print(f"pkg-config does not look in {USR_LOCAL}: the library was not installed there")
        return
    session = Session(home, built)
    session.own_python()
    given = [(re.sub("^(make install-c).*", r"\1", command), told) for command, told in commands()
             if not command.startswith("export ")]  # fmt: skip
    session.try_commands(given, shell, mount)


def try_rust_without(home, built):
    """The crate's build script where there is no library, or not the one that is wanted: an error that says so."""
    if not shutil.which("cargo"):
        return
    session, crate = Session(home, built), home / "rust" / "nevgrasi"
    (home / "empty").mkdir()
    for variables, told in (
        ("NEVGRASI_LIB=../../empty", """
            error: no `libnevgrasi.a` or `libnevgrasi.so` in ../../empty
            help: install the library with `make install-c PREFIX=~/.local`, or set NEVGRASI_LIB to its folder"""),
        ("NEVGRASI_LIB=../../empty NEVGRASI_LINK=static", "error: no `libnevgrasi.a` in ../../empty"),
        ("NEVGRASI_LIB=../../empty NEVGRASI_LINK=dylib", "error: no `libnevgrasi.so` in ../../empty"),
        ("NEVGRASI_LINK=both", "error: NEVGRASI_LINK is neither `static` nor `dylib`"),
    ):
        found = session.run(f"{variables} cargo check", cwd=crate)
        wanted = textwrap.indent(textwrap.dedent(told).strip(), "  ")
        count(found.status and wanted in found.errors, f"{variables} cargo check: {found.errors}")


def try_installed(room, built):
    """Tries what the page says on the installation."""
    if not shutil.which("pkg-config"):
        print("there is no pkg-config: the library was not installed")
        return
    for it in missing():
        print(f"the commands of the page that begin with `{it}` were not tried")
    count(f"`{shared_names()[0]}`" in PAGE.read_text(), f"{PAGE.name}: the library is {shared_names()[0]}")
    for number, it in enumerate((try_at_home, try_in_usr_local, try_rust_without)):
        home = room / f"home{number}"
        home.mkdir()
        it(home, built)
