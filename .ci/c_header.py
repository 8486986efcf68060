"""The header of the library for C, made of the exports' signatures and comments, and of the constants; and the same
for Rust.

`include/nevgrasi.h` and `rust/nevgrasi/src/raw.rs` have to be these texts: `.ci/c-library` compares them, and
`.ci/c-library --header` writes them anew. What stands before the declarations is written by hand, in the files.
"""
import re
import textwrap

from crates import ROOT
from sources import documented

HEADER = ROOT / "include" / "nevgrasi.h"
RAW = ROOT / "rust" / "nevgrasi" / "src" / "raw.rs"
EXPORTS = ROOT / "crates" / "nevgrasi_c" / "src" / "lib.rt"
OUTCOME = ROOT / "crates" / "byte_answers" / "src" / "outcome.rt"
DEPTH = ROOT / "crates" / "byte_answers" / "src" / "depth.rt"
TABLE = ROOT / "crates" / "known_targets" / "src" / "table.rt"

# What each type of a parameter is for C, and for Rust, where NAME is the parameter's name.
PARAMETERS = {
    "&[u8]": (["const uint8_t *NAME", "size_t NAME_length"], ["NAME: *const u8", "NAME_length: usize"]),
    "&mut [u8]": (["uint8_t *NAME", "size_t NAME_length"], ["NAME: *mut u8", "NAME_length: usize"]),
    "&mut [u64; SET_WORDS]": (["uint64_t NAME[NEVGRASI_WORDS]"], ["NAME: *mut [u64; WORDS]"]),
    "&mut Outcome": (["nevgrasi_outcome *NAME"], ["NAME: *mut Outcome"]),
    "usize": (["size_t NAME"], ["NAME: usize"]),
    "u64": (["uint64_t NAME"], ["NAME: u64"]),
    "Global": ([], []),
}
FOR_C, FOR_RUST = 0, 1

# The names that some constants have for C and for Rust, and for C alone. Callers have compiled with those for C.
NAMES = {"COUNT": "TARGETS", "SET_WORDS": "WORDS"}
NAMES_OF_C = {"MAX_OPEN": "MOST_OPEN", "MAX_FLAT_BYTES": "MOST_FLAT_BYTES"}

FIELDS = {"u32": "uint32_t", "bool": "bool", "usize": "size_t"}

# What begins and ends the generated part of each file; around it the file is written by hand.
FRONT, END = 'extern "C" {\n#endif\n', "\n#ifdef __cplusplus\n}"
RUST_FRONT = "pub struct Outcome {"


def name_of_c(name):
    """The name that a constant has for C."""
    return f"NEVGRASI_{NAMES_OF_C.get(name, name)}"


def comment(text, indent=""):
    """A comment of C that says what a doc comment says. The calls and constants in it get their names of C."""
    text = re.sub(r"`(?:NEVGRASI_)?([A-Z][A-Z_]+\d*)`", lambda found: name_of_c(found[1]), text)
    return wrapped(f"/* {text}\N{NO-BREAK SPACE}*/", indent, f"{indent}   ")


def wrapped(text, first, others):
    """The text in lines that fit. A no-break space holds words together, and is written as a space."""
    lines = textwrap.wrap(text, 118, initial_indent=first, subsequent_indent=others, break_on_hyphens=False)
    return "\n".join(lines).replace("\N{NO-BREAK SPACE}", " ")


def stated():
    """The codes and limits: their comments, their names and types, and what they are."""
    for file in (OUTCOME, DEPTH, EXPORTS, TABLE):
        for text, _, (name, kind, value) in documented(file.read_text(), r"pub const (\w+): (u32|usize) = ([\d_]+);"):
            yield text, NAMES.get(name, name), kind, value.replace("_", "")


def constants():
    """The codes and limits, with their comments, as lines."""
    for text, name, _, value in stated():
        yield comment(text)
        yield f"#define {name_of_c(name)} {value}"


def fields():
    """The fields of an outcome: their comments, names and types."""
    body = OUTCOME.read_text().partition("pub struct Outcome {\n")[2].partition("\n}")[0]
    return [(text, name, kind) for text, _, (name, kind) in documented(body, r"pub (\w+): (\w+),")]


def exports(language):
    """Each export: its comment, its name, and its parameters in a language."""
    pattern = r'pub extern "C" fn (\w+)\(([^)]*)\) -> u32'
    for text, _, (name, listed) in documented(EXPORTS.read_text(), pattern):
        words = [word.strip().partition(": ") for word in listed.split(",") if word.strip()]
        yield text, name, [part.replace("NAME", it) for it, _, kind in words for part in PARAMETERS[kind][language]]


def header():
    """The text of the header."""
    front, _, made = HEADER.read_text().partition(FRONT)
    parts = [front + FRONT, *constants(), "\n/* How a call ended. */\ntypedef struct {"]
    parts += [f"{comment(text, '    ')}\n    {FIELDS[kind]} {name};" for text, name, kind in fields()]
    parts += ["} nevgrasi_outcome;"]
    for text, name, parameters in exports(FOR_C):
        listed = ", ".join(part.replace(" ", "\N{NO-BREAK SPACE}") for part in parameters) or "void"
        parts.append(f"\n{comment(text)}\n{wrapped(f'uint32_t {name}({listed});', '', '    ')}")
    return "\n".join(parts) + "\n" + END + made.rpartition(END)[2]


def comment_in_rust(text, indent=""):
    """A doc comment of Rust."""
    return textwrap.fill(text, 120, initial_indent=f"{indent}/// ", subsequent_indent=f"{indent}/// ")


def raw():
    """The text of the declarations for Rust."""
    parts = [RAW.read_text().partition(RUST_FRONT)[0] + RUST_FRONT]
    parts += [f"{comment_in_rust(text, '    ')}\n    pub {name}: {kind}," for text, name, kind in fields()]
    parts += ["}\n"]
    parts += [f"{comment_in_rust(text)}\npub const {name}: {kind} = {value};" for text, name, kind, value in stated()]
    parts += ['\nextern "C" {']
    for text, name, parameters in exports(FOR_RUST):
        listed = "".join(f"        {it},\n" for it in parameters)
        listed = f"\n{listed}    " if listed else ""
        parts += [comment_in_rust(text, "    "), f"    pub fn {name}({listed}) -> u32;"]
    return "\n".join(parts) + "\n}\n"
