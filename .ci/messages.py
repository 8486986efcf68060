"""What the message of a diagnostic on a manifest has to be, by its lint, its key, and what it points to.

The forms are those of docs/LINTS.md. The names in a message are those that the manifest has at the places of the
diagnostic, so that each place is that of what the message names. A fact that no known target is said to have is none in
what rustc printed. The reason of a rejected key is the one that a reader of conditions in Python gives.
"""
import functools
import re

from conditions import Refused, as_line, inside_of_key, read, read_target, shown
from targets import known_targets

# The targets: the known ones, those of a file, or the known ones with others that are added.
TARGETS = r"target (?:that rustc 1\.95\.0 knows|of \S+|of rustc 1\.95\.0 with (?:--target-spec|known-targets))"
NONE, NAMES = f"no {TARGETS} has", r"(`.*`(?: and \d+ more)?)"
FACTS, FEATURES = f"{NONE} {NAMES}", f"no architecture that rustc 1.95.0 knows has {NAMES}"
UNSTABLE = f"rustc 1.95.0 prints {NAMES} only with unstable features"
FIELD = "`[^`]*` (?:is not a table(?: of dependencies)?|belongs into .cargo/config.toml)"

# The form of the message of each lint whose message names what is at its places.
NAMING = {
    "unknown-fact": f"{FACTS}|{FEATURES}|{FACTS}; {FEATURES}",
    "custom": f"{FACTS}|{UNSTABLE}|{FACTS}; {UNSTABLE}",
    "unsupported": f"Cargo does not set {NAMES} when it selects dependencies",
    "no-table": rf"({FIELD}(?:, {FIELD}){{0,2}}(?: and \d+ more)?)|the key is not a table",
    "former": r"rustc knew (`.*`) until \d\.\d+\.\d|rustc \d\.\d+\.\d knew (`.*`), and \d\.\d+\.\d does not",
    "unneeded-allow": "(`.*`) would not be reported without this entry either",
}

# The messages of the other lints, of which some name another key.
OTHERS = {
    "read-otherwise": "Cargo accepts the key with a warning|Cargo reads `.*` without the raw mark",
    "never": "no set of facts makes the condition true",
    "unknown-target": f"{NONE} this name",
    "nowhere": f"{NONE} facts that make the condition true",
    "same": "the same condition as the earlier key `.*`",
    "equivalent": "equivalent to the earlier key `.*`",
    "always": "every set of facts makes the condition true",
    "everywhere": f"the condition is true on every {TARGETS}",
    "not-canonical": "the key is not in canonical form",
    "underscored": "Cargo warns of this name|Cargo rejects this name",
    "misplaced": "Cargo does not read this table|Cargo rejects this package name"
                 "|Cargo takes `.*` for the name of a package",
    "settings": "`.*` is not .*|the table `manifest_check` has no effect|unknown (?:lint|setting): `.*`"
                "|an entry of `.*` is (?:not a string|neither .*)|cannot use `.*`: .*",
}


@functools.cache
def facts_of_targets():
    """Returns the lines of facts that a known target has."""
    return {line for lines in known_targets().values() for line in lines}


def reason_of(key):
    """Returns why a key is rejected, or None. Where `cfg(` is missing, the reason names the character at its place."""
    inside = inside_of_key(key)
    found = read_target(key) if inside is None else read(inside)
    if not isinstance(found, Refused):
        return None
    reason, start, end = found.args
    if inside is not None or "(" not in key:
        return reason
    if key.startswith("cfg("):
        return "it begins with `cfg(` and does not end with `)`"
    return reason.replace("`(`", f"`{key[start:end]}`")


def in_toml(text):
    """Returns the text that a name of TOML spells, or a part of one, which has no quotes around it."""
    if text[:1] == "'":
        return text[1:-1]
    body = text[1:-1] if text[:1] == '"' else text
    return re.sub(r"\\(?:u(.{4})|U(.{8})|(.))", lambda it: it[3] or chr(int(it[1] or it[2], 16)), body)


def as_printed(text):
    """Returns a fact as messages print it, and another text as it is."""
    found = read(text)
    return shown(found) if isinstance(found, str) else text


def pointed_to(data, message):
    """Returns what a manifest has at the places of a message of rustc's JSON, each text once, in their order."""
    spans = [it for it in message["spans"] if it["is_primary"]]
    texts = [in_toml(data[it["byte_start"] : it["byte_end"]].decode()) for it in spans]
    return list(dict.fromkeys(map(as_printed, texts)))


def faults(data, message, key):
    """What is wrong with the message of a diagnostic on a manifest: a line each."""
    code, text = message["code"]["code"], message["message"]
    if code == "refused":
        wanted = reason_of(key)
        return [] if text == f"invalid key: {wanted}" else [f"the reason is {text!r}, and not {wanted!r}"]
    form = NAMING.get(code) or OTHERS[code]
    found = re.fullmatch(form, text)
    if not found:
        return [f"{text!r} has another form than messages of {code}"]
    if code not in NAMING or not any(found.groups()):
        return []
    # Of more than three names, the message names the first three, and points to them alone.
    names, pointed = re.findall("`([^`]*)`", " ".join(filter(None, found.groups()))), pointed_to(data, message)
    wrong = [] if sorted(names) == sorted(pointed) else [f"{text!r} does not name what it points to: {pointed}"]
    of_targets = facts_of_targets() if code in ("unknown-fact", "custom") else ()
    return wrong + [f"a known target has {name}" for name in names if as_line(name) in of_targets]
