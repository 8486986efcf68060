"""Paths and keys with characters that workflow commands of GitHub, URIs and JSON escape."""
import json
import re
import urllib.parse

from asked import ask
from checks import check, json_lines, room_of

# By GitHub's toolkit (`command.ts`), a command has `%`, CR and LF in this form, and a property `:` and `,` too.
IN_COMMANDS = [("%0D", "\r"), ("%0A", "\n"), ("%25", "%")]
IN_PROPERTIES = [("%3A", ":"), ("%2C", ","), *IN_COMMANDS]

PATHS = ("a%0Ab.toml", "50%.toml", "a,b.toml", "c:d.toml", "%2C%25.toml", "é 😀.toml", "a~b_c-d+e&f#g?h[1].toml")
TEXTS = ("x", "%", "%25", "%0A%0D", "a:b,c", "\n\r\n%", "é😀𝄞", "\U0001f980 = 🦀", "\\\\")


def told_by(text, escapes):
    """Returns the text that a runner of GitHub reads. Each `%` begins one of the escapes, and nothing is left that one
    stands for."""
    known = "|".join(escape[1:] for escape, _ in escapes)
    if re.search(rf"%(?!{known})", text) or any(c in text for _, c in escapes if c != "%"):
        return None
    for escape, c in escapes:
        text = text.replace(escape, c)
    return text


def command_of(output):
    """Returns the file, the columns and the text of the workflow command that is the whole output."""
    place = r"::notice file=([^,]*),line=1,endLine=1,col=(\d+),endColumn=(\d+)"
    found = re.fullmatch(rf"{place},title=custom::(.*)\n", output)
    return (None,) * 4 if found is None else (told_by(found[1], IN_PROPERTIES), int(found[2]), int(found[3]),
                                              told_by(found[4], IN_COMMANDS))


def try_escapes():
    """Each path, and a value of a condition with each text. Columns count characters, also beyond 16 bits."""
    for path, text in [*((path, "x") for path in PATHS), *(("Cargo.toml", text) for text in TEXTS)]:
        name, key = f"{path!r} with {text!r}", f'cfg(left = "{text}")'
        line = f"[target.{json.dumps(key, ensure_ascii=False)}.dependencies]"
        columns, as_shown = (line.index("left") + 1, line.rindex(")") + 1), re.sub("[\r\n]", "\ufffd", key)
        with room_of({path: f"{line}\n".encode()}) as room:
            commands, log, objects = (ask(["lint", "-q", *words, path], cwd=room).output for words in (
                ("--message-format", "github"), ("--message-format", "sarif"), ("--json",)))
        file, first, last, body = command_of(commands)
        check(f"a command for {name}: its place", (file, first, last), (path, *columns))
        check(f"a command for {name}: its text", as_shown in (body or "").partition("\n")[0], True)
        result, = json.loads(log)["runs"][0]["results"]
        place, = (it["physicalLocation"] for it in result["locations"])
        check(f"SARIF for {name}: its file", place["artifactLocation"]["uri"], urllib.parse.quote(path))
        check(f"SARIF for {name}: its columns", (place["region"]["startColumn"], place["region"]["endColumn"]), columns)
        check(f"SARIF for {name}: its text", as_shown in result["message"]["text"], True)
        check(f"JSON for {name}", [(it["manifest"], it["key"], it["column"]) for it in json_lines(objects)],
              [(path, key, columns[0])])
