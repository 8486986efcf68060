"""What `lint` prints of files that cannot be read or used, in each output format.

A row of crates/manifest_check/failures.json has a `name`, the `files` of a folder, and what `lint` is asked there
(`ask`, by default `Cargo.toml`). It states the `path` at fault, the `message`, the place (`at`: the first byte and the
byte after the last one, then the line and column of both), the `line` of that place, and the `rows` that show it. With
a `help`, there is a text that replaces another one (`replaced`: the place, and the text). `unread` says that the file
is counted as one that could not be read, `manifests` and `keys` how many are checked all the same.
"""
import json

from asked import ask
from checks import check, json_lines, room_of
from hard_conditions import nested

FORMS = ("human", "short", "json", "github", "sarif")

# The characters of a long line that are shown, before and after the first one at fault.
BEFORE, AFTER = 40, 96


def deep_case(most):
    """Returns the row of a key that is nested one level too deep."""
    key = nested(most + 1)
    line, byte = f"[target.'{key}'.dependencies]", len("cfg(") + 4 * most + len("not(") - 1
    first = line.index("cfg(") + byte
    shown = f"...{line[first - BEFORE:first + AFTER]}..."
    return {
        "name": "a key that is nested too deep",
        "files": {"Cargo.toml": f"{line}\n"},
        "path": "Cargo.toml",
        "message": f"the key is nested too deep: more than {most} groups are open at byte {byte}",
        "subject": f"target.'{key[:100]}..': ",
        "key": key,
        "span": [byte, byte + 1],
        "at": [first, first + 1, 1, first + 1, 1, first + 2],
        "line": line[first - BEFORE:first + AFTER],
        "highlighted": BEFORE + 1,
        "rows": [f"1 | {shown}", f"  | {' ' * (BEFORE + 3)}^"],
        "unread": True,
    }


def human_of(case):
    """Returns what is printed of a row for people."""
    lines = [f"error: {case['message']}"]
    if "at" in case:
        lines += [" --> {}:{}:{}".format(case["path"], *case["at"][2:4]), "  |", *case["rows"]]
    elif case["path"] is not None:
        lines.append(f" --> {case['path']}")
    if "help" in case:
        lines += ["  |", f"  = help: {case['help']}"]
    return "\n".join([*lines, "", ""])


def short_of(case):
    place = [str(it) for it in (case["path"], *case.get("at", [])[2:4]) if it is not None]
    message = case["message"] + (f": help: {case['help']}" if "help" in case else "")
    return f"{':'.join(place)}: error: {message}\n" if place else f"error: {message}\n"


def texts_of(case, newline):
    """Returns the subject, the message and the help, with `newline` between lines."""
    help_text = f"{newline}help: {case['help']}" if "help" in case else ""
    return case.get("subject", "") + case["message"] + help_text


def line_of(case):
    """Returns the object of `--json`."""
    first, end, line, column = case.get("at", [None] * 6)[:4]
    return {"byte_end": end, "byte_start": first, "code": None, "column": column,
            "help": [case["help"]] if "help" in case else [], "key": case.get("key"), "level": "error", "line": line,
            "manifest": case["path"], "message": case["message"], "notes": [], "span": case.get("span"),
            "suggestion": case.get("suggestion")}


def span_of(case, at, replacement=None):
    """Returns a span in the form of rustc's. `at` is on the line of the row."""
    first, end, line, column, last_line, last_column = at
    highlighted = case.get("highlighted", column)
    text = {"text": case["line"], "highlight_start": highlighted, "highlight_end": highlighted + last_column - column}
    return {"file_name": case["path"], "byte_start": first, "byte_end": end, "line_start": line, "line_end": last_line,
            "column_start": column, "column_end": last_column, "is_primary": True, "text": [text], "label": None,
            "suggested_replacement": replacement, "expansion": None,
            "suggestion_applicability": None if replacement is None else "MaybeIncorrect"}


def message_of(case):
    """Returns the message in the form of Cargo's."""
    path, children = case["path"] or "", []
    if "help" in case:
        *at, text = case["replaced"]
        children.append({"message": case["help"], "code": None, "level": "help", "spans": [span_of(case, at, text)],
                         "children": [], "rendered": None})
    message = {"$message_type": "diagnostic", "message": case["message"], "code": None, "level": "error",
               "spans": [span_of(case, case["at"])] if "at" in case else [], "children": children,
               "rendered": human_of(case)}
    target = {"kind": ["manifest"], "crate_types": ["manifest"], "name": "manifest", "src_path": path}
    return {"reason": "compiler-message", "package_id": path, "manifest_path": path, "target": target,
            "message": message}


def command_of(case):
    """Returns the workflow command of GitHub."""
    if case["path"] is None:
        return f"::error::{case['message']}\n"
    path = case["path"].replace("%", "%25").replace(":", "%3A").replace(",", "%2C")
    place = ""
    if "at" in case:
        _, _, line, column, end_line, end_column = case["at"]
        place = f",line={line},endLine={end_line},col={column},endColumn={end_column}"
    return f"::error file={path}{place}::{texts_of(case, '%0A')}\n"


def notification_of(case):
    """Returns the notification of SARIF."""
    locations = []
    if case["path"] is not None:
        uri = case["path"].replace("%", "%25").replace(" ", "%20").replace(",", "%2C")
        place = {"artifactLocation": {"uri": uri}}
        if "at" in case:
            names = ("startLine", "startColumn", "endLine", "endColumn")
            place["region"] = dict(zip(names, case["at"][2:]))
        locations.append({"physicalLocation": place})
    return {"level": "error", "locations": locations, "message": {"text": texts_of(case, "\n")}}


def summary_of(case):
    """Returns the last line on standard error."""
    manifests, unread = case.get("manifests", int("keys" in case)), case.get("unread")
    last = f"{manifests} manifest{'s' * (manifests != 1)}, {case.get('keys', 0)} key{'s' * (case.get('keys', 0) != 1)}"
    last += " checked: 1 error, 0 warnings, 0 notes"
    if unread:
        last += f"; 1 {'manifest' if unread is True else unread} could not be read"
    return f"{last}\n"


def notifications(run):
    """Returns how a run of SARIF went: whether it was successful, and its notifications."""
    invocation, = run["invocations"]
    return invocation["executionSuccessful"], invocation["toolExecutionNotifications"]


def try_case(case):
    """Asks about a row in each format."""
    encoding = case.get("encoding", "utf-8")
    words, name = case.get("ask", ["Cargo.toml"]), case["name"]
    with room_of({path: text.encode(encoding) for path, text in case["files"].items()}) as room:
        def told(*options):
            found = ask(["lint", *options, *words], cwd=room)
            check(f"{name} {options}: status and errors", (found.status, found.errors),
                  (2, "" if "-q" in options else summary_of(case)))
            return found.output

        check(f"{name}: human", told("-q"), human_of(case))
        check(f"{name}: with the last line", told("--exit-zero", "--allow", "warnings"), human_of(case))
        colour = human_of(case).replace("error", "\x1b[31merror\x1b[0m", 1)
        check(f"{name}: in colour", told("-q", "--color", "always"), colour)
        check(f"{name}: short", told("-q", "--message-format", "short"), short_of(case))
        check(f"{name}: --json", json_lines(told("-q", "--json")), [line_of(case)])
        check(f"{name}: json", json_lines(told("-q", "--message-format", "json")), [message_of(case)])
        check(f"{name}: github", told("-q", "--message-format", "github"), command_of(case))
        run, = json.loads(told("-q", "--message-format", "sarif"))["runs"]
        check(f"{name}: sarif", (run["results"], *notifications(run)), ([], False, [notification_of(case)]))


def try_between(room, path):
    """Asks about a file that cannot be used, between two that can: in each format, these are answered as without it.
    Returns what is printed for people."""
    for form in FORMS:
        words = ["lint", "-q", "--message-format", form]
        lone = ask([*words, "macos.toml"], cwd=room).output
        more = ask([*words, "more.toml"], cwd=room).output
        found = ask([*words, "macos.toml", path, "more.toml"], cwd=room)
        name = f"{path!r} as {form}, between others"
        check(f"{name}: status and errors", (found.status, found.errors), (2, ""))
        if form == "sarif":
            first, second, run = (json.loads(it)["runs"][0] for it in (lone, more, found.output))
            check(f"{name}: results", run["results"], first["results"] + second["results"])
            check(f"{name}: it is told", (notifications(run)[0], len(notifications(run)[1])), (False, 1))
            check(f"{name}: none is told without it", notifications(first), (True, []))
            continue
        is_between = found.output.startswith(lone) and found.output.endswith(more)
        check(f"{name}: others are answered", is_between, True)
        between = found.output[len(lone) : len(found.output) - len(more)]
        check(f"{name}: it is told", "error" in between, True)
        if form == "human":
            human = between
    return human


def try_failures(cases, most):
    """Asks about each row."""
    for case in [*cases, deep_case(most)]:
        try_case(case)
