"""What is wrong with a document of SARIF, by version 2.1.0 of the standard of OASIS.

The rules are of two kinds, and neither is made from the program:

- Rules on values, which are written here from the text of the standard: what a text, a URI, a region, a rule or a fix
  has to be.
- The members that each object may and must have, with the types of their values. They are those of the JSON schema that
  OASIS publishes. Debian's package golang-github-haya14busa-go-sarif-dev has them as types of Go, which a program wrote
  from that schema. Where the package is not installed, `why_no_types` says so, and these rules are not tried.

The environment variable SARIF_SCHEMA may name the published schema. A document is then also validated by it, with the
Python package jsonschema.
"""
import functools
import json
import os
import pathlib
import re

# The types of Go, each made from an object or an enumeration of the published schema.
GO = pathlib.Path("/usr/share/gocode/src/github.com/haya14busa/go-sarif/sarif/sarif.go")
TYPES = pathlib.Path(os.environ.get("SARIF_TYPES", GO))
PACKAGE = "golang-github-haya14busa-go-sarif-dev"

LEVELS = ("none", "note", "warning", "error")
COLUMNS = ("utf16CodeUnits", "unicodeCodePoints")

# A URI reference and an absolute URI, by the characters that RFC 3986 allows, and a version of Semantic Versioning 2.0.
URI_PART = r"(?:[A-Za-z0-9\-._~:/?@!$&'()*+,;=]|%[0-9A-Fa-f]{2})*"
URI = re.compile(rf"{URI_PART}(?:#{URI_PART})?")
ABSOLUTE = re.compile(rf"[A-Za-z][A-Za-z0-9+.-]*:{URI_PART}(?:#{URI_PART})?")
NUMBER, WORDS = r"(?:0|[1-9]\d*)", r"[0-9A-Za-z-]+(?:\.[0-9A-Za-z-]+)*"
SEMANTIC = re.compile(rf"{NUMBER}\.{NUMBER}\.{NUMBER}(?:-{WORDS})?(?:\+{WORDS})?")


# ---- the members of objects

@functools.cache
def types():
    """Returns the members of each object of the schema, by its name in Go: the type of each, and whether it must be
    there. Returns the values of each enumeration too. Both are empty where the types are not installed."""
    if not TYPES.exists():
        return {}, {}
    text = TYPES.read_text(encoding="utf-8")
    objects, values = {}, {}
    for name, body in re.findall(r"^type (\w+) struct \{\n(.*?)^\}", text, re.M | re.S):
        members = re.findall(r'^\t\w+ +(\S+) +`?json:"([^",]+)(,omitempty)?"', body, re.M)
        objects[name] = {word: (kind, not optional) for kind, word, optional in members}
    for name, word in re.findall(r'^\t\w+ (\w+) = "([^"]+)"', text, re.M):
        values.setdefault(name, set()).add(word)
    return objects, values


def why_no_types():
    """Returns why documents are not tried by the members of the published schema, or None."""
    if types()[0]:
        return None
    return f"{PACKAGE} is not installed: SARIF was not compared with the members of the published schema"


SCALARS = {"string": str, "int64": int, "bool": bool, "float64": (int, float)}


def misfits(value, kind, place):
    """What is wrong with a value by its type in Go: a line each."""
    objects, values = types()
    kind = kind.removeprefix("*")
    if kind.startswith("[]"):
        if not isinstance(value, list):
            return [f"{place} is no array"]
        return [it for at, one in enumerate(value) for it in misfits(one, kind[2:], f"{place}[{at}]")]
    if kind in values:
        return [] if value in values[kind] else [f"{place} is none of {sorted(values[kind])}"]
    if kind not in objects:
        known = SCALARS.get(kind)
        is_of_kind = known and isinstance(value, known) and (known is bool or not isinstance(value, bool))
        return [] if is_of_kind else [f"{place} is no {kind}"]
    if not isinstance(value, dict):
        return [f"{place} is no object"]
    members = objects[kind]
    wrong = [f"{place} has no {word}" for word, (_, needed) in members.items() if needed and word not in value]
    wrong += [f"{place} has a member {word}" for word in value if word not in members]
    return wrong + [it for word, one in value.items() if word in members
                    for it in misfits(one, members[word][0], f"{place}.{word}")]


# ---- rules on values

def of_uri(uri, place, form=URI):
    return [] if form.fullmatch(uri) else [f"{place} is no URI: {uri!r}"]


def of_message(message, place):
    """A message has a text. A brace is doubled in it, or part of a placeholder, which needs an argument."""
    text = message.get("text", "")
    wrong = [] if text else [f"{place} has no text"]
    left = re.sub(r"\{\{|\}\}", "", text)
    count = len(message.get("arguments", []))
    used = [int(number) for number in re.findall(r"\{(\d+)\}", left)]
    wrong += [f"{place} has no argument {number}" for number in used if number >= count]
    return wrong + [f"{place} has a single brace"] * bool(re.search(r"[{}]", re.sub(r"\{\d+\}", "", left)))


def of_region(region, place):
    """A region of lines and columns, which count from 1. The end column is that of the character after it."""
    line, column = region.get("startLine", 0), region.get("startColumn", 1)
    end, behind = region.get("endLine", line), region.get("endColumn", column)
    wrong = [f"{place} counts from less than 1"] * (min(line, column, end, behind) < 1)
    return wrong + [f"{place} ends before it begins"] * ((end, behind) < (line, column))


def of_location(location, place):
    physical = location["physicalLocation"]
    wrong = of_uri(physical["artifactLocation"]["uri"], f"{place}: the URI")
    return wrong + (of_region(physical["region"], f"{place}: the region") if "region" in physical else [])


def of_fix(fix, place):
    """A fix changes something, and no two of its replacements in a file overlap."""
    wrong = of_message(fix["description"], f"{place}: the description") if "description" in fix else []
    wrong += [] if fix["artifactChanges"] else [f"{place} changes nothing"]
    for change in fix["artifactChanges"]:
        wrong += of_uri(change["artifactLocation"]["uri"], f"{place}: the URI")
        wrong += [] if change["replacements"] else [f"{place} replaces nothing"]
        regions = [it["deletedRegion"] for it in change["replacements"]]
        wrong += [it for region in regions for it in of_region(region, f"{place}: a replacement")]
        spans = sorted((it["startLine"], it["startColumn"], it["endLine"], it["endColumn"]) for it in regions)
        wrong += [f"{place}: replacements overlap"] * any(one[2:] > other[:2] for one, other in zip(spans, spans[1:]))
    return wrong


def of_rule(rule, place):
    wrong = [] if rule.get("id") else [f"{place} has no id"]
    for word in ("shortDescription", "fullDescription", "help"):
        wrong += of_message(rule[word], f"{place}: {word}") if word in rule else []
    wrong += of_uri(rule["helpUri"], f"{place}: helpUri", ABSOLUTE) if "helpUri" in rule else []
    level = rule.get("defaultConfiguration", {}).get("level", "warning")
    return wrong + ([] if level in LEVELS else [f"{place} has the level {level}"])


def of_told(told, place):
    """A result or a notification."""
    wrong = of_message(told["message"], f"{place}: the message")
    wrong += [] if told.get("level", "warning") in LEVELS else [f"{place} has the level {told['level']}"]
    wrong += [it for one in told.get("locations", []) for it in of_location(one, f"{place}: a location")]
    return wrong + [it for one in told.get("fixes", []) for it in of_fix(one, f"{place}: a fix")]


def of_run(run):
    driver = run["tool"]["driver"]
    rules, ids = driver.get("rules", []), [it.get("id") for it in driver.get("rules", [])]
    wrong = [] if driver.get("name") else ["the tool has no name"]
    wrong += [f"{word} twice" for word in {it for it in ids if ids.count(it) > 1}]
    wrong += [it for at, rule in enumerate(rules) for it in of_rule(rule, f"rule {at}")]
    if not SEMANTIC.fullmatch(driver.get("semanticVersion", "0.0.0")):
        wrong.append(f"semanticVersion is {driver['semanticVersion']!r}")
    if run.get("columnKind", COLUMNS[0]) not in COLUMNS:
        wrong.append(f"columnKind is {run['columnKind']!r}")
    wrong += ["there are no results"] * ("results" not in run)
    for at, result in enumerate(run.get("results", [])):
        wrong += of_told(result, f"result {at}")
        wrong += [] if result.get("ruleId") in ids else [f"result {at} is of no rule"]
    for invocation in run.get("invocations", []):
        told = invocation.get("toolExecutionNotifications", [])
        wrong += [it for at, one in enumerate(told) for it in of_told(one, f"notification {at}")]
        is_failed = any(it.get("level", "warning") == "error" for it in told)
        wrong += ["a successful run has an error"] * (is_failed and invocation["executionSuccessful"])
    return wrong


def of_schema(log):
    """What is wrong by the published schema, if SARIF_SCHEMA names it."""
    path = os.environ.get("SARIF_SCHEMA")
    if not path:
        return []
    from jsonschema.validators import validator_for  # pylint: disable=import-outside-toplevel

    schema = json.loads(pathlib.Path(path).read_text(encoding="utf-8"))
    return [f"{it.json_path}: {it.message}" for it in validator_for(schema)(schema).iter_errors(log)]


def faults(text):
    """What is wrong with a document: a line each."""
    log = json.loads(text)
    wrong = misfits(log, "Sarif", "it") if types()[0] else []
    wrong += of_schema(log)
    if wrong:
        return wrong
    wrong = [] if log["version"] == "2.1.0" else [f"the version is {log['version']!r}"]
    wrong += of_uri(log["$schema"], "$schema", ABSOLUTE) if "$schema" in log else []
    wrong += ["it begins with a byte order mark"] * text.startswith("\ufeff")
    return wrong + [it for run in log["runs"] for it in of_run(run)]
