"""JSON Schemas of the lines that `manifest_check` prints, made from the Rattle types that derive `Serialize`.

A type that no other one holds is a line, or a document. Its schema stands in docs/json-schemas, under its name. The
comment of a type or of a field is its description. ``One of `a`, `b` and `c`.`` in the comment of a text, or ``Each is
one of ..`` in that of several, makes these words its only values.
"""
import functools
import json
import re

import sarif
from crates import ROOT
from sources import documented

FOLDER = ROOT / "docs" / "json-schemas"
DIALECT = "https://json-schema.org/draft/2020-12/schema"

ITEM = r"(?:pub )?(struct|enum) (\w+)(?:<[^>\n]*>)?(?: \{\n((?:[ \n][^\n]*\n?)*?)\}|\(([^\n]*)\);)\n"
MEMBER = r"(?:pub )?(?:(\w+)(?:\(([^\n]*)\))?|(\w+): ([^\n]*)),$"
WORDS = re.compile(r"\b[Oo]ne of ((?:`[^`]*`(?:, | and )?)+)\.")

TEXT = {"type": "string"}
PLAIN = {"str": TEXT, "String": TEXT, "usize": {"type": "integer", "minimum": 0}, "bool": {"type": "boolean"}}


def sources():
    """The types outside of tests that derive `Serialize`, by their names: the comment, attributes, kind, members and
    single type."""
    found = {}
    for file in sorted((ROOT / "crates").glob("*/src/**/*.rt")):
        if "test_by_hand" not in file.parts and "Serialize" in (text := file.read_text()):
            for told, attributes, (kind, name, members, only) in documented(text, ITEM):
                if re.search(r"derive\(.*\bSerialize\b", attributes):
                    assert name not in found, f"two types are named {name}"
                    found[name] = (told, attributes, kind, [*documented(members or "", MEMBER)], only)
    return found


def cased(name, attributes):
    """The name of a member or a variant, in the case of its type."""
    case = re.search(r'rename_all = "(\w+)"', attributes)
    if case and case[1] == "lowercase":
        return name.lower()
    if case and case[1] == "camelCase":
        head, *rest = name.split("_")
        return head + "".join(part.capitalize() for part in rest)
    assert not case, case
    return name


def with_null(schema):
    if "type" in schema and "enum" not in schema:
        return {**schema, "type": [schema["type"], "null"]}
    if "enum" in schema:
        return {"enum": [*schema["enum"], None]}
    return {"anyOf": [*schema.get("anyOf", [schema]), {"type": "null"}]}


def of_type(written, found):
    """The schema of a type as it is written."""
    name = re.sub(r"&('\w+ )?(mut )?", "", written).strip()
    if name in PLAIN:
        return PLAIN[name]
    if inside := re.fullmatch(r"Option<(.*)>", name):
        return with_null(of_type(inside[1], found))
    if inside := re.fullmatch(r"Vec<(.*)>|\[([^;]*)\]", name):
        return {"type": "array", "items": of_type(inside[1] or inside[2], found)}
    if inside := re.fullmatch(r"\[(.*); (\d+)\]", name):
        return several(of_type(inside[1], found), int(inside[2]))
    if (inside := re.fullmatch(r"\((\w+), (\w+)\)", name)) and inside[1] == inside[2]:
        return several(of_type(inside[1], found), 2)
    return of_item(re.sub(r"<.*>", "", name), found)


def several(schema, count):
    return {"type": "array", "items": schema, "minItems": count, "maxItems": count}


def told(schema, text):
    """The schema with what its comment says."""
    if words := WORDS.search(text):
        only = {"enum": re.findall(r"`([^`]*)`", words[1])}
        if schema == TEXT:
            schema = only
        elif schema == with_null(TEXT):
            schema = with_null(only)
        elif schema.get("items") == TEXT:
            schema = {**schema, "items": only}
        else:
            raise ValueError(f"no text: {text}")
    return {"description": text, **schema} | {"description": text} if text else schema


def of_item(name, found):
    """The schema of a type that derives `Serialize`."""
    text, attributes, kind, members, only = found[name]
    if only:
        return told(of_type(only, found), text)
    if kind == "enum" and "untagged" in attributes:
        return {"anyOf": [told(of_type(held, found), text) for text, _, (_, held, _, _) in members]}
    if kind == "enum":
        return {"enum": [cased(variant, attributes) for _, _, (variant, _, _, _) in members]}
    properties, required = {}, []
    for lines, options, (_, _, field, written) in members:
        if "flatten" in options:
            inner = of_type(written, found)
            properties.update(inner["properties"])
            required += inner["required"]
            continue
        renamed = re.search(r'rename = "(.*?)"', options)
        key = renamed[1] if renamed else cased(field, attributes)
        if "skip_serializing_if" in options:
            inside = re.fullmatch(r"Option<(.*)>", written)
            written = inside[1] if inside else written
        else:
            required.append(key)
        properties[key] = told(of_type(written, found), lines)
    return told({"type": "object", "properties": properties, "required": required, "additionalProperties": False}, text)


@functools.cache
def schemas():
    """The schema of each line, by the name of its type."""
    found = sources()
    written = {part or "" for it in found.values() for _, _, groups in it[3] for part in groups[1::2]}
    held = {name for part in written for name in re.findall(r"\w+", part)}
    return {name: {"$schema": DIALECT, "title": name, **of_item(name, found)} for name in found if name not in held}


def files():
    """The text of each file of docs/json-schemas, by its name."""
    return {f"{name}.json": json.dumps(schema, indent=2) + "\n" for name, schema in schemas().items()}


def stored():
    """The text of each file that stands there."""
    return {file.name: file.read_text(encoding="utf-8") for file in FOLDER.glob("*.json")}


# ---- what is printed

TYPES = {"string": str, "integer": int, "boolean": bool, "array": list, "object": dict, "null": type(None)}


def faults(schema, value, place="it"):
    """What is wrong with a value by a schema that this module makes: a line each."""
    if "anyOf" in schema:
        each = [faults(one, value, place) for one in schema["anyOf"]]
        return [] if [] in each else each[0]
    if "enum" in schema:
        return [] if value in schema["enum"] else [f"{place} is none of {schema['enum']}"]
    names = schema["type"] if isinstance(schema["type"], list) else [schema["type"]]
    if type(value) not in [TYPES[name] for name in names]:
        return [f"{place} is no {' and no '.join(names)}"]
    if isinstance(value, list):
        least, most = schema.get("minItems", 0), schema.get("maxItems", len(value))
        wrong = [] if least <= len(value) <= most else [f"{place} has {len(value)} items"]
        return wrong + [it for at, one in enumerate(value) for it in faults(schema["items"], one, f"{place}[{at}]")]
    if isinstance(value, dict):
        known = schema["properties"]
        wrong = [f"{place} has no {key}" for key in schema["required"] if key not in value]
        wrong += [f"{place}: the order of its members"] * (list(value) != [key for key in known if key in value])
        return wrong + [it for key in value for it in (
            faults(known[key], value[key], f"{place}.{key}") if key in known else [f"{place} has a member {key}"])]
    return [f"{place} is less than {schema['minimum']}"] if type(value) is int and value < schema["minimum"] else []


def names_of(words):
    """The types of the lines that a command prints, and none where it prints no JSON."""
    words = [part for word in words for part in (word.split("=", 1) if word[:2] == "--" else [word])]
    if words[:1] == ["lint"] and "sarif" in words:
        return ["SarifLog"]
    if words[:1] == ["lint"] and "--message-format" in words:
        return ["CompilerMessage"] if words[words.index("--message-format") + 1] == "json" else []
    if words[:1] == ["graph"] and "cyclonedx" in words:
        return ["Bom"]
    if "--json" not in words:
        return []
    if words[0] == "graph" and "--against" in words:
        return ["ChangeLine"]
    if words[0] == "graph" and {"--allow", "--allow-file", "--policy"} & {*words}:
        return ["LicenceLine"]
    shown = words[words.index("--show") + 1] if "--show" in words else "packages"
    lines = {"packages": "PackageLine", "edges": "EdgeLine", "targets": "ClassLine", "why": "PathLine",
             "features": "FeatureLine", "unified": "UnifiedLine"}
    return {
        "lint": ["DiagnosticLine"], "select": ["SelectedDependency", "SelectionError"], "compare": ["Comparison"],
        "targets": ["TargetNames"],
        "graph": ["PackageLine", "EdgeLine", "FeatureLine"] if shown == "all" else [lines.get(shown)]}[words[0]]


def misfits(words, output, most=20):
    """What is wrong with the first lines that a command printed, by the schemas of their types."""
    names = names_of(words)
    if not names or not output:
        return []
    is_sarif = names == ["SarifLog"]
    values = [output] if is_sarif else output.splitlines()[:most]
    wrong = [it for text in values for it in faults({"anyOf": [schemas()[name] for name in names]}, json.loads(text))]
    return wrong + (sarif.faults(output) if is_sarif else [])
