"""Conditions as trees: how they are read, what they print, and where they are true.

A tree is a fact or a truth as it prints, as `unix`, `r#all`, `k = "v"` or `true`, or a tuple: an operator, and the
trees inside. The reader goes by recursive descent, as crates/cargo_platform/GRAMMAR.md says. It runs no program.
"""
import re
import unicodedata

CALLED = {"(": "`(`", ")": "`)`", ",": "`,`", "=": "`=`", "string": "a string", "name": "an identifier"}
UNTERMINATED = "unterminated string in cfg"
TOKEN = re.compile(r'(?P<mark>[(),=])|"(?P<string>[^"]*)"|(?:(?P<raw>r#)|(?!r#))(?P<name>[A-Za-z_][A-Za-z0-9_]*)')


# A token is its kind, its value, where it begins, and where its own span or that of its error begins and ends. The
# value of an error is its message, and the character that is unexpected.
def token_at(text, at):
    while text.startswith(" ", at):
        at += 1
    if it := TOKEN.match(text, at):
        value = (bool(it["raw"]), it["name"]) if it["name"] else it["string"]
        return it["mark"] or ("name" if it["name"] else "string"), value, at, at, it.end()
    if at == len(text):
        return "end", None, at, at, at
    if text[at] == '"':
        return "fault", (UNTERMINATED, None), at, at, len(text)
    first = at + 2 if text.startswith("r#", at) else at
    if first == len(text):
        return "fault", ("expected identifier, but cfg expression ended", None), at, first, first
    expected = "expected parens, a comma, an identifier, or a string"
    message = f"unexpected character `{text[first]}` in cfg, {expected}"
    return "fault", (message, text[first]), at, first, first + 1


def cut(text):
    """Returns the tokens of a text, up to its end or its first error, which is the last token."""
    tokens = [token_at(text, 0)]
    while tokens[-1][0] not in ("end", "fault"):
        tokens.append(token_at(text, tokens[-1][4]))
    return tokens


class Refused(Exception):
    """An error: a message, and where its span begins and ends, in characters."""


class Reader:
    """Reads a tree from tokens."""

    def __init__(self, tokens):
        self.tokens, self.at = tokens, 0

    def next(self):
        return self.tokens[self.at][0]

    def want(self, kind, expected=None, at_end=None):
        found, value, _, start, end = self.tokens[self.at]
        if found == kind:
            self.at += 1
            return value
        expected = expected or CALLED[kind]
        if found == "fault":
            raise Refused(value[0], start, end)
        if found == "end":
            raise Refused(f"expected {at_end or expected}, but cfg expression ended", start, end)
        raise Refused(f"expected {expected}, found {CALLED[found]}", start, end)

    def fact_of(self, raw, name):
        word = f"r#{name}" if raw else name
        if self.next() != "=":
            return word
        self.at += 1
        return f'{word} = "{self.want("string")}"'

    def fact(self):
        return self.fact_of(*self.want("name", "identifier"))

    def expression(self):
        raw, name = self.want("name", "identifier", "start of a cfg expression")
        if raw or name not in ("all", "any", "not", "true", "false"):
            return self.fact_of(raw, name)
        if name in ("true", "false"):
            return name
        self.want("(")
        members = [self.expression()] if name == "not" else self.members()
        self.want(")")
        return (name, *members)

    def members(self):
        members = []
        while self.next() != ")":
            members.append(self.expression())
            if self.next() != ",":
                break
            self.at += 1
        return members


def inside_of_key(text):
    """Returns the expression of a key, or None for the name of a target."""
    return text[4:-1] if text.startswith("cfg(") and text.endswith(")") else None


def read(text, rule=Reader.expression, tokens=None):
    """Returns what the whole text is, or why it is rejected."""
    reader = Reader(tokens or cut(text))
    try:
        found = rule(reader)
    except Refused as refused:
        return refused
    kind, _, at, _, _ = reader.tokens[reader.at]
    if kind == "end":
        return found
    return Refused(f"unexpected content `{text[at:]}` found after cfg expression", at, len(text))


def read_target(text):
    """Returns why a text is rejected as the name of a target, or None."""
    # Of the characters in the texts none is alphabetic but no letter.
    is_allowed = lambda c: c in "_-." or unicodedata.category(c)[0] in "LN"
    bad = next((at for at, c in enumerate(text) if not is_allowed(c)), None)
    if bad is None:
        return None
    message, start, end = f"unexpected character {text[bad]} in target name", bad, bad + 1
    if "(" in text:
        message = "unexpected `(` character, cfg expressions must start with `cfg(`"
        start, end = (len(text), len(text)) if text.startswith("cfg(") else (start, end)
    return Refused(f"invalid target specifier: {message}", start, end)


def shown(tree):
    """Returns a tree as it prints."""
    return tree if isinstance(tree, str) else f"{tree[0]}({', '.join(map(shown, tree[1:]))})"


def truth(tree, true, false, of_fact, invert):
    """Returns the value of a tree in an algebra of sets: given those for `true` and `false`, the set of a fact, and the
    complement of a set."""
    if isinstance(tree, str):
        return true if tree == "true" else false if tree == "false" else of_fact(tree)
    parts = [truth(it, true, false, of_fact, invert) for it in tree[1:]]
    if tree[0] == "not":
        return invert(parts[0])
    found = true if tree[0] == "all" else false
    for it in parts:
        found = found & it if tree[0] == "all" else found | it
    return found


def as_line(fact):
    """Returns a fact of a tree as rustc prints it."""
    return fact.removeprefix("r#").replace(" = ", "=", 1)


def is_true(tree, lines):
    """Returns whether a tree is true by these lines of facts."""
    return truth(tree, True, False, lambda fact: as_line(fact) in lines, lambda it: not it)
