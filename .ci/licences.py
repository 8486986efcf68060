"""A reader of SPDX licence expressions, by recursive descent, and which licences an entry of a list allows.

It follows the rules on the page of crates/spdx_expressions. `licence-reader` and `graphs` compare the library with it.
"""
import re

CALLED = {"(": "`(`", ")": "`)`", "/": "`/`", "AND": "`AND`", "OR": "`OR`", "WITH": "`WITH`", None: "the end"}
ID = re.compile(r"[A-Za-z0-9.-]+")
OWN = re.compile(r"LicenseRef-[A-Za-z0-9.-]+")
FOREIGN = re.compile(r"DocumentRef-[A-Za-z0-9.-]+:LicenseRef-[A-Za-z0-9.-]+")


class Fault(Exception):
    """An error of a text: its place, and a message."""


def is_identifier(word):
    return bool(ID.fullmatch(word)) and word not in ("AND", "OR", "WITH")


def is_licence(word):
    if OWN.fullmatch(word) or FOREIGN.fullmatch(word):
        return True
    name = word[:-1] if word.endswith("+") else word
    return is_identifier(name) and not name.startswith(("LicenseRef-", "DocumentRef-"))


class Reader:
    def __init__(self, text):
        self.tokens = [(it[0], it.start(), it.end()) for it in re.finditer(r"[()/]|[^ \t()/]+", text)]
        end = len(text.encode())
        place = lambda at: len(text[:at].encode())
        self.tokens = [(word, place(start), place(stop)) for word, start, stop in self.tokens] + [(None, end, end)]
        self.at = self.depth = 0
        self.printed = []

    def word(self):
        return self.tokens[self.at][0]

    def take(self, printed=None):
        self.printed.append(self.word() if printed is None else printed)
        self.at += 1

    def refuse(self, expected):
        word, start, stop = self.tokens[self.at]
        found = CALLED.get(word) or ("a licence" if is_licence(word) else "a word that names no licence")
        raise Fault(f"{start}..{stop}: expected {expected}, found {found}")

    def operand(self):
        word = self.word()
        if word == "(":
            self.take()
            self.depth += 1
            truth = self.either()
            if self.word() != ")":
                self.refuse("`AND`, `OR` or `)`")
            self.depth -= 1
            self.take()
            return truth
        if word is None or word in CALLED or not is_licence(word):
            self.refuse("a licence or `(`")
        self.take()
        exception = ""
        if self.word() == "WITH":
            self.take(" WITH ")
            exception = self.word()
            if exception is None or not is_identifier(exception):
                self.refuse("an exception")
            self.take()
        return lambda holds: holds(word, exception)

    def chain(self, part, words, printed, join):
        truths = [part()]
        while self.word() in words:
            self.take(printed)
            truths.append(part())
        return lambda holds: join(truth(holds) for truth in truths)

    def both(self):
        return self.chain(self.operand, ("AND",), " AND ", all)

    def either(self):
        return self.chain(self.both, ("OR", "/"), " OR ", any)

    def whole(self):
        """Returns the truth of the whole text, as a function of which licences hold."""
        truth = self.either()
        if self.word() is not None:
            self.refuse("`AND` or `OR`")
        return truth


def meant(word):
    """Returns the name of a licence without its version's mark, and whether later versions are offered."""
    name = word.lower()
    is_later = name.endswith(("+", "-or-later"))
    name = name.removesuffix("+")
    for suffix in ("-or-later", "-only"):
        if name.endswith(suffix):
            return name.removesuffix(suffix), is_later
    return name, is_later


def allows(entry, word, exception):
    """Returns whether an entry of a list, as `MIT` or `Apache-2.0 WITH LLVM-exception`, allows a licence."""
    listed, _, listed_exception = entry.partition(" WITH ")
    (own, own_later), (other, other_later) = meant(listed), meant(word)
    return own == other and (other_later or not own_later) and listed_exception.lower() == exception.lower()
