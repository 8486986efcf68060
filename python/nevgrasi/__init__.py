"""Reads, prints, matches and compares the target conditions of Cargo manifests, by proved code.

>>> Key('cfg( all(unix,not(target_os="macos"),) )').canonical
'cfg(all(unix, not(target_os = "macos")))'
>>> Key("cfg(unix)").implies('cfg(target_os = "linux")')
Answer(holds=False, example=Example(name=None, facts=('target_family = "unix"', 'unix')))
>>> Key("cfg(unix)").condition().matches(facts_of("x86_64-unknown-linux-gnu"))
True
>>> Key('cfg(all(unix windows))')
Traceback (most recent call last):
    ...
nevgrasi.Fault: failed to parse `all(unix windows)` as a cfg expression: expected `)`, found an identifier

A `Key`, a `Condition`, `Facts` and a `Fault` are values: they can be compared, sorted, hashed, copied and pickled, and
`repr` prints what creates them. An argument of another type raises `TypeError`.

The shared library is `libnevgrasi.so` beside this file, or the one that the environment variable NEVGRASI_LIBRARY
names. Calls make no system calls except for memory, and threads may make them at the same time.
"""
from __future__ import annotations

import collections.abc
import ctypes
import functools
import json
import re
import typing

from . import _library
from ._library import Outcome, call, of_bytes, of_text, wrong_type

__all__ = ["Answer", "Condition", "Example", "Facts", "Fault", "Key", "Package", "Run", "TooDeep", "Undecided",
           "UnknownTarget", "facts_of", "graph", "keys_at", "known_targets", "match_keys", "run",
           "version"]  # fmt: skip

# How many case splits a comparison may make before it is undecided.
BUDGET = 10_000


@functools.total_ordering
class _Value:
    """A value that equals and hashes by its parts, and sorts by its place. It is compared with its own type alone."""

    __slots__ = ()

    def _parts(self) -> tuple[typing.Any, ...]:
        """Returns what makes two values of this type equal."""
        raise NotImplementedError

    def _place(self) -> tuple[typing.Any, ...]:
        """Returns by what values of this type are sorted. Equal values have equal places, and others do not."""
        return self._parts()

    def __eq__(self, other: object) -> bool:
        if not isinstance(other, _Value) or type(other) is not type(self):
            return NotImplemented
        return self._parts() == other._parts()

    def __lt__(self, other: object) -> bool:
        if not isinstance(other, _Value) or type(other) is not type(self):
            return NotImplemented
        return self._place() < other._place()

    def __hash__(self) -> int:
        return hash(self._parts())


class Fault(_Value, ValueError):
    """An error of a text, with the bytes at which it is. Faults are sorted by these.

    >>> try:
    ...     Key("cfg(all(a b))")
    ... except Fault as fault:
    ...     print(fault.start, fault.end)
    ...     print(fault.snippet)
    10 11
    cfg(all(a b))
              ^ expected `)`, found an identifier
    """

    #: The message, without the place of the error.
    message: str
    #: The first byte of the error in the text, in UTF-8.
    start: int
    #: The byte after the error.
    end: int
    #: Two lines that show the key, and carets below the error. None if the text is not a key.
    snippet: str | None

    def __init__(self, message: str, start: int, end: int, snippet: str | None = None) -> None:
        super().__init__(message)
        self.message, self.start, self.end, self.snippet = message, start, end, snippet

    def _parts(self) -> tuple[int, int, str, bool, str]:
        return self.start, self.end, self.message, self.snippet is not None, self.snippet or ""

    def __repr__(self) -> str:
        shown = "" if self.snippet is None else f", {self.snippet!r}"
        return f"{type(self).__name__}({self.message!r}, {self.start}, {self.end}{shown})"

    def __reduce__(self) -> tuple[typing.Any, ...]:
        return type(self), (self.message, self.start, self.end, self.snippet)


class TooDeep(ValueError):
    """A text has more parentheses open at once than the library accepts."""


class Undecided(Exception):
    """A comparison took more case splits than its budget."""


class UnknownTarget(LookupError):
    """No known target has this name."""


class Example(typing.NamedTuple):
    """A possible target: its name, if the answer depends on it, and its facts, sorted.

    >>> Key('cfg(a = "two\\nlines")').can_hold().example.facts
    ('a = "two\\nlines"',)
    """

    name: str | None
    facts: tuple[str, ...]


class Answer(typing.NamedTuple):
    """A yes or a no, and an example that shows why, if there is one.

    >>> bool(Key("cfg(unix)").excludes("cfg(windows)"))
    False
    """

    holds: bool
    example: Example | None

    def __bool__(self) -> bool:
        return self.holds


class Package(typing.TypedDict):
    """A package of a graph, as `manifest_check graph --json` prints it."""

    #: The name and version.
    package: str
    id: str
    #: The expression of its licence.
    license: str | None
    #: On how many known targets it is in the build.
    targets: int
    #: Which known targets these are, or "all".
    at: str | list[str]
    #: The sides for which it is built: "target", "host", "both", or None if it is in no build.
    side: str | None
    #: The dependency kinds that reach it.
    kinds: list[str]
    #: Whether it is a procedural macro.
    proc_macro: bool


# What the codes stand for that are no answer, but for a text that is rejected.
_ERRORS: dict[int, tuple[type[Exception], str]] = {
    _library.NO_MEMORY: (MemoryError, "an allocation failed"),
    _library.UNDECIDED: (Undecided, "the budget is used up"),
    _library.TOO_DEEP: (TooDeep, "too many parentheses are open"),
    _library.NOT_FLAT: (ValueError, "no flat condition"),
    _library.NOT_UTF8: (ValueError, "no UTF-8"),
    _library.UNKNOWN_TARGET: (UnknownTarget, "no known target has the name"),
}


def _check(outcome: Outcome, written: bytes) -> bytes:
    """Returns what a call wrote. Raises what its code stands for if that is no answer."""
    if outcome.code == _library.DONE:
        return written
    if outcome.code == _library.REFUSED:
        raise Fault(written.decode(), outcome.start, outcome.end)
    error, message = _ERRORS[outcome.code]
    raise error(message)


def _answer(name: str, *arguments: object) -> bytes:
    """Makes a call and returns what it wrote. Raises if that is no answer."""
    return _check(*call(name, *arguments))


def _compared(name: str, has_example: bool, *arguments: object) -> Answer:
    """Makes a call that compares. If it answers `has_example`, it wrote an example."""
    outcome, written = call(name, *arguments)
    _check(outcome, written)
    if outcome.holds != has_example:
        return Answer(outcome.holds, None)
    texts = []
    while written:
        end = 8 + int.from_bytes(written[:8], "little")
        texts.append(written[8:end].decode())
        written = written[end:]
    name_of_target = texts.pop(0) if outcome.is_named else None
    return Answer(outcome.holds, Example(name_of_target, tuple(sorted(texts))))


def _budget(splits: int) -> ctypes.c_uint64:
    """Returns the argument for a budget."""
    if not isinstance(splits, int):
        raise wrong_type("a budget", "an int", splits)
    if not 0 <= splits < 1 << 64:
        raise ValueError("a budget has to be at least 0, and less than 2 ** 64")
    return ctypes.c_uint64(splits)


class Key(_Value):
    """The key of a table `[target.KEY.dependencies]`.

    Keys are equal if they have the same canonical form, and they are sorted by it. What they mean is compared by
    `equivalent`.

    >>> Key("cfg( unix )") == Key("cfg(unix)")
    True
    >>> sorted({Key("cfg(windows)"), Key("cfg(unix)"), Key("cfg( unix )")})
    [Key('cfg(unix)'), Key('cfg(windows)')]
    """

    __slots__ = ("_text", "_canonical")

    def __init__(self, text: str) -> None:
        """Reads a key. Raises `Fault` if the text is no key, and `TooDeep`."""
        outcome, written = call("nevgrasi_canonical", *of_text(text, "a key"))
        if outcome.code == _library.REFUSED:
            _, snippet = call("nevgrasi_fault", *of_text(text))
            raise Fault(written.decode(), outcome.start, outcome.end, snippet.decode())
        self._text, self._canonical = text, _check(outcome, written).decode()

    @property
    def text(self) -> str:
        """The text that was read."""
        return self._text

    @property
    def canonical(self) -> str:
        """The canonical form, which is a key for the same condition."""
        return self._canonical

    def _parts(self) -> tuple[str]:
        return (self._canonical,)

    def __str__(self) -> str:
        return self._canonical

    def __repr__(self) -> str:
        return f"{type(self).__name__}({self._text!r})"

    def __reduce__(self) -> tuple[typing.Any, ...]:
        return type(self), (self._text,)

    def matches(self, name: str, facts: typing.Iterable[str] | str) -> bool:
        """Returns whether the key applies to the target of this name with these facts.

        The facts are `Facts`, or one text of lines as `rustc --print cfg` prints them, or texts of one line each.
        Raises `Fault` if a line is not a fact, and `ValueError` if a text of one line has more. `Condition.matches` is
        faster if you ask for the same facts again.

        >>> Key("cfg(unix)").matches("x86_64-unknown-linux-gnu", ["unix", 'target_os="linux"'])
        True
        """
        lines = of_text(_lines(facts))
        outcome, written = call("nevgrasi_matches", *of_text(self._text), *of_text(name, "a name"), *lines)
        _check(outcome, written)
        return bool(outcome.holds)

    def targets(self) -> list[str]:
        """Returns the known targets, those of rustc 1.95.0, on which the key is true.

        >>> Key('cfg(all(target_os = "ios", target_env = "macabi"))').targets()
        ['aarch64-apple-ios-macabi', 'x86_64-apple-ios-macabi']
        """
        words = (ctypes.c_uint64 * _library.WORDS)()
        _answer("nevgrasi_targets", *of_text(self._text), words)
        return [name for place, name in enumerate(known_targets()) if words[place // 64] >> (place % 64) & 1]

    def _relates(self, call_name: str, other: Key | str, budget: int) -> Answer:
        texts = [*of_text(self._text), *of_text(_text_of(other))]
        return _compared(call_name, False, *texts, _budget(budget))

    def implies(self, other: Key | str, budget: int = BUDGET) -> Answer:
        """Returns whether the other key is true wherever this one is, for every set of facts that rustc's rules allow.

        Raises `Undecided` if that takes more than `budget` case splits.

        >>> Key('cfg(target_family = "unix")').implies("cfg(unix)")
        Answer(holds=True, example=None)
        """
        return self._relates("nevgrasi_implies", other, budget)

    def equivalent(self, other: Key | str, budget: int = BUDGET) -> Answer:
        """Returns whether both keys are true on the same targets. Raises as `implies` does.

        >>> Key("cfg(unix)").equivalent('cfg(target_family = "unix")').holds
        True
        """
        return self._relates("nevgrasi_equivalent", other, budget)

    def excludes(self, other: Key | str, budget: int = BUDGET) -> Answer:
        """Returns whether no target exists on which both keys are true. Raises as `implies` does.

        >>> Key('cfg(target_os = "linux")').excludes('cfg(target_os = "macos")').holds
        True
        """
        return self._relates("nevgrasi_excludes", other, budget)

    def can_hold(self, budget: int = BUDGET) -> Answer:
        """Returns whether the key is true for some set of facts that rustc's rules allow. Raises as `implies` does.

        >>> Key("cfg(all(unix, not(unix)))").can_hold()
        Answer(holds=False, example=None)
        """
        return _compared("nevgrasi_can_hold", True, *of_text(self._text), _budget(budget))

    def condition(self) -> Condition:
        """Returns the condition of the key, which can be matched often and has its parts.

        >>> Key("cfg(unix)").condition()
        Condition('cfg(unix)')
        """
        return Condition(self._text)


def _text_of(key: Key | str) -> str:
    """Returns the text of a key, which may be one already."""
    if not isinstance(key, (Key, str)):
        raise wrong_type("a key", "a Key or a str", key)
    return key.text if isinstance(key, Key) else key


class _Node(typing.NamedTuple):
    """What a condition is, and of what it consists."""

    kind: str
    name: str | None
    value: str | None
    is_raw: bool
    members: tuple[Condition, ...]


# What the tags of a flat condition mean, and how long a record is without its texts.
_KINDS = ("name", "name", "pair", "pair", "true", "false", "not", "all", "any", "target")
_RAW, _PAIRS, _TRUTHS, _GROUPS = (1, 3), (2, 3), (4, 5), (6, 7, 8)
_RECORD = 17


class Condition(_Value):
    """A parsed key. It is created from the text of a key, or from the bytes of a flat condition.

    `str` prints the canonical form. Conditions are equal if they consist of the same parts, and they are sorted by
    their canonical forms. Bytes that are no flat condition raise `ValueError`.

    >>> condition = Condition('cfg(all(unix, not(target_os="macos")))')
    >>> print(condition)
    cfg(all(unix, not(target_os = "macos")))
    >>> condition.kind, [it.kind for it in condition.members]
    ('all', ['name', 'not'])
    >>> fact = condition.members[1].members[0]
    >>> fact, fact.kind, fact.name, fact.value
    (Condition('cfg(target_os = "macos")'), 'pair', 'target_os', 'macos')
    >>> Condition(condition.flat) == condition
    True
    """

    # The bytes from `_start` to `_end` of `_whole` are the flat condition. A member's are those of the whole condition.
    __slots__ = ("_whole", "_start", "_end", "_canonical", "_node")
    _canonical: str | None
    _node: _Node | None

    def __init__(self, given: str | bytes) -> None:
        """Reads a key or a flat condition. Raises `Fault` if the text is no key, and `TooDeep`."""
        if isinstance(given, bytes):
            flat, self._canonical = given, _answer("nevgrasi_flat_print", *of_bytes(given)).decode()
        else:
            flat, self._canonical = Condition._flat_of(given), None
        self._whole, self._start, self._end, self._node = flat, 0, len(flat), None

    @staticmethod
    def _flat_of(key: str) -> bytes:
        """Returns the flat condition of a key."""
        if not isinstance(key, str):
            raise wrong_type("a condition", "a str or bytes", key)
        outcome, written = call("nevgrasi_read_key", *of_text(key))
        if outcome.code == _library.REFUSED:
            Key(key)  # which raises the same fault, with its snippet
        return _check(outcome, written)

    @property
    def flat(self) -> bytes:
        """The flat condition: bytes that you can copy, send and store.

        >>> Condition("cfg(unix)").flat == b"unix" + (4).to_bytes(8, "little") + bytes(8) + bytes(1)
        True
        """
        return self._whole[self._start : self._end]

    @property
    def canonical(self) -> str:
        """The canonical form, which is a key for this condition."""
        if self._canonical is None:
            self._canonical = _answer("nevgrasi_flat_print", *of_bytes(self.flat)).decode()
        return self._canonical

    @property
    def kind(self) -> str:
        """What it is: "name", "pair", "true", "false", "not", "all", "any", or, for the name of a target, "target"."""
        return self._read().kind

    @property
    def name(self) -> str | None:
        """The name of a fact without `r#`, the name of a pair, or the name of a target."""
        return self._read().name

    @property
    def value(self) -> str | None:
        """The value of a pair."""
        return self._read().value

    @property
    def is_raw(self) -> bool:
        """Whether the name of a fact is written with `r#`, which no match depends on."""
        return self._read().is_raw

    @property
    def members(self) -> tuple[Condition, ...]:
        """The conditions in `not(..)`, `all(..)` or `any(..)`, in their order."""
        return self._read().members

    def matches(self, facts: typing.Iterable[str] | str) -> bool:
        """Returns whether the condition is true for these facts. The name of a target is compared with `Facts.name`.

        `Facts` are parsed once. Other facts are parsed in each call: one text of lines, or texts of one line each.

        >>> linux = facts_of("x86_64-unknown-linux-gnu")
        >>> Condition('cfg(target_os = "linux")').matches(linux), Condition("x86_64-unknown-linux-gnu").matches(linux)
        (True, True)
        >>> Condition("cfg(windows)").matches(["unix"])
        False
        """
        found = facts if isinstance(facts, Facts) else Facts(facts)
        outcome = Outcome()
        arguments = [*of_bytes(self.flat), *of_text(found.name), *of_bytes(found.prepared)]
        _library.LIBRARY.nevgrasi_prepared_matches(*arguments, ctypes.byref(outcome))
        _check(outcome, b"")
        return bool(outcome.holds)

    def _read(self) -> _Node:
        """Returns the parts. Records are read from the last to the first, since the tag of each is at its end."""
        if self._node is not None:
            return self._node
        flat, end = self.flat, self._end - self._start
        read: list[Condition] = []
        while end:
            tag, texts = flat[end - 1], end - _RECORD
            first, second = (int.from_bytes(flat[at : at + 8], "little") for at in (texts, texts + 8))
            if tag in _GROUPS:
                start, name, value = texts, None, None
                members = tuple(read.pop() for _ in range(first))
            else:
                start, members = texts - first - second, ()
                name = None if tag in _TRUTHS else flat[start : start + first].decode()
                value = flat[start + first : texts].decode() if tag in _PAIRS else None
            node = _Node(_KINDS[tag], name, value, tag in _RAW, members)
            read.append(Condition._of(flat, start, members[-1]._end if members else end, node))
            end = start
        self._node = read[0]._node
        assert self._node is not None
        return self._node

    @classmethod
    def _of(cls, whole: bytes, start: int, end: int, node: _Node) -> Condition:
        """Returns the condition of these parts, which was read already."""
        made = cls.__new__(cls)
        made._whole, made._start, made._end, made._canonical, made._node = whole, start, end, None, node
        return made

    def _parts(self) -> tuple[bytes]:
        return (self.flat,)

    def _place(self) -> tuple[str, bytes]:
        return self.canonical, self.flat

    def __str__(self) -> str:
        return self.canonical

    def __repr__(self) -> str:
        try:
            is_so = Condition(self.canonical) == self
        except ValueError:
            is_so = False
        return f"{type(self).__name__}({self.canonical if is_so else self.flat!r})"

    def __reduce__(self) -> tuple[typing.Any, ...]:
        return type(self), (self.flat,)


# A fact as the library reads it: its name without `r#`, and its value.
_FACT = re.compile(r' *(?:r#)?([A-Za-z_][A-Za-z0-9_]*) *(?:= *"([^"]*)" *)?')


def _line(fact: re.Match[str]) -> str:
    """Returns a fact as rustc prints it."""
    return fact[1] if fact[2] is None else f'{fact[1]}="{fact[2]}"'


def _record(fact: re.Match[str]) -> bytes:
    """Returns a fact as a record of flat facts."""
    texts = [(text or "").encode() for text in fact.groups()]
    tag = 0 if fact[2] is None else 2
    return b"".join([*texts, *(len(it).to_bytes(8, "little") for it in texts), bytes([tag])])


def _lines(facts: typing.Iterable[str] | str) -> str:
    """Returns the text of the lines of facts."""
    if isinstance(facts, Facts):
        facts = facts.lines
    if isinstance(facts, str):
        return facts
    lines = list(facts)
    for fact in lines:
        if not isinstance(fact, str):
            raise wrong_type("a fact", "a str", fact)
        if "\n" in fact:
            raise ValueError("a fact has more than one line")
    return "".join(f"{fact}\n" for fact in lines)


class Facts(_Value):
    """The `cfg` facts of a target, and its name. They are parsed once, to match many conditions.

    They are created from one text of lines, as `rustc --print cfg` prints them, or from texts of one line each. To
    iterate over them gives their lines as rustc prints them: sorted, and without spaces. Facts are equal if these lines
    are, and the names of their targets. They are sorted by their names, and then by their lines.

    >>> facts = Facts(["unix", 'target_os = "linux"', 'target_os="linux"'])
    >>> list(facts)
    ['target_os="linux"', 'unix']
    >>> facts == Facts('target_os="linux"\\nunix\\n')
    True
    >>> 'target_os = "linux"' in facts, "windows" in facts
    (True, False)
    >>> Facts(["unix", "a ="])
    Traceback (most recent call last):
        ...
    nevgrasi.Fault: line 2: failed to parse `a =` as a cfg expression: expected a string, but cfg expression ended
    """

    __slots__ = ("_name", "_lines", "_flat", "_prepared")
    _prepared: bytes | None

    def __init__(self, facts: typing.Iterable[str] | str, name: str = "") -> None:
        """Parses facts. Raises `Fault` if a line is not a fact, and `ValueError` if a text of one line has more."""
        text = _lines(facts)
        _answer("nevgrasi_matches", *of_text("cfg(all())"), *of_text(name, "a name"), *of_text(text))
        read = (_FACT.fullmatch(line) for line in text.split("\n") if line)
        found = {_line(it): _record(it) for it in read if it}
        self._name, self._lines, self._prepared = name, tuple(sorted(found)), None
        self._flat = b"".join(found[line] for line in self._lines)

    @property
    def name(self) -> str:
        """The name of the target, which is empty if none was given."""
        return self._name

    @property
    def lines(self) -> tuple[str, ...]:
        """The lines as rustc prints them."""
        return self._lines

    @property
    def flat(self) -> bytes:
        """The flat facts, as the call `nevgrasi_flat_matches` takes them."""
        return self._flat

    @property
    def prepared(self) -> bytes:
        """The prepared facts, as the call `nevgrasi_prepared_matches` takes them. They are made when first needed."""
        if self._prepared is None:
            self._prepared = _answer("nevgrasi_prepare_facts", *of_text(str(self)))
        return self._prepared

    def _parts(self) -> tuple[str, tuple[str, ...]]:
        return self._name, self._lines

    def __iter__(self) -> typing.Iterator[str]:
        return iter(self._lines)

    def __len__(self) -> int:
        return len(self._lines)

    def __contains__(self, fact: object) -> bool:
        found = _FACT.fullmatch(fact) if isinstance(fact, str) else None
        return found is not None and _line(found) in self._lines

    def __str__(self) -> str:
        return "\n".join(self._lines)

    def __repr__(self) -> str:
        named = f", {self._name!r}" if self._name else ""
        return f"{type(self).__name__}({[*self._lines]!r}{named})"

    def __reduce__(self) -> tuple[typing.Any, ...]:
        return type(self), (self._lines, self._name)


# How many bytes the output of a command is expected to have, at least, and times the bytes of its files.
_LEAST_OUTPUT = 1 << 16
_OUTPUT_OF_FILES = 4


class Run(typing.NamedTuple):
    """How a command ended, and what it printed."""

    #: The exit status: 0, 1 or 2.
    status: int
    #: What the program prints on standard output.
    output: str
    #: What the program prints on standard error.
    errors: str


def _of_file(name: str, data: str | bytes) -> bytes:
    """Returns a file as the library takes it: its name, a NUL, its length, a NUL, and its bytes."""
    if not isinstance(name, str):
        raise wrong_type("a name of a file", "a str", name)
    if not isinstance(data, (str, bytes)):
        raise wrong_type("a file", "a str or bytes", data)
    given = data if isinstance(data, bytes) else data.encode()
    return b"%b\0%d\0%b" % (_of_word(name), len(given), given)


def _of_word(word: str) -> bytes:
    """Returns an argument or a name of a file as bytes. Raises `ValueError` if it has a NUL."""
    if not isinstance(word, str):
        raise wrong_type("an argument", "a str", word)
    if "\0" in word:
        raise ValueError("a NUL in an argument or in the name of a file")
    return word.encode()


def run(
    arguments: typing.Iterable[str], files: collections.abc.Mapping[str, str | bytes] | None = None
) -> Run:
    """Runs a command of the program `manifest_check` on these files, by their names, and returns what it prints.

    The arguments are those of the program, without its name: `lint`, `select`, `graph` and every other command, with
    their options. The file `-` is standard input. The current folder is the root, to which a relative name leads. No
    file of the machine is read, no file is written, and there are no environment variables. What is invalid is in
    `errors`, with status 2. Raises `MemoryError` alone, and `ValueError` for a NUL in a name.

    >>> manifest = '[package]\\nname = "a"\\n[target."cfg(windos)".dependencies]\\n'
    >>> print(run(["lint", "-q", "--message-format", "short", "Cargo.toml"], {"Cargo.toml": manifest}).output, end="")
    Cargo.toml:3:14: warning: no target that rustc 1.95.0 knows has `windos`: help: did you mean `cfg(windows)`? [unknown-fact]
    >>> run(["match", "--target", "x86_64-pc-windows-msvc", "cfg(unix)"])
    Run(status=1, output='no\\n', errors='')
    """
    if isinstance(arguments, (str, bytes)):
        raise wrong_type("the arguments", "a list of str", arguments)
    words = b"".join(_of_word(word) + b"\0" for word in arguments)
    given = b"".join(_of_file(name, data) for name, data in (files or {}).items())
    room = _LEAST_OUTPUT + _OUTPUT_OF_FILES * len(given)
    outcome, written = call("nevgrasi_run", *of_bytes(words), *of_bytes(given), room=room)
    _check(outcome, written)
    return Run(outcome.argument, written[: outcome.start].decode(), written[outcome.start : outcome.end].decode())


# How long the lines of a graph are expected to be, times the length of its document. Known documents need less.
_LINES_OF_DOCUMENT = 4


def graph(
    document: str | bytes | collections.abc.Mapping[str, object],
    host: str | None = None,
    *,
    targets: typing.Iterable[str] = (),
    edges: typing.Iterable[str] = (),
    side: str | None = None,
    packages: typing.Iterable[str] = (),
    resolver: str | None = None,
    features: typing.Iterable[str] = (),
    default_features: bool = True,
    all_features: bool = False,
) -> list[Package]:
    """Returns on which known targets each package is in the build.

    The document is what `cargo metadata --format-version 1` printed, as a text or as the object of its JSON. The
    packages are those that `manifest_check graph --json` prints with these options. Builds run on the host, which is a
    known target, or on the target itself. Raises `Fault`, which has no place, if the document or an option can't be
    used, `UnknownTarget` for the host, and `TooDeep`. With an option other than the host, these two are a `Fault` too.

    - `targets`: select only these targets; "all" then stands for all of them
    - `edges`: follow only these dependency kinds: "normal", "build", "dev"
    - `side`: select only what is built for the "target" or the "host"
    - `packages`: start from the members of these names
    - `resolver`: resolve features as this resolver of Cargo does: "1", "2", "3", or "edition"
    - `features`, `default_features`, `all_features`: the features of the roots that are on

    >>> nodes = [{"id": "a", "deps": []}]
    >>> members = [{"id": "a", "name": "a", "version": "1.0.0", "targets": []}]
    >>> document = {"version": 1, "packages": members, "workspace_members": ["a"], "resolve": {"nodes": nodes}}
    >>> graph(document) == [
    ...     {"package": "a 1.0.0", "id": "a", "license": None, "targets": 320, "at": "all", "side": "target",
    ...      "kinds": [], "proc_macro": False}]
    True
    >>> graph(document, targets=["avr-none"])[0]["targets"]
    1
    >>> graph(document, side="both")
    Traceback (most recent call last):
        ...
    nevgrasi.Fault: invalid value 'both' for '--side <SIDE>'
    """
    if isinstance(document, collections.abc.Mapping):
        document = json.dumps(dict(document))
    if not isinstance(document, (str, bytes)):
        raise wrong_type("a document", "a str, bytes or a mapping", document)
    given = document if isinstance(document, bytes) else document.encode()
    options = [
        *_option("target", targets), *_option("edges", _joined(edges)), *_option("side", side),
        *_option("package", packages), *_option("resolver", resolver), *_option("features", _joined(features)),
        *(["--no-default-features"] if not default_features else []), *(["--all-features"] if all_features else []),
    ]  # fmt: skip
    if options:
        return _graph_by(given, [*options, *_option("host", host)])
    on = of_text("" if host is None else host, "a host")
    outcome, written = call("nevgrasi_graph", *of_bytes(given), *on, room=_LINES_OF_DOCUMENT * len(given))
    return [json.loads(line) for line in _check(outcome, written).split(b"\n")[:-1]]


def _joined(words: typing.Iterable[str]) -> str | None:
    """Returns the words with commas between them, or None if there are none."""
    return ",".join(words) or None


def _option(name: str, values: typing.Iterable[str] | str | None) -> list[str]:
    """Returns an option of the program with each of its values."""
    if values is None:
        return []
    return [f"--{name}={value}" for value in ([values] if isinstance(values, str) else values)]


def _graph_by(document: bytes, options: list[str]) -> list[Package]:
    """Returns the packages of a document by these options."""
    status, output, errors = run(["graph", "--json", *options], {"-": document})
    if status == 2:
        lines = errors.splitlines()
        raise Fault(re.sub(r"^(standard input: |-: )?error: ", "", lines[0] if lines else output), 0, 0)
    return [json.loads(line) for line in output.splitlines()]


def version() -> str:
    """Returns the version of the library.

    >>> len(version().split("."))
    3
    """
    return _answer("nevgrasi_version").decode()


_NAMES: list[str] = []


def known_targets() -> list[str]:
    """Returns the names of the targets that rustc 1.95.0 knows, sorted.

    >>> len(known_targets())
    320
    """
    if not _NAMES:
        places = range(_library.TARGETS)
        _NAMES[:] = [_answer("nevgrasi_target_name", ctypes.c_size_t(place)).decode() for place in places]
    return list(_NAMES)


def facts_of(name: str) -> Facts:
    """Returns the facts of the known target of this name: those that `rustc --print cfg --target NAME` prints.

    Raises `UnknownTarget`.

    >>> print(facts_of("avr-none"))
    debug_assertions
    panic="unwind"
    target_abi=""
    target_arch="avr"
    target_endian="little"
    target_env=""
    target_os="none"
    target_pointer_width="16"
    target_vendor="unknown"
    """
    return Facts(_answer("nevgrasi_facts", *of_text(name, "a name")).decode(), name)


_KeyOrText = typing.TypeVar("_KeyOrText", bound=typing.Union[Key, str])

# The byte of a key for which an allocation failed: twice the code of its call.
_NO_MEMORY = 2 * _library.NO_MEMORY


def match_keys(keys: typing.Iterable[Key | str], target: Facts | str) -> list[bool | None]:
    """Returns for each of these keys whether it is true on a target, or None if it is rejected. This is one call.

    The target is a known target, by its name, or one with these facts. A text is rejected if it is no key, or has more
    parentheses open at once than the library accepts. `Key` raises the error of such a text. Raises `UnknownTarget`.

    >>> match_keys(["cfg(unix)", "cfg(windows)", "cfg(unix"], "x86_64-unknown-linux-gnu")
    [True, False, None]
    """
    return _match_texts([_text_of(key) for key in _listed(keys)], target)


def keys_at(keys: typing.Iterable[_KeyOrText], target: Facts | str) -> list[_KeyOrText]:
    """Returns those of these keys that are true on a target: a known target, by its name, or one with these facts.

    This is one call, as in `match_keys`. Raises `Fault` if a text is no key, `UnknownTarget`, and `TooDeep`.

    >>> keys_at(["cfg(unix)", "cfg(windows)", "x86_64-unknown-linux-gnu"], "x86_64-unknown-linux-gnu")
    ['cfg(unix)', 'x86_64-unknown-linux-gnu']
    """
    given = _listed(keys)
    texts = [_text_of(key) for key in given]
    answers = _match_texts(texts, target)
    if None in answers:
        Key(texts[answers.index(None)])  # which raises what is wrong
    return [key for key, is_true in zip(given, answers) if is_true]


def _listed(keys: typing.Iterable[_KeyOrText]) -> list[_KeyOrText]:
    """Returns the keys as a list. Raises `TypeError` if they are one text."""
    if isinstance(keys, (str, bytes)):
        raise wrong_type("the keys", "a list of keys", keys)
    return list(keys)


def _match_texts(texts: list[str], target: Facts | str) -> list[bool | None]:
    """Returns for each text whether it is true on a target, or None if it is rejected."""
    facts = target if isinstance(target, Facts) else facts_of(target)
    given = b"".join(len(text).to_bytes(8, "little") + text for text in map(str.encode, texts))
    of_target = [*of_text(facts.name), *of_text(str(facts))]
    answers = _check(*call("nevgrasi_match_keys", *of_bytes(given), *of_target, room=len(texts)))
    if _NO_MEMORY in answers:
        raise MemoryError("an allocation failed")
    return [bool(byte) if byte < 2 else None for byte in answers]
