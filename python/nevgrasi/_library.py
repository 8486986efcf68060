"""Loads the shared library and makes its calls. The header `nevgrasi.h` says what each call does."""
from __future__ import annotations

import ctypes
import os
import pathlib
import typing

ABI = 2
DONE, REFUSED, NOT_UTF8, NOT_FLAT, NO_MEMORY, UNDECIDED, TOO_DEEP, UNKNOWN_TARGET = range(8)
TARGETS, WORDS = 320, 5

# How many bytes an answer may have before its call is made again with more room, if its size is not estimated.
_ROOM = 1 << 9


class Outcome(ctypes.Structure):
    """How a call ended, as the header's `nevgrasi_outcome`."""

    _fields_ = [
        ("code", ctypes.c_uint32), ("argument", ctypes.c_uint32), ("holds", ctypes.c_bool),
        ("is_named", ctypes.c_bool), ("needed", ctypes.c_size_t), ("start", ctypes.c_size_t), ("end", ctypes.c_size_t),
    ]  # fmt: skip


def load() -> ctypes.CDLL:
    """Returns the library beside this file, or the one that NEVGRASI_LIBRARY names.

    Raises `ImportError` if it has another interface than this file.
    """
    beside = pathlib.Path(__file__).with_name("libnevgrasi.so")
    library = ctypes.CDLL(os.environ.get("NEVGRASI_LIBRARY") or str(beside))
    found = library.nevgrasi_abi()
    if found != ABI:
        raise ImportError(f"{library._name} has the interface {found}, and this package is written for {ABI}")
    return library


LIBRARY = load()


def of_bytes(data: bytes) -> list[typing.Any]:
    """Returns the two arguments that bytes are: a pointer and a length."""
    return [data, ctypes.c_size_t(len(data))]


def wrong_type(what: str, wanted: str, given: object) -> TypeError:
    """Returns the error of an argument that has another type."""
    return TypeError(f"{what} has to be {wanted}, not {type(given).__name__}")


def of_text(text: str, what: str = "a text") -> list[typing.Any]:
    """Returns the two arguments that a text is. Raises `TypeError` if it is no `str`."""
    if not isinstance(text, str):
        raise wrong_type(what, "a str", text)
    return of_bytes(text.encode())


def call(name: str, *arguments: object, room: int = _ROOM) -> tuple[Outcome, bytes]:
    """Makes a call that writes into a buffer, again if the buffer was too short. Returns what it wrote.

    The first buffer has `room` bytes.
    """
    outcome = Outcome()
    while True:
        out = (ctypes.c_char * room)()
        getattr(LIBRARY, name)(*arguments, out, ctypes.c_size_t(room), ctypes.byref(outcome))
        if outcome.needed <= room:
            return outcome, bytes(memoryview(out)[: outcome.needed])
        room = outcome.needed
