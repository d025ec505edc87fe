"""The library ``libtxnobj.so``, as C has it (``txnobj.h``)."""

from __future__ import annotations

import ctypes
import os
from ctypes import POINTER, Structure, byref, c_bool, c_char_p, c_size_t, c_uint8, c_uint64, c_void_p
from pathlib import Path

# The codes of calls.
OK, UNKNOWN, NOT_ASKED, UNKNOWN_BASE, BOUNDARY_TOO_HIGH, EPOCH_LOWERED, VIEW_BUSY, NO_MEMORY = range(8)
# What an operation asks for.
ASKS_NOTHING, ASKS_LOOK, ASKS_PUT, ASKS_GET, ASKS_LIST, ASKS_DELETE = range(6)
# The modes of a put.
CREATE, UPDATE, OVERWRITE = range(3)
# Why a store call did not do what it was asked.
NOT_FOUND, ALREADY_EXISTS, PRECONDITION, NOT_MODIFIED, FAILED = range(1, 6)
# How an operation ended.
RUNS, WROTE, READ, READ_NONE, VALUE, VALUE_NONE, IDS, DONE, REFUSED, VIEW, HELD = range(11)
# The bounds of a list.
UNBOUNDED, INCLUDED, EXCLUDED = range(3)


class Handle(Structure):
    _fields_ = [("at", c_void_p), ("made", c_bool)]


class Asked(Structure):
    _fields_ = [
        ("kind", c_uint8),
        ("mode", c_uint8),
        ("version", c_uint64),
        ("token", c_uint64),
        ("limit", c_uint64),
        ("len", c_size_t),
    ]


class Listed(Structure):
    _fields_ = [("version", c_uint64), ("token", c_uint64), ("size", c_uint64)]


class Answered(Structure):
    _fields_ = [
        ("kind", c_uint8),
        ("refusal", c_uint8),
        ("view", c_uint64),
        ("id", c_uint64),
        ("epoch", c_uint64),
        ("holder", c_uint64),
        ("len", c_size_t),
    ]


class Viewed(Structure):
    _fields_ = [
        ("id", c_uint64),
        ("epoch", c_uint64),
        ("holder", c_uint64),
        ("is_holder", c_bool),
        ("len", c_size_t),
    ]


_CLIENT, _OP = POINTER(Handle), POINTER(c_uint64)
_BYTES = [c_char_p, c_size_t]
#: Each function: what it answers, and what it takes.
SIGNATURES: dict[str, tuple[object, list[object]]] = {
    "open": (c_uint8, [_CLIENT, c_uint64, c_uint64]),
    "open_recorded": (c_uint8, [_CLIENT, c_uint64, c_uint64]),
    "close": (None, [_CLIENT]),
    "read": (c_uint8, [_CLIENT, _OP]),
    "read_version": (c_uint8, [_CLIENT, c_uint64, _OP]),
    "read_seen": (c_uint8, [_CLIENT, c_uint64, _OP]),
    "list": (c_uint8, [_CLIENT, c_uint8, c_uint64, c_uint8, c_uint64, _OP]),
    "delete": (c_uint8, [_CLIENT, c_uint64, _OP]),
    "check": (c_uint8, [_CLIENT, c_uint64, _OP]),
    "advance": (c_uint8, [_CLIENT, c_uint64, _OP]),
    "write": (c_uint8, [_CLIENT, c_uint64, c_uint64, *_BYTES, _OP]),
    "write_unchecked": (c_uint8, [_CLIENT, c_uint64, c_uint64, *_BYTES, _OP]),
    "read_latest_unchecked": (c_uint8, [_CLIENT, _OP]),
    "delete_unchecked": (c_uint8, [_CLIENT, c_uint64, _OP]),
    "init": (c_uint8, [_CLIENT, c_uint64, *_BYTES, _OP]),
    "load": (c_uint8, [_CLIENT, _OP]),
    "refresh": (c_uint8, [_CLIENT, c_uint64, _OP]),
    "update": (c_uint8, [_CLIENT, c_uint64, c_uint64, *_BYTES, _OP]),
    "claim": (c_uint8, [_CLIENT, c_uint64, _OP]),
    "claim_at": (c_uint8, [_CLIENT, c_uint64, c_uint64, _OP]),
    "holder_refresh": (c_uint8, [_CLIENT, c_uint64, _OP]),
    "holder_update": (c_uint8, [_CLIENT, c_uint64, c_uint64, *_BYTES, _OP]),
    "asked": (c_uint8, [_CLIENT, c_uint64, POINTER(Asked)]),
    "asked_bytes": (c_bool, [_CLIENT, c_uint64, c_char_p, c_size_t]),
    "look": (c_uint8, [_CLIENT, c_uint64]),
    "put": (c_uint8, [_CLIENT, c_uint64, c_uint8, c_uint64]),
    "got": (c_uint8, [_CLIENT, c_uint64, c_uint8, c_uint64, *_BYTES]),
    "listed": (c_uint8, [_CLIENT, c_uint64, c_uint8, POINTER(c_uint64), c_size_t, c_bool]),
    "listed_files": (c_uint8, [_CLIENT, c_uint64, c_uint8, POINTER(Listed), c_size_t, c_bool]),
    "deleted": (c_uint8, [_CLIENT, c_uint64, c_uint8]),
    "give_up": (c_uint8, [_CLIENT, c_uint64]),
    "answered": (c_uint8, [_CLIENT, c_uint64, POINTER(Answered)]),
    "answered_bytes": (c_bool, [_CLIENT, c_uint64, c_char_p, c_size_t]),
    "answered_ids": (c_bool, [_CLIENT, c_uint64, POINTER(c_uint64), c_size_t]),
    "end": (c_uint8, [_CLIENT, c_uint64]),
    "view": (c_uint8, [_CLIENT, c_uint64, POINTER(Viewed)]),
    "view_bytes": (c_bool, [_CLIENT, c_uint64, c_char_p, c_size_t]),
    "end_view": (c_uint8, [_CLIENT, c_uint64]),
    "forget": (c_uint8, [_CLIENT, c_size_t]),
    "at": (c_uint8, [_CLIENT, c_uint64]),
    "asking": (c_uint8, [_CLIENT, c_uint64]),
    "rows_len": (c_uint8, [_CLIENT, POINTER(c_size_t)]),
    "rows_take": (c_uint8, [_CLIENT, c_char_p, c_size_t]),
}


def _path() -> str:
    """Where the library is: as ``TXNOBJ_LIBRARY`` says, beside this file, where the repository builds it, or where the system
    finds it.
    """
    named = os.environ.get("TXNOBJ_LIBRARY")
    if named:
        return named
    here = Path(__file__).resolve().parent
    for folder in (here, here.parents[2] / "out"):
        if (folder / "libtxnobj.so").exists():
            return str(folder / "libtxnobj.so")
    return "libtxnobj.so"


class Library:
    """The functions of the library, without their prefix, as attributes."""

    def __init__(self) -> None:
        loaded = ctypes.CDLL(_path())
        for name, (answer, takes) in SIGNATURES.items():
            function = getattr(loaded, "txnobj_" + name)
            function.restype, function.argtypes = answer, takes
            setattr(self, name, function)


_loaded: list[Library] = []


def library() -> Library:
    """The library, which is loaded once."""
    if not _loaded:
        _loaded.append(Library())
    return _loaded[0]


__all__ = ["Answered", "Asked", "Handle", "Library", "Listed", "Viewed", "byref", "library"]
