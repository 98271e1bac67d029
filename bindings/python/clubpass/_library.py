"""Loads libclubpass, and declares the library's structs and functions for ctypes."""

from __future__ import annotations

import ctypes
import os
from functools import lru_cache
from pathlib import Path
from typing import Callable

MAX_CAVEATS = 64
MAX_NAME = 24
SIZE = 16 + 2 * MAX_CAVEATS + 32 + 8192


class Object(ctypes.Structure):
    """The struct `clubpass` of the header. Only the library uses its members."""

    _fields_ = [("words", ctypes.c_uint32 * (SIZE // 4))]


class AskObject(ctypes.Structure):
    """The struct `clubpass_ask` of the header."""

    _fields_ = [
        ("owed", ctypes.c_uint64),
        ("spent", ctypes.c_uint64),
        ("action", ctypes.c_uint32),
        ("kind", ctypes.c_uint32),
        ("moment", ctypes.c_uint32),
        ("day", ctypes.c_uint16),
        ("hour", ctypes.c_uint8),
        ("guests", ctypes.c_uint8),
        ("facility_len", ctypes.c_uint8),
        ("facility", ctypes.c_uint8 * MAX_NAME),
    ]


def load() -> ctypes.PyDLL:
    beside = Path(__file__).with_name("libclubpass.so.0")
    # PyDLL keeps the interpreter's lock during a call. A call takes microseconds, and releasing
    # the lock would cost more time.
    library = ctypes.PyDLL(
        os.environ.get("CLUBPASS_LIBRARY")
        or (str(beside) if beside.exists() else "libclubpass.so.0")
    )
    # Callers pass an Object by `byref`. If the type of the argument were declared here, ctypes
    # would test the type at each call.
    text, size, code = ctypes.c_char_p, ctypes.c_size_t, ctypes.c_uint32
    pass_at, written = ctypes.c_void_p, ctypes.POINTER(ctypes.c_size_t)
    for name, result, arguments in [
        ("read", code, None),
        ("form", code, [pass_at]),
        ("location", code, [pass_at, text, size, written]),
        ("identifier", code, [pass_at, text, size, written]),
        ("caveat_count", size, [pass_at]),
        ("caveat", code, [pass_at, size, text, size, written]),
        ("signature", None, [pass_at, text]),
        ("write", code, [pass_at, code, text, size, written]),
        ("mint", code, [text, size, text, size, text, size, pass_at]),
        ("narrow", code, [pass_at, text, size]),
        ("is_signed", ctypes.c_bool, None),
        ("first_fault", code, [pass_at, ctypes.POINTER(AskObject), written]),
        ("is_caveat", ctypes.c_bool, [text, size]),
    ]:
        function = getattr(library, f"clubpass_{name}")
        function.restype, function.argtypes = result, arguments
    return library


library = load()
# clubpass_read and clubpass_is_signed declare no argument types, because ctypes would test the
# types at each call. Callers pass bytes, the `length` of the bytes, and a `byref`.
read: Callable[..., int] = library.clubpass_read
is_signed: Callable[..., bool] = library.clubpass_is_signed
length = lru_cache(1024)(ctypes.c_size_t.from_param)
