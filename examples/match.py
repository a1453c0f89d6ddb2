#!/usr/bin/env python3
"""The example `match` over a shared library, by ctypes: match.py LIBRARY. include/virentolex.h says how to make one."""
import ctypes
import sys
from ctypes import byref, c_size_t, c_uint8, c_uint16

NOTICE_MAX, TABLE_MAX, NO_FIELD = 16384, 10250, 64
FIRST_EDITION, STRING = 1, 4
library = ctypes.CDLL(sys.argv[1])


def call(name, *words):
    """Calls a function: bytes go with their length, numbers as size_t or as they are; answers the refusal's number."""
    passed = []
    for word in words:
        lent = isinstance(word, (bytes, ctypes.Array))
        passed += [word, c_size_t(len(word))] if lent else [word]
    function = getattr(library, "virentolex_" + name)
    function.restype = c_uint8
    number = function(*passed)
    if number:
        sys.exit(f"{name}: refused {number}")


def translate(text):
    table, place, length = (c_uint8 * TABLE_MAX)(), c_size_t(), c_size_t()
    call("translate", c_size_t(FIRST_EDITION), text.encode(), table, byref(place), byref(length))
    return bytes(table)[: length.value]


def notice(**fields):
    buffer, place, length = (c_uint8 * NOTICE_MAX)(4, 0, 0, 0, 1), c_size_t(), c_size_t(8)
    for name, value in fields.items():
        before = c_size_t(length.value)
        call("write", buffer, before, name.encode(), c_uint16(STRING), value.encode(), byref(place), byref(length))
    return bytes(buffer)[: length.value]


def matched(table, bytes_):
    place, steps, verdict, undecided = c_size_t(), c_size_t(), c_uint8(), c_uint16()
    call("run", table, bytes_, byref(place), byref(verdict), byref(steps), byref(undecided))
    return ["false, not delivered", "true, delivered", "bottom, not delivered"][verdict.value]


def found(bytes_, name):
    place, index, looked = c_size_t(), c_size_t(), c_size_t()
    call("find", bytes_, name.encode(), byref(place), byref(index), byref(looked))
    which = f"no field {name}" if index.value == NO_FIELD else f"{name} is field {index.value}"
    return f"{which}, {looked.value} looked at"


TEXT = 'Staff != "417"'
table = translate(TEXT)
print(f"{TEXT}: a table of {len(table)} bytes")
for fields in [
    {"Console": "counting room", "Staff": "417"},
    {"Console": "counting room", "Staff": "502"},
    {"Console": "yard"},
]:
    shown = " ".join(f"{name}={value}" for name, value in fields.items())
    made = notice(**fields)
    print(f"{shown}: {matched(table, made)}; {found(made, 'Staff')}")
