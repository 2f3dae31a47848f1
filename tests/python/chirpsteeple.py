"""The bench over ctypes: session, table, list and buffer are bytearrays, and every call answers the numbers of its C struct as a tuple."""

import ctypes
import struct

SESSION_BYTES = 384
PAGE_BYTES = 16
WORD_BYTES = 8

DONE, INTERRUPTED, LIST_FULL, CHECK_COMPLETE = range(4)

_Number = ctypes.c_uint64
_SLICE = [ctypes.POINTER(ctypes.c_uint8), ctypes.c_size_t]


def _answer(*names):
    """A C struct of numbers with these names."""
    return type("Answer", (ctypes.Structure,), {"_fields_": [(name, _Number) for name in names]})


_TOKEN = _answer("code", "page")
_SCAN = _answer("code", "next", "first", "last")
_EXPORT = _answer("code", "info", "errors", "buffers")
_LIST = _answer("code", "info")

# What each call takes behind session and table (a slice is "s", a number "n"), and what it answers.
_CALLS = {
    "new": ("n", _Number), "write": ("nn", _Number), "add": ("n", _Number), "accept": ("n", _Number), "block": ("n", _Number),
    "unblock": ("n", _Number), "remove": ("n", _Number), "track": ("", _Number), "start": ("", _Number), "pause": ("", _Number),
    "abort": ("", _Number), "new_epoch": ("", _Number), "reset": ("", _Number), "start_token": ("", _TOKEN),
    "dscan": ("nnsn", _SCAN), "dcheck": ("sn", _SCAN), "export": ("ssnnnn", _EXPORT), "restore": ("snn", _LIST),
}


def _slice(data):
    """Pointer and length of a bytearray, lent for the time of a call."""
    return [(ctypes.c_uint8 * len(data)).from_buffer(data), len(data)]


class Bench:
    """A session and a table, and the calls on them: bench.write(page, mark), bench.dscan(first, count, listed, budget) and so on."""

    def __init__(self, library, pages):
        self.library = library
        self.session = bytearray(SESSION_BYTES)
        self.table = bytearray(pages * PAGE_BYTES)

    def __getattr__(self, name):
        if name not in _CALLS:
            raise AttributeError(name)
        kinds, answer = _CALLS[name]
        function = getattr(self.library, "chirp_" + name)
        function.restype = answer
        function.argtypes = _SLICE * 2 + [t for kind in kinds for t in (_SLICE if kind == "s" else [_Number])]

        def call(*operands):
            if len(operands) != len(kinds):
                raise TypeError(f"{name} takes {len(kinds)} operands")
            given = _slice(self.session) + _slice(self.table)
            for kind, operand in zip(kinds, operands):
                given += _slice(operand) if kind == "s" else [operand]
            result = function(*given)
            return result if answer is _Number else tuple(getattr(result, field) for field, _ in answer._fields_)

        return call


def load(path):
    return ctypes.CDLL(path)


def words(data):
    return [word for (word,) in struct.iter_unpack("<Q", data)]


def as_bytes(numbers):
    return bytearray(struct.pack(f"<{len(numbers)}Q", *numbers))


def entry_for(page):
    """An entry that asks for the export of a page, or in a restore for its return."""
    return 1 << 52 | page << 12


def entry_fields(entry):
    """Page, operation, pending and status of an entry."""
    return entry >> 12 & (1 << 40) - 1, entry >> 52 & 3, entry >> 2 & 1, entry >> 56 & 31


def info_for(first, last):
    return last << 55 | first << 3


def info_first(info):
    return info >> 3 & 511
