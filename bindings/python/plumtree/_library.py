"""The library's calls, as plumtree.h declares them."""
from __future__ import annotations

import ctypes
import os
from ctypes import POINTER, byref, c_char, c_int32, c_size_t, c_uint8, c_uint32, c_uint64
from pathlib import Path

NAME_MAX = 32
DICE = 16
VERSION = 2


class Slot(ctypes.Structure):
    """A node's room."""

    _fields_ = [("live", c_uint64), ("turn", c_uint64), ("at", ctypes.c_void_p)]


class Name(ctypes.Structure):
    _fields_ = [("text", c_char * (NAME_MAX + 1)), ("length", c_uint8)]


class Id(ctypes.Structure):
    _fields_ = [("name", Name), ("incarnation", c_uint64), ("number", c_uint64)]


class Sizes(ctypes.Structure):
    _fields_ = [
        *((name, c_uint8) for name in ("active", "passive", "arwl", "prwl", "ka", "kp")),
        ("threshold", c_uint32),
        ("keep", c_uint32),
    ]


class CountsOf(ctypes.Structure):
    _fields_ = [(name, c_uint64) for name in ("known", "held", "missing", "wants", "queued", "sends", "deliveries")]


class WireCountsOf(ctypes.Structure):
    _fields_ = [(name, c_uint64) for name in ("held", "missing", "wants", "queued", "ticks")]


class NewsOf(ctypes.Structure):
    _fields_ = [("kind", c_uint8), ("why", c_uint8), ("name", Name)]


class Piece(ctypes.Structure):
    """Bytes that a node lends."""

    _fields_ = [("at", ctypes.c_void_p), ("length", c_size_t)]


Pieces = Piece * 4
Dice = c_uint64 * DICE
_BYTES = (ctypes.c_char_p, c_size_t)
_ROOM = (POINTER(c_char), c_size_t, POINTER(c_size_t))
_NAMES = (POINTER(Name), c_size_t, POINTER(c_size_t))
_CALLS = {
    "plumtree_name_of": (*_BYTES, POINTER(Name)),
    "plumtree_start": (POINTER(Slot), *_BYTES, c_uint64, POINTER(Sizes), POINTER(Name), c_size_t, *_BYTES),
    "plumtree_free": (POINTER(Slot),),
    "plumtree_broadcast": (POINTER(Slot), *_BYTES, POINTER(c_uint64)),
    "plumtree_receive": (POINTER(Slot), ctypes.c_void_p, c_size_t, POINTER(Dice), POINTER(c_size_t)),
    "plumtree_tick": (POINTER(Slot), POINTER(Dice)),
    "plumtree_flush": (POINTER(Slot),),
    "plumtree_fire": (POINTER(Slot), POINTER(Id)),
    "plumtree_shuffle": (POINTER(Slot), POINTER(Dice)),
    "plumtree_link_down": (POINTER(Slot), *_BYTES, POINTER(Dice)),
    "plumtree_join": (POINTER(Slot), *_BYTES),
    "plumtree_next_send": (POINTER(Slot), POINTER(Name), *_ROOM),
    "plumtree_next_delivery": (POINTER(Slot), POINTER(Id), *_ROOM),
    "plumtree_active": (POINTER(Slot), *_NAMES),
    "plumtree_passive": (POINTER(Slot), *_NAMES),
    "plumtree_eager": (POINTER(Slot), *_NAMES),
    "plumtree_lazy": (POINTER(Slot), *_NAMES),
    "plumtree_counts_of": (POINTER(Slot), POINTER(CountsOf)),
    "plumtree_knows": (POINTER(Slot), POINTER(Id)),
    "plumtree_timer": (POINTER(Slot), c_size_t, POINTER(Id)),
    "plumtree_wire_start": (POINTER(Slot), *_BYTES, c_uint64, POINTER(Sizes), c_size_t, POINTER(Name), c_size_t, *_BYTES),
    "plumtree_wire_broadcast": (POINTER(Slot), *_BYTES, POINTER(c_uint64)),
    "plumtree_wire_tick": (POINTER(Slot), POINTER(Dice)),
    "plumtree_wire_accept": (POINTER(Slot), POINTER(c_uint64)),
    "plumtree_wire_receive": (POINTER(Slot), c_uint64, *_BYTES, POINTER(Dice)),
    "plumtree_wire_ended": (POINTER(Slot), c_uint64, POINTER(Dice)),
    "plumtree_wire_unreachable": (POINTER(Slot), *_BYTES, POINTER(Dice)),
    "plumtree_wire_join": (POINTER(Slot), *_BYTES, POINTER(Dice)),
    "plumtree_wire_receivers": (POINTER(Slot), *_NAMES),
    "plumtree_wire_waiting": (POINTER(Slot), *_BYTES, POINTER(c_size_t)),
    "plumtree_wire_transmit": (POINTER(Slot), *_BYTES, POINTER(Pieces)),
    "plumtree_wire_transmitted": (POINTER(Slot), *_BYTES, c_size_t),
    "plumtree_wire_next_delivery": (POINTER(Slot), POINTER(Id), *_ROOM),
    "plumtree_wire_next_lost": (POINTER(Slot), POINTER(Name)),
    "plumtree_wire_tell_news": (POINTER(Slot), ctypes.c_bool),
    "plumtree_wire_next_news": (POINTER(Slot), POINTER(NewsOf)),
    "plumtree_wire_counts_of": (POINTER(Slot), POINTER(WireCountsOf)),
    "plumtree_words": (c_int32, *_ROOM),
}


def _load() -> ctypes.CDLL:
    """Loads the shared library: PLUMTREE_LIBRARY, or the one beside this module."""
    path = os.environ.get("PLUMTREE_LIBRARY") or str(Path(__file__).with_name("libplumtree.so"))
    library = ctypes.CDLL(path)
    for name, arguments in _CALLS.items():
        call = getattr(library, name)
        call.argtypes, call.restype = arguments, c_int32
    library.plumtree_limits_default.argtypes, library.plumtree_limits_default.restype = (POINTER(Sizes),), None
    library.plumtree_version.argtypes, library.plumtree_version.restype = (), c_uint32
    if library.plumtree_version() != VERSION:
        raise ImportError(f"{path} has version {library.plumtree_version()} of the interface, and this module wants {VERSION}")
    return library


LIBRARY = _load()


def words(answer: int) -> str:
    """Returns what an answer means."""
    room, length = ctypes.create_string_buffer(128), c_size_t()
    if LIBRARY.plumtree_words(answer, room, len(room), byref(length)) != 1:
        return f"answer {answer}"
    return room.raw[: length.value].decode()
