"""The library's entries: where the library is looked for, and what each entry takes and gives, as include/*.h have it."""

import ctypes
import functools
import operator
import os
from pathlib import Path
from typing import List, Tuple

U8, U16, U32, U64, BOOL = ctypes.c_uint8, ctypes.c_uint16, ctypes.c_uint32, ctypes.c_uint64, ctypes.c_bool
ROOM = (ctypes.POINTER(ctypes.c_uint8), ctypes.c_size_t)
"""Bytes lent for writing: an address and a length. A bytearray is handed in."""
BYTES = (ctypes.c_char_p, ctypes.c_size_t)
"""Bytes that are only read. Bytes are handed in, which nothing can write to meanwhile."""

ENTRIES = {
    "station_version": (U32, {}),
    "station_start": (U32, {"room": ROOM}),
    "station_request": (U32, {"room": ROOM, "count": U8, "set": BYTES}),
    "station_event": (U32, {"room": ROOM, "way": U8}),
    "station_result": (U32, {"room": ROOM, "issue": U16, "number": U8, "ending": U8}),
    "station_image": (U32, {"room": ROOM, "image": U64, "apart": U64}),
    "station_ask": (U32, {"room": BYTES, "image": ROOM}),
    "station_message": (U32, {"room": ROOM, "message": BYTES, "reply": ROOM}),
    "garage_sound": (BOOL, {"image": U64}),
    "garage_cars": (U32, {"image": U64}),
    "garage_allowed": (U32, {"image": U64, "five": BYTES}),
    "garage_next": (U32, {"image": U64, "five": BYTES, "next": ROOM}),
    "garage_area": (U32, {"five": BYTES, "area": ROOM}),
    "garage_overlap": (U32, {"one": BYTES, "other": BYTES}),
    "desk_start": (U32, {"room": ROOM}),
    "desk_request": (U32, {"room": ROOM, "count": U8, "set": BYTES}),
    "desk_event": (U32, {"room": ROOM, "way": U8, "card": U32}),
    "desk_result": (U32, {"room": ROOM, "issue": U16, "number": U8, "ending": U8}),
    "desk_image": (U32, {"room": ROOM, "image": U64, "apart": U64, "count": U8, "cards": BYTES}),
    "desk_ask": (U32, {"room": BYTES, "image": ROOM}),
    "desk_where": (U32, {"room": BYTES, "card": U32}),
    "desk_leaving": (U32, {"room": BYTES, "card": ROOM}),
    "desk_list": (U32, {"room": BYTES, "lines": ROOM}),
    "desk_outstanding": (U32, {"room": BYTES, "set": ROOM}),
    "desk_compare": (U32, {"room": BYTES, "image": U64, "apart": U64, "count": U8, "cards": BYTES, "lines": ROOM}),
    "plan_judge": (U32, {"plan": BYTES}),
    "plan_explain": (U32, {"plan": BYTES, "room": ROOM}),
    "drawing_write": (U32, {"image": U64, "text": ROOM}),
    "drawing_read": (U32, {"text": BYTES, "room": ROOM}),
    "drawing_write_apart": (U32, {"apart": U64, "text": ROOM}),
    "drawing_read_apart": (U32, {"text": BYTES, "room": ROOM}),
    "panel_condition": (U32, {"image": U64, "five": BYTES, "c": U8, "room": ROOM}),
    "panel_cars": (U32, {"image": U64, "room": ROOM}),
    "report_start": (U32, {"totals": ROOM}),
    "report_message": (U32, {"totals": ROOM, "station": BYTES, "message": BYTES}),
    "report_lines": (U32, {"totals": BYTES, "full": U8, "out": ROOM}),
}
"""What each entry gives, and its parameters by their names."""

SHELF = Path(__file__).resolve().parent.parent
"""The folder that holds this package: PREFIX/share/station, or hosts/python in the tree."""


def places() -> List[Path]:
    """Where the library may be: as the environment says, or else in the package as pip installs it, or beside one that tools/install has
    installed, or in the tree."""
    named = os.environ.get("STATION_LIBRARY")
    if named:
        return [Path(named)]
    beside = [SHELF / "station", SHELF / "../../lib", SHELF / "../../target/library"]
    return [(folder / "libstation.so").resolve() for folder in beside]


@functools.lru_cache(maxsize=None)
def library() -> ctypes.CDLL:
    for place in places():
        if place.exists():
            return ctypes.CDLL(str(place))
    looked = " nor ".join(str(place) for place in places())
    raise FileNotFoundError(f"the station's library is not {looked}: make it by `tools/library target/library` in the project's tree")


@functools.lru_cache(maxsize=None)
def entry(name: str):
    """An entry of the library, with its types declared."""
    returns, parameters = ENTRIES[name]
    try:
        found = getattr(library(), name)
    except AttributeError:
        raise LookupError(f"the station's library has no entry {name}: it is older than this module") from None
    found.restype = returns
    found.argtypes = [kind for one in parameters.values() for kind in (one if isinstance(one, tuple) else (one,))]
    return found


def crossing(value, kind, name: str) -> tuple:
    """A value as it crosses. ctypes would cut a number that is too large, so these are refused here."""
    if kind is ROOM:
        return (ctypes.c_uint8 * len(value)).from_buffer(value), len(value)
    if kind is BYTES:
        return bytes(value), len(value)
    value, most = operator.index(value), 256 ** ctypes.sizeof(kind) - 1
    if not 0 <= value <= most:
        raise ValueError(f"{name} is {value}, and goes from 0 to {most}")
    return (value,)


def call(name: str, *values):
    """Calls an entry; each run of bytes crosses with its length."""
    parameters = ENTRIES[name][1]
    if len(values) != len(parameters):
        raise TypeError(f"{name} takes {len(parameters)} values")
    return entry(name)(*(part for value, (at, kind) in zip(values, parameters.items()) for part in crossing(value, kind, at)))


def version() -> Tuple[int, int, int]:
    """The library's version. The first number moves where a caller must change something, the second where something was added."""
    number = call("station_version")
    return number >> 16, number >> 8 & 255, number & 255
