"""Livemap: a live map index whose answers, and whose bound on the work of an update, are machine-checked.

A map has up to eight layers of points or of horizontal segments. Items come and go by their identifiers, and questions are answered
about those that are live:

    import livemap

    with livemap.Map() as town:
        cars = town.points("cars", "range", "near")
        cars.add(7, 100, 90)
        cars.near(90, 90)            # Found(id=7, distance=100)
        cars.count(0, 0, 400, 70)    # 0
        cars.add(7, 1, 1)            # raises livemap.Duplicate: no duplicate 7

Identifiers are up to 2**64 - 1, coordinates and weights up to 2**31 - 1, coordinates of a `livemap.Map(2)` from -2**31. A refused call
raises a `Refused` and leaves the map as it is.
`Map.line` and `Map.answer` take the lines of the program's language, one or many at once; many at once cost less.

The shared library is found by the variable LIVEMAP_LIBRARY, beside this file, where `tools/library` puts it, or by the system. A map may
be used by several threads: each call has it alone.
"""

from __future__ import annotations

import ctypes
import ctypes.util
import os
import pathlib
import threading
from typing import Iterable, List, NamedTuple, Optional, Type, Union

__all__ = [
    "Map", "Points", "Segments", "Found", "Peak", "Point", "Segment", "Refused", "BadLine", "NoLayer", "WrongKind", "NoIndex", "Taken",
    "NoRoom", "Duplicate", "UnknownId", "Full", "HasLayers", "Building", "NoMemory", "WornOut",
]


class Found(NamedTuple):
    """A point that was found near a place, and its squared distance."""

    id: int
    distance: int


class Peak(NamedTuple):
    """The highest point of a strip, and its y."""

    id: int
    y: int


class Point(NamedTuple):
    """Where a point is, and its weight."""

    x: int
    y: int
    w: int


class Segment(NamedTuple):
    """A segment from (lo, y) to (hi, y)."""

    lo: int
    hi: int
    y: int


class Refused(Exception):
    """A line was refused, and the map is as it was. Its text is the answer, as `no duplicate 7`."""


class BadLine(Refused, ValueError):
    """The line says no command that can be executed: a number is past its limits, a lower end past its upper end, or a word isn't one."""


class NoLayer(Refused, LookupError):
    """No layer has this name."""


class WrongKind(Refused):
    """The layer has points, and this is for segments, or the other way round."""


class NoIndex(Refused):
    """The layer lacks the index for this question, or its kind does."""


class Taken(Refused):
    """There is a layer of this name, or it has this index."""


class NoRoom(Refused):
    """There are eight layers."""


class HasLayers(Refused):
    """There is a layer already, so the version stays."""


class Building(Refused):
    """The index for this question waits for items, as many as the text says: `no building 6`."""


class Duplicate(Refused):
    """The layer has an item of this identifier."""


class UnknownId(Refused, LookupError):
    """The layer has no item of this identifier."""


class Full(Refused):
    """The layer has 65,536 items."""


class NoMemory(Refused, MemoryError):
    """There was no memory for this, and the map is as it was."""


class WornOut(Exception):
    """The map had 2**40 lines, and executes no more."""


_REFUSALS: dict[str, Type[Refused]] = {
    "layer": NoLayer, "kind": WrongKind, "index": NoIndex, "taken": Taken, "room": NoRoom, "duplicate": Duplicate, "unknown": UnknownId,
    "full": Full, "version": HasLayers, "memory": NoMemory, "building": Building,
}

# The statuses of include/livemap.h.
_NO_TEXT, _WORN_OUT = 3, 4

_ROOM = 4096


def _load() -> ctypes.PyDLL:
    """The shared library. PyDLL keeps the interpreter's lock, so that no call runs beside another one."""
    here = pathlib.Path(__file__).resolve().parent
    name = "liblivemap.so.1"
    places = [os.environ.get("LIVEMAP_LIBRARY"), here / name, here.parent.parent / "lib" / name, ctypes.util.find_library("livemap")]
    place = next((str(place) for place in places if place and (os.path.exists(place) or os.sep not in str(place))), name)
    library = ctypes.PyDLL(place)
    at, text, size = ctypes.c_void_p, ctypes.c_char_p, ctypes.c_size_t
    for call, result, words in [("size", size, []), ("init", None, [at]), ("drop", None, [at]), ("line", ctypes.c_uint32, [at, text, size]),
                                ("script", ctypes.c_uint32, [at, text, size]), ("text", size, [at, text, size])]:
        function = getattr(library, "livemap_" + call)
        function.restype, function.argtypes = result, words
    return library


_library = _load()


def _bytes(text: Union[str, bytes]) -> bytes:
    return text.encode() if isinstance(text, str) else bytes(text)


class Map:
    """A map without layers, of version 1 or 2. Close it, or use it in a `with`, to free its memory at once."""

    def __init__(self, version: int = 1) -> None:
        self._at = 0
        self._lock = threading.Lock()
        self._block = ctypes.create_string_buffer(_library.livemap_size() + 15)
        self._room = ctypes.create_string_buffer(_ROOM)
        at = (ctypes.addressof(self._block) + 15) & ~15
        _library.livemap_init(at)
        self._at = at
        if version != 1:
            self._ask(f"livemap {version}")

    def points(self, name: str, *indexes: str) -> Points:
        """Makes a layer of points with one or more of the indexes `range`, `near` and `top`."""
        self._ask(f"layer {name} points {' '.join(indexes)}")
        return Points(self, name)

    def segments(self, name: str) -> Segments:
        """Makes a layer of segments."""
        self._ask(f"layer {name} segments stab")
        return Segments(self, name)

    def line(self, line: Union[str, bytes]) -> str:
        """Executes a line of the language, and returns its answer: of a refused line the refusal, and of an empty one or a comment nothing."""
        return self._said(_library.livemap_line, _bytes(line)).rstrip("\n")

    def answer(self, lines: Union[str, bytes, Iterable[Union[str, bytes]]]) -> List[str]:
        """Executes the lines of a text, or lines one after another, and returns their answers. Empty lines and comments have none.

        It costs less than a call for each. Where there is no memory for the answers, the lines up to some one were executed."""
        text = _bytes(lines) if isinstance(lines, (str, bytes)) else b"".join(_bytes(line).rstrip(b"\n") + b"\n" for line in lines)
        return self._said(_library.livemap_script, text).splitlines()

    def close(self) -> None:
        """Frees the map. It may be closed again, and answers nothing more."""
        with self._lock:
            if self._at:
                _library.livemap_drop(self._at)
                self._at = 0

    def __enter__(self) -> Map:
        return self

    def __exit__(self, *_: object) -> None:
        self.close()

    def __del__(self) -> None:
        if getattr(self, "_at", 0):
            self.close()

    def _said(self, call, text: bytes) -> str:
        """What a call answers to a text."""
        with self._lock:
            if not self._at:
                raise ValueError("the map is closed")
            status = call(self._at, text, len(text))
            if status == _NO_TEXT:
                raise MemoryError("the line was executed, but there is no memory for its answer")
            if status == _WORN_OUT:
                raise WornOut("the map had 2**40 lines")
            size = _library.livemap_text(self._at, self._room, len(self._room))
            if size > len(self._room):
                self._room = ctypes.create_string_buffer(size)
                _library.livemap_text(self._at, self._room, size)
            answer = ctypes.string_at(self._room, size).decode()
            if size > _ROOM:
                self._room = ctypes.create_string_buffer(_ROOM)
            return answer

    def _ask(self, line: str) -> List[str]:
        """The words of the answer to a line, but for the first: none of `none`."""
        word, *rest = self.line(line).split() or [""]
        if word == "no":
            raise _REFUSALS.get(rest[0], BadLine)(" ".join(["no", *rest]))
        return [] if rest == ["none"] else rest

    def _numbers(self, line: str) -> List[int]:
        return list(map(int, self._ask(line)))


class Layer:
    """What layers of points and of segments have in common. A layer is a name in a map, and may be made of both by hand."""

    def __init__(self, map: Map, name: str) -> None:
        self.map = map
        self.name = name

    def drop(self, id: int) -> None:
        """Takes an item out."""
        self.map._ask(f"drop {self.name} {id}")

    def recent(self, k: int = 64) -> List[int]:
        """The identifiers of the last `k` items, or of all where there are fewer, the last one first; `k` is from 1 to 64."""
        return self.map._numbers(f"recent {self.name} {k}")

    def __len__(self) -> int:
        """How many items there are."""
        return self.map._numbers(f"size {self.name}")[0]

    def __contains__(self, id: int) -> bool:
        """Whether an identifier is live."""
        try:
            self.map._ask(f"get {self.name} {id}")
        except UnknownId:
            return False
        return True


class Points(Layer):
    """A layer of points."""

    def add_index(self, index: str) -> None:
        """Gives the layer in use a further index, `range`, `near` or `top`. It waits for all items, and each update hands it the next four; until
        it waits for none its questions raise `Building`."""
        self.map._ask(f"index {self.name} {index}")

    def add(self, id: int, x: int, y: int, w: int = 0) -> None:
        """Adds a point of weight `w`."""
        self.map._ask(f"add {self.name} {id} {x} {y} {w}")

    def move(self, id: int, x: int, y: int, w: int = 0) -> None:
        """Gives a point another place and weight, in one update. It is then the last one."""
        self.map._ask(f"move {self.name} {id} {x} {y} {w}")

    def get(self, id: int) -> Point:
        """Where a point is."""
        return Point(*self.map._numbers(f"get {self.name} {id}"))

    def count(self, x1: int, y1: int, x2: int, y2: int) -> int:
        """How many points are in a rectangle, its border too. Index `range`."""
        return self.map._numbers(f"count {self.name} {x1} {y1} {x2} {y2}")[0]

    def sum(self, x1: int, y1: int, x2: int, y2: int) -> int:
        """What the points in a rectangle weigh together. Index `range`."""
        return self.map._numbers(f"sum {self.name} {x1} {y1} {x2} {y2}")[0]

    def list(self, x1: int, y1: int, x2: int, y2: int) -> List[int]:
        """The identifiers of the points in a rectangle, ascending. Index `range`."""
        return self.map._numbers(f"list {self.name} {x1} {y1} {x2} {y2}")

    def near(self, x: int, y: int) -> Optional[Found]:
        """The point nearest to a place, and of several that of the least identifier. Index `near`."""
        found = self.map._numbers(f"near {self.name} {x} {y}")
        return Found(*found) if found else None

    def nearest(self, k: int, x: int, y: int) -> List[Found]:
        """The `k` nearest points, or all where there are fewer, the nearest first; `k` is from 1 to 64. Index `near`."""
        numbers = self.map._numbers(f"nearest {self.name} {k} {x} {y}")
        return [Found(*pair) for pair in zip(numbers[::2], numbers[1::2])]

    def top(self, x1: int, x2: int) -> Optional[Peak]:
        """The highest point of a strip, and of several that of the least identifier. Index `top`."""
        found = self.map._numbers(f"top {self.name} {x1} {x2}")
        return Peak(*found) if found else None

    def above(self, x1: int, x2: int, y: int) -> List[int]:
        """The identifiers of the points of a strip that are as high as `y`, ascending. Index `top`."""
        return self.map._numbers(f"above {self.name} {x1} {x2} {y}")


class Segments(Layer):
    """A layer of segments."""

    def add(self, id: int, lo: int, hi: int, y: int) -> None:
        """Adds the segment from (lo, y) to (hi, y)."""
        self.map._ask(f"seg {self.name} {id} {lo} {hi} {y}")

    def get(self, id: int) -> Segment:
        """Where a segment is."""
        return Segment(*self.map._numbers(f"get {self.name} {id}"))

    def stab(self, x: int) -> List[int]:
        """The identifiers of the segments over `x`, ascending."""
        return self.map._numbers(f"stab {self.name} {x}")

    def stab_count(self, x: int) -> int:
        """How many segments are over `x`."""
        return self.map._numbers(f"stabcount {self.name} {x}")[0]
