"""Loads the shared library and calls its functions, which `tourkit.h` documents."""

from __future__ import annotations

import ctypes
import pathlib
import struct
from typing import Any, Tuple

DONE, FOUND, REFUSED, NO_MEMORY, NO_ROOM = range(5)


class Answer(ctypes.Structure):
    """The result of a call, apart from the text or array that it writes: `tourkit_answer` of the header."""

    _fields_ = [
        ("status", ctypes.c_uint32),
        ("text", ctypes.c_uint32),
        ("line", ctypes.c_uint64),
        ("kind", ctypes.c_uint32),
        ("place", ctypes.c_uint32),
        ("length", ctypes.c_uint64),
        ("needed", ctypes.c_size_t),
        ("needed_file", ctypes.c_size_t),
    ]


class SearchOptions(ctypes.Structure):
    """The options of a search for a tour, or for routes that are improved each by itself: `tourkit_search_options` of the header."""

    _fields_ = [
        ("runs", ctypes.c_uint32),
        ("trials", ctypes.c_uint32),
        ("seed", ctypes.c_uint32),
        ("candidates", ctypes.c_uint32),
        ("or_segment", ctypes.c_uint32),
        ("final_sweep", ctypes.c_bool),
        ("savings", ctypes.c_bool),
        ("from_tour", ctypes.c_bool),
    ]


class RouteOptions(ctypes.Structure):
    """The options of a search between routes: `tourkit_route_options` of the header."""

    _fields_ = [
        ("runs", ctypes.c_uint32),
        ("trials", ctypes.c_uint32),
        ("seed", ctypes.c_uint32),
        ("candidates", ctypes.c_uint32),
        ("or_segment", ctypes.c_uint32),
        ("final_sweep", ctypes.c_bool),
        ("from_solution", ctypes.c_bool),
    ]


class ProblemInfo(ctypes.Structure):
    """What is known of a problem, apart from its name: `tourkit_problem_info` of the header."""

    _fields_ = [
        ("dimension", ctypes.c_uint32),
        ("distances", ctypes.c_uint32),
        ("depot", ctypes.c_uint32),
        ("capacity", ctypes.c_uint32),
        ("demand", ctypes.c_uint64),
        ("vehicles", ctypes.c_uint64),
        ("left", ctypes.c_int64),
        ("right", ctypes.c_int64),
        ("bottom", ctypes.c_int64),
        ("top", ctypes.c_int64),
        ("is_cvrp", ctypes.c_bool),
        ("is_whole", ctypes.c_bool),
    ]


SLICE = (ctypes.c_void_p, ctypes.c_size_t)
NUMBER = (ctypes.c_uint32,)
LONG_NUMBER = (ctypes.c_uint64,)
FLAG = (ctypes.c_bool,)
STRUCT = (ctypes.c_void_p,)

# The parameters of each function before its answer.
CALLS = {
    "tourkit_check": 3 * SLICE,
    "tourkit_checksol": 3 * SLICE,
    "tourkit_near": SLICE + NUMBER + SLICE,
    "tourkit_matrix": 2 * SLICE,
    "tourkit_solve": 5 * SLICE,
    "tourkit_search": 2 * SLICE + STRUCT + 2 * SLICE,
    "tourkit_solve_routes": 2 * SLICE + STRUCT + 2 * SLICE,
    "tourkit_plot": 2 * SLICE + FLAG + 2 * SLICE,
    "tourkit_page": 2 * SLICE + FLAG + 2 * SLICE,
    "tourkit_explain": 2 * SLICE + LONG_NUMBER + SLICE,
    "tourkit_info": SLICE + STRUCT + SLICE,
    "tourkit_coordinates": 3 * SLICE,
    "tourkit_weights": 2 * SLICE,
    "tourkit_demands": 2 * SLICE,
    "tourkit_tour_cities": 2 * SLICE,
    "tourkit_nearest_tour": SLICE + NUMBER + SLICE,
    "tourkit_distances": 2 * SLICE,
    "tourkit_check_cities": 2 * SLICE,
    "tourkit_near_cities": SLICE + NUMBER + SLICE,
    "tourkit_check_points": NUMBER + 3 * SLICE,
    "tourkit_near_points": NUMBER + 2 * SLICE + NUMBER + SLICE,
    "tourkit_check_weights": NUMBER + 2 * SLICE,
    "tourkit_near_weights": NUMBER + SLICE + NUMBER + SLICE,
}


def load() -> ctypes.CDLL:
    """Loads the shared library next to this file, and sets the parameter types of its functions."""
    place = pathlib.Path(__file__).with_name("libtourkit.so")
    try:
        loaded = ctypes.CDLL(str(place))
    except OSError as error:
        raise ImportError(f"{error}; `pip install ./python` and `./tourkit --wheel DIR` pack this package with its library") from error
    for name, takes in CALLS.items():
        export = getattr(loaded, name)
        export.argtypes = (*takes, ctypes.POINTER(Answer))
        export.restype = None
    loaded.tourkit_version.argtypes, loaded.tourkit_version.restype = (), ctypes.c_uint32
    return loaded


LIBRARY = load()


def require_version(version: str) -> None:
    """Checks that the library has the version of the package."""
    major, minor, patch = map(int, version.split("."))
    found: int = LIBRARY.tourkit_version()
    if found != 10_000 * major + 100 * minor + patch:
        raise ImportError(f"tourkit is of version {version}, but its library is of version {found // 10_000}.{found // 100 % 100}.{found % 100}")


# An address for buffers without items, since pointers must not be null.
NOTHING = (ctypes.c_uint64 * 1)()


def frozen(items: Any) -> bytes:
    """Items in memory as bytes that cannot change: a copy, unless they are `bytes`."""
    return items if type(items) is bytes else bytes(memoryview(items))


def input_slice(items: bytes, letter: str = "B") -> Tuple[bytes, int]:
    """The arguments that pass items of this type to a function that reads them: a pointer and a count. Other threads run during a call, so
    the items are `bytes`, which cannot change. The contents of `bytes` begin at a multiple of 8."""
    data = frozen(items)
    return data, len(data) // struct.calcsize(letter)


def output_slice(room: Any) -> Tuple[Any, int]:
    """The arguments that pass a buffer to a function that writes to it: a pointer and a count. Nothing else must access the buffer before
    the call returns."""
    count = len(room)
    return ctypes.byref(ctypes.c_char.from_buffer(room) if count else NOTHING), count


def call(name: str, *arguments: Any) -> Answer:
    """Calls a function of the library and returns its answer."""
    answer = Answer()
    getattr(LIBRARY, name)(*arguments, ctypes.byref(answer))
    if answer.status == NO_MEMORY:
        raise MemoryError("tourkit: out of memory")
    return answer
