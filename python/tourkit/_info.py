"""What the library knows of the problem of a text."""

from __future__ import annotations

import ctypes
from typing import NamedTuple

from ._library import ProblemInfo
from ._points import KINDS
from ._text import Text
from ._weights import Weights
from ._writing import write_texts

# The maximum number of bytes of a name.
NAME_LIMIT = 1024

# The distance types, by their numbers in `tourkit.h`.
DISTANCE_TYPES = [*KINDS, Weights.kind]


class Info(NamedTuple):
    """What is known of a problem. A TSP has no capacity and no depot, which are 0."""

    name: str
    kind: str
    size: int
    distance_type: str
    capacity: int
    depot: int


def read_info(text: Text) -> Info:
    """What the library knows of the problem of a text."""
    found = ProblemInfo()
    _, (name,) = write_texts("tourkit_info", [text], (*text.words, ctypes.byref(found)), [NAME_LIMIT])
    kind, distance_type = "cvrp" if found.is_cvrp else "tsp", DISTANCE_TYPES[found.distances]
    return Info(name.decode(errors="replace"), kind, found.dimension, distance_type, found.capacity, found.depot)
