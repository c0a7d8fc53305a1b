"""Cities with coordinates."""

from __future__ import annotations

import decimal
from array import array
from typing import Any, Iterable, List, Sequence, Tuple

from ._arguments import items_of, text_argument
from ._library import input_slice
from ._limits import CITY_LIMIT, COORDINATE_LIMIT

# The distance types of cities with coordinates, by their numbers in `tourkit.h`.
KINDS = {"EUC_2D": 0, "CEIL_2D": 1, "MAN_2D": 2, "MAX_2D": 3, "ATT": 4}

# Coordinates are exact in units of 10^-9.
PLACES = 9
SCALE = 10**PLACES
FARTHEST = COORDINATE_LIMIT * SCALE

EXACT = decimal.Context(prec=100)


def units(coordinate: Any) -> int:
    """A coordinate in units of 10^-9. Digits after the ninth decimal place are dropped. `ValueError` describes what it is otherwise."""
    if isinstance(coordinate, int):
        found: int = coordinate * SCALE
    else:
        try:
            found = int(decimal.Decimal(str(coordinate)).scaleb(PLACES, EXACT))
        except (ArithmeticError, ValueError):
            raise ValueError(f"{coordinate!r}, not a number") from None
    if abs(found) > FARTHEST:
        raise ValueError(f"{coordinate}, not from {-COORDINATE_LIMIT:,} to {COORDINATE_LIMIT:,}")
    return found


def pairs_of(points: Sequence[Any]) -> List[Tuple[int, int]]:
    """The coordinates that the caller has passed, in units."""
    try:
        return [(units(x), units(y)) for x, y in points]
    except (TypeError, ValueError):
        return [checked_pair(city, point) for city, point in enumerate(points, 1)]


def checked_pair(city: int, point: Any) -> Tuple[int, int]:
    """The coordinates of a city. An error describes what they are otherwise."""
    try:
        x, y = point
    except (TypeError, ValueError):
        raise ValueError(f"points: city {city} is {point!r}, not a pair of coordinates") from None
    return checked_units("x", city, x), checked_units("y", city, y)


def checked_units(axis: str, city: int, coordinate: Any) -> int:
    """A coordinate of a city. An error names both."""
    try:
        return units(coordinate)
    except ValueError as error:
        raise ValueError(f"points: {axis} of city {city} is {error}") from None


def decimal_of(number: int) -> str:
    """A number of units as a decimal number."""
    whole, part = divmod(abs(number), SCALE)
    sign = "-" if number < 0 else ""
    places = f".{part:0{PLACES}}".rstrip("0") if part else ""
    return f"{sign}{whole}{places}"


class Points:
    """Cities with coordinates, and a distance type."""

    form = "points"

    def __init__(self, xs: bytes, ys: bytes, kind: str) -> None:
        """The cities with these coordinates, which are 64-bit integers, in units."""
        self.kind = kind
        self.size = len(xs) // 8
        self._xs, self._ys = xs, ys

    @classmethod
    def given(cls, points: Iterable[Sequence[Any]], kind: str) -> Points:
        """The cities at these points, which the caller has passed."""
        if text_argument("kind", kind) not in KINDS:
            raise ValueError(f"kind must be one of {', '.join(KINDS)}, not {kind!r}")
        pairs = pairs_of(items_of("points", points, "a list of pairs of coordinates"))
        if not 2 <= len(pairs) <= CITY_LIMIT:
            raise ValueError(f"points must be 2 to {CITY_LIMIT:,} cities, not {len(pairs):,}")
        xs, ys = array("q", [x for x, _ in pairs]), array("q", [y for _, y in pairs])
        return cls(xs.tobytes(), ys.tobytes(), kind)

    def pairs(self) -> Tuple[Tuple[float, float], ...]:
        """The coordinates, as the nearest floats."""
        xs, ys = array("q", self._xs), array("q", self._ys)
        return tuple((x / SCALE, y / SCALE) for x, y in zip(xs, ys))

    @property
    def words(self) -> Tuple[Any, ...]:
        """The arguments of functions on coordinates."""
        return (KINDS[self.kind], *input_slice(self._xs, "q"), *input_slice(self._ys, "q"))

    def sections(self) -> str:
        """The lines of a problem file."""
        places = zip(map(decimal_of, array("q", self._xs)), map(decimal_of, array("q", self._ys)))
        lines = "".join(f"{city} {x} {y}\n" for city, (x, y) in enumerate(places, 1))
        return f"EDGE_WEIGHT_TYPE : {self.kind}\nNODE_COORD_SECTION\n{lines}"
