"""Tours and routes to check: as files, as texts, as results of a search, or as lists."""

from __future__ import annotations

import operator
from array import array
from typing import Any, Iterable, List, Optional, Sequence, SupportsIndex, Tuple, Union

from ._arguments import is_integer, items_of, not_integer
from ._library import frozen
from ._refused import Refused
from ._results import Routes, Tour
from ._text import ACCEPTED, Bytes, File, Text, is_text, text_of
from ._verdicts import Verdict

Claim = Union[File, Bytes, Tour, Routes, Sequence[int], Sequence[Sequence[int]]]

# The maximum number of a city in a text.
LAST = 2**32 - 1


def claimed_text(claim: Any, what: str) -> Optional[Text]:
    """The text of a tour or solution to check; `None` if it is a list."""
    if isinstance(claim, (Tour, Routes)):
        return Text(frozen(claim.text), what)
    return text_of(claim, what) if is_text(claim) else None


def has_format(given: Any, letter: str) -> bool:
    """Whether this is a list of numbers in memory, in the format of this letter."""
    try:
        view = memoryview(given)
    except TypeError:
        return False
    return view.format == letter and view.ndim == 1


def as_in_texts(city: SupportsIndex) -> int:
    """The city, or 0, which is never a city, if it is out of range for a text."""
    number = operator.index(city)
    return number if 0 <= number <= LAST else 0


def cities_of(given: Any, name: str, what: str = "city at place") -> Tuple[array[int], Sequence[int]]:
    """Cities or customers, with the numbers that a text can contain, and as the caller gave them. Both are copies, which the caller cannot
    change. An error names the argument and, by `what` and its place, the number that is not an integer."""
    if has_format(given, "I"):
        numbers = array("I", frozen(given))
        return numbers, numbers
    listed = items_of(name, given, ACCEPTED[name])
    try:
        return array_of(listed), listed
    except TypeError:
        place, item = next((place, item) for place, item in enumerate(listed, 1) if not is_integer(item))
        raise TypeError(f"{name}: {what} {place} is {not_integer(item)}") from None


def array_of(listed: List[int]) -> array[int]:
    """The numbers as an array. A number that is out of range for a text becomes 0."""
    numbers = array("I")
    try:
        numbers.fromlist(listed)
    except OverflowError:
        numbers = array("I", map(as_in_texts, listed))
    return numbers


def routes_of(given: Any, name: str) -> List[Sequence[int]]:
    """A copy of the routes of a solution, each as a list of customers."""
    listed = enumerate(items_of(name, given, ACCEPTED[name]), 1)
    return [items_of(f"{name}: route {number}", route, "a list of customers") for number, route in listed]


def tour_text(cities: Any, name: str) -> bytes:
    """The text of a tour file for a list of cities, which is the argument of this name."""
    listed = "\n".join(map(str, cities_of(cities, name)[0]))
    return f"TYPE : TOUR\nTOUR_SECTION\n{listed}\n-1\nEOF\n".encode()


def solution_text(routes: Iterable[Sequence[int]], name: str, cost: int = 0) -> bytes:
    """The text of a solution file for lists of customers, which are the argument of this name."""
    served = (cities_of(route, name, f"route {number}, customer at place")[0] for number, route in enumerate(routes, 1))
    lines = (f"Route #{number}: {' '.join(map(str, route))}" for number, route in enumerate(served, 1))
    return "\n".join([*lines, f"Cost {cost}\n"]).encode()


def refused_list(name: str, verdict: Verdict) -> Refused:
    """The exception for a list with a fault, which is the argument of this name."""
    return Refused(f"{name}: {verdict}", None, verdict.fault)
