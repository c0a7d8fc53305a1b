"""Checks of values that the caller has passed. Their errors name the argument."""

from __future__ import annotations

import operator
from array import array
from typing import Any, Callable, List, NoReturn, Sequence, SupportsIndex


def within(name: str, number: SupportsIndex, least: int, most: int) -> int:
    """An integer argument, which must be within these limits."""
    try:
        found = operator.index(number)
    except TypeError:
        raise TypeError(f"{name} is {not_integer(number)}") from None
    if not least <= found <= most:
        raise ValueError(f"{name} must be from {least:,} to {most:,}, not {found:,}")
    return found


def text_argument(name: str, given: Any) -> str:
    """An argument that must be a `str`."""
    if not isinstance(given, str):
        raise TypeError(f"{name} must be a str, not {type(given).__name__}")
    return given


def require_items(name: str, given: Any, wanted: str) -> None:
    """Checks that an argument has items."""
    try:
        iter(given)
    except TypeError:
        raise TypeError(f"{name} must be {wanted}, not {type(given).__name__}") from None


def items_of(name: str, given: Any, wanted: str) -> List[Any]:
    """A copy of the items of an argument, as Python objects."""
    if hasattr(given, "tolist"):
        given = given.tolist()
    require_items(name, given, wanted)
    return list(given)


def integers(items: Sequence[Any], most: int, what: Callable[[int], str]) -> array[int]:
    """The items as an array of integers from 0 to a limit. `what` describes the item at an index, which counts from 0."""
    try:
        numbers = array("I", items)
    except (TypeError, OverflowError):
        raise_unfit(items, most, what)
    if numbers and max(numbers) > most:
        raise_unfit(items, most, what)
    return numbers


def raise_unfit(items: Sequence[Any], most: int, what: Callable[[int], str]) -> NoReturn:
    """Raises the error for the first of these items that is not an integer from 0 to a limit."""
    for index, item in enumerate(items):
        if not is_integer(item):
            raise TypeError(f"{what(index)} is {not_integer(item)}")
        number = operator.index(item)
        if not 0 <= number <= most:
            raise ValueError(f"{what(index)} is {number:,}, not from 0 to {most:,}")
    raise AssertionError("no item is unfit")


def is_integer(item: Any) -> bool:
    """Whether this can be used as an integer."""
    try:
        operator.index(item)
    except TypeError:
        return False
    return True


def not_integer(item: Any) -> str:
    """The end of a message about something that is not an integer."""
    if isinstance(item, float) and item.is_integer():
        return f"{item!r}, a float instead of an integer"
    return f"{item!r}, not a whole number"
