"""Verdicts on tours and on routes."""

from __future__ import annotations

import re
from dataclasses import dataclass
from typing import Any, ClassVar, Dict, Mapping, Optional, Type, TypeVar

V = TypeVar("V", bound="Verdict")


@dataclass(frozen=True, repr=False)
class Verdict:
    """The result of a check: valid, or the first fault. It is true if there is no fault, and prints as the line that the program prints."""

    # The line that the program prints for each fault, and for no fault.
    LINES: ClassVar[Mapping[Optional[str], str]] = {}

    valid: bool
    fault: Optional[str] = None

    def __bool__(self) -> bool:
        return self.valid

    def __str__(self) -> str:
        return self.LINES[self.fault].format(**vars(self))

    def __repr__(self) -> str:
        known = ", ".join(f"{name}={value!r}" for name, value in vars(self).items() if value is not None)
        return f"{type(self).__name__}({known})"


@dataclass(frozen=True, repr=False)
class TourVerdict(Verdict):
    """The verdict of `check`: the number of cities and the length of the tour, or the first fault of the list.

        WrongCount      the list has `read` cities instead of `wanted`
        OutOfRange      the city at this place is not a city of the problem
        RepeatedCity    the city at this place also occurs at an earlier place
    """

    LINES = {
        None: "tour of {cities} cities, length {length}",
        "WrongCount": "wrong count: {wanted} wanted, {read} read",
        "OutOfRange": "out of range at place {place}: {city}",
        "RepeatedCity": "repeated city at place {place}: {city}",
    }

    cities: Optional[int] = None
    length: Optional[int] = None
    wanted: Optional[int] = None
    read: Optional[int] = None
    place: Optional[int] = None
    city: Optional[int] = None


@dataclass(frozen=True, repr=False)
class RouteVerdict(Verdict):
    """The verdict of `check_solution`: the number of routes and their cost, or their first fault.

        BadCustomer     this route contains a customer that is not in the problem
        ServedTwice     this customer is in the routes twice
        OverCapacity    the load of this route exceeds the capacity
        NotServed       this customer is not on any route
        WrongCost       the solution states the cost `read`, but the cost is `counted`
    """

    LINES = {
        None: "{routes} routes, cost {cost}",
        "BadCustomer": "bad customer in route {route}: {customer}",
        "ServedTwice": "customer served twice: {customer}",
        "OverCapacity": "over capacity in route {route}: {load}",
        "NotServed": "customer not served: {customer}",
        "WrongCost": "wrong cost: {read} read, {counted} counted",
    }

    routes: Optional[int] = None
    cost: Optional[int] = None
    route: Optional[int] = None
    customer: Optional[int] = None
    load: Optional[int] = None
    read: Optional[int] = None
    counted: Optional[int] = None


def numbers_in(line: str, form: str) -> Optional[Dict[str, Any]]:
    """The numbers in a line, by their names in a form; `None` if the line does not match the form."""
    found = re.fullmatch(re.sub(r"\{(\w+)\}", r"(?P<\1>\\d+)", form), line)
    return {name: int(value) for name, value in found.groupdict().items()} if found else None


def verdict_in(line: bytes, *kinds: Type[V]) -> V:
    """The verdict that a line reports. It is of one of these kinds."""
    told = line.decode().rstrip("\n")
    for kind in kinds:
        for fault, form in kind.LINES.items():
            numbers = numbers_in(told, form)
            if numbers is not None:
                return kind(fault is None, fault, **numbers)
    raise ValueError(f"not the line of a verdict: {told}")
