"""The results of a search."""

from __future__ import annotations

import re
from dataclasses import dataclass, field
from typing import List, Optional, Tuple, Union

from ._problem import Problem

# The lines that the program prints for the runs of searches, for the routes that a search begins with, and for the improvement of each
# route by itself.
RUN = re.compile(rb"run (\d+): start (\d+), best (\d+), trials (\d+), moves (\d+), tests (\d+), swaps (\d+)\n")
ROUTE_RUN = re.compile(rb"run (\d+): start (\d+), best (\d+), routes (\d+), trials (\d+), moves (\d+), tests (\d+), swaps (\d+)\n")
START = re.compile(rb"(?:savings|initial) (\d+), routes (\d+)(?:, candidates (\d+))?\n")
IMPROVED = re.compile(rb"improved (\d+), moves (\d+), tests (\d+), swaps (\d+)\n")


@dataclass(frozen=True)
class Run:
    """A run of a search: the length of its starting tour, its best length, and the numbers of trials, moves, gain tests and swaps."""

    run: int
    start: int
    best: int
    trials: int
    moves: int
    tests: int
    swaps: int


@dataclass(frozen=True)
class Tour:
    """The best tour of a search: its length, its cities, and the runs of the search. `text` is a tour file."""

    length: int
    cities: List[int] = field(repr=False)
    runs: Tuple[Run, ...] = field(repr=False)
    text: bytes = field(repr=False)

    def __str__(self) -> str:
        return f"tour of {len(self.cities)} cities, length {self.length}"


@dataclass(frozen=True)
class RouteRun:
    """A run of a search for routes: the cost of the routes that it began with, its best cost, the number of these routes, and the numbers of
    trials, moves, gain tests and swaps."""

    run: int
    start: int
    best: int
    routes: int
    trials: int
    moves: int
    tests: int
    swaps: int


@dataclass(frozen=True)
class RouteStart:
    """The routes that a search began with: their cost, their number, and the length of the near lists that the savings routes were made
    with. It is `None` for an initial solution, and if each route is improved by itself."""

    cost: int
    routes: int
    candidates: Optional[int]


@dataclass(frozen=True)
class Routes:
    """The routes of a search: their cost, the customers of each, these customers by their city numbers, the routes that the search began
    with, and its runs. `text` is a solution file. `length` is the cost, so that tours and routes can be compared by it.

    Customer k is the k-th city that is not the depot, so it is city k + 1 if the depot is city 1. If each route was improved by itself, the
    improvement is the only run, without trials.
    """

    cost: int
    customers: List[List[int]] = field(repr=False)
    cities: List[List[int]] = field(repr=False)
    start: RouteStart = field(repr=False)
    runs: Tuple[RouteRun, ...] = field(repr=False)
    text: bytes = field(repr=False)

    @property
    def length(self) -> int:
        """The cost of the routes."""
        return self.cost

    def __str__(self) -> str:
        return f"{len(self.customers)} routes, cost {self.cost}"


def result_of(lines: bytes, text: bytes, problem: Problem) -> Union[Tour, Routes]:
    """The result of a search, from the lines and the file of the program."""
    start = START.search(lines)
    if not start:
        return tour_of(lines, text)
    cost, routes, candidates = start.groups()
    began = RouteStart(int(cost), int(routes), candidates and int(candidates))
    return routes_of(text, problem.depot or 1, began, runs_of(lines, began))


def tour_of(lines: bytes, text: bytes) -> Tour:
    """The best tour, with the runs that these lines report."""
    runs = tuple(Run(*map(int, numbers)) for numbers in RUN.findall(lines))
    listed = text.partition(b"\nTOUR_SECTION\n")[2].partition(b"\n-1\n")[0]
    return Tour(min(run.best for run in runs), list(map(int, listed.split())), runs, text)


def runs_of(lines: bytes, start: RouteStart) -> Tuple[RouteRun, ...]:
    """The runs of a search for routes that these lines report. The improvement of each route by itself is one."""
    improved = IMPROVED.search(lines)
    if improved:
        cost, *work = map(int, improved.groups())
        return (RouteRun(1, start.cost, cost, start.routes, 0, *work),)
    return tuple(RouteRun(*map(int, numbers)) for numbers in ROUTE_RUN.findall(lines))


def routes_of(text: bytes, depot: int, start: RouteStart, runs: Tuple[RouteRun, ...]) -> Routes:
    """The routes of a solution, with the start and the runs of their search."""
    listed = re.findall(rb"^Route #\d+:(.*)$", text, re.MULTILINE)
    customers = [list(map(int, route.split())) for route in listed]
    cities = [[customer + (customer >= depot) for customer in route] for route in customers]
    return Routes(min([start.cost, *(run.best for run in runs)]), customers, cities, start, runs, text)
