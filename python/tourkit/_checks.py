"""Checks of tours and of routes."""

from __future__ import annotations

from typing import Any, Iterable, Sequence, Type, Union

from ._claims import as_in_texts, cities_of, claimed_text, routes_of, solution_text
from ._library import FOUND, input_slice
from ._problem import Problem, problem_of
from ._results import Routes, Tour
from ._text import Bytes, File, Text
from ._verdicts import RouteVerdict, TourVerdict, V, verdict_in
from ._writing import LINE, write_texts

# The faults of a list, by their numbers in `tourkit.h`.
FAULTS = {20: "WrongCount", 21: "OutOfRange", 22: "RepeatedCity"}


def check(
    problem: Union[Problem, File, Bytes],
    tour: Union[File, Bytes, Tour, Iterable[int]],
) -> TourVerdict:
    """Checks that a list of cities is a tour of the problem, and measures the tour. For a CVRP, the tour must visit all nodes.

        >>> tourkit.check("square.tsp", "twice.tour")
        TourVerdict(valid=False, fault='RepeatedCity', place=3, city=2)
    """
    asked = problem_of(problem)
    text = claimed_text(tour, "tour")
    return verdict_on("tourkit_check", TourVerdict, asked, text) if text else verdict_on_list(asked, tour)


def verdict_on_list(problem: Problem, tour: Any, name: str = "tour") -> TourVerdict:
    """The verdict on a list of cities, which is the argument of this name."""
    cities, given = cities_of(tour, name)
    answer = problem._call("check", *input_slice(cities.tobytes(), cities.typecode))
    if answer.status != FOUND:
        return TourVerdict(True, cities=len(cities), length=answer.length)
    fault = FAULTS[answer.kind]
    if fault == "WrongCount":
        return TourVerdict(False, fault, wanted=problem.size, read=len(cities))
    return TourVerdict(False, fault, place=answer.place, city=int(given[answer.place - 1]))


def check_solution(
    problem: Union[Problem, File, Bytes],
    solution: Union[File, Bytes, Routes, Iterable[Sequence[int]]],
) -> RouteVerdict:
    """Checks that routes serve each customer of a CVRP once, within the capacity and at the stated cost.

    A list of lists of customers states no cost, so only the routes are checked.

        >>> tourkit.check_solution("bakery.vrp", "bakery-plan.sol")
        RouteVerdict(valid=True, routes=7, cost=11071)
    """
    asked = problem_of(problem)
    text = claimed_text(solution, "solution")
    return verdict_on("tourkit_checksol", RouteVerdict, asked, text) if text else verdict_on_lists(asked, solution)


def verdict_on_lists(problem: Problem, routes: Any, name: str = "solution") -> RouteVerdict:
    """The verdict on lists of customers, the argument of this name. The cost is checked last, so if it is reported as wrong, there is no
    other fault."""
    listed = routes_of(routes, name)
    found = verdict_on("tourkit_checksol", RouteVerdict, problem, Text(solution_text(listed, name), "solution"))
    if found.fault == "WrongCost":
        return RouteVerdict(True, routes=sum(1 for route in listed if route), cost=found.counted)
    if found.fault == "BadCustomer" and found.route:
        bad = next(customer for customer in listed[found.route - 1] if as_in_texts(customer) == found.customer)
        return RouteVerdict(False, found.fault, route=found.route, customer=bad)
    return found


def verdict_on(name: str, kind: Type[V], problem: Problem, claim: Text) -> V:
    """The verdict that a function of the library returns on a text."""
    _, (line,) = write_texts(name, [problem._source, claim], (*problem._source.words, *claim.words), [LINE])
    return verdict_in(line, kind)
