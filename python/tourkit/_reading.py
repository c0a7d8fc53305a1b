"""The contents of tour and solution files as lists."""

from __future__ import annotations

import re
from typing import List, Union

from ._files import CVRP, TSP
from ._library import call
from ._text import Bytes, File, Text, text_of
from ._writing import LINE, filled, write_texts

# The line of a route in an accepted solution.
ROUTE = re.compile(rb"^[ \t\r]*Route\b[^:\n]*:(.*)$", re.IGNORECASE | re.MULTILINE)


def read_tour(file: Union[File, Bytes]) -> List[int]:
    """The cities of a tour file, as `check` accepts them. They might not be a tour.

        >>> tourkit.read_tour("twice.tour")
        [1, 2, 2, 4]
    """
    text = accepted(text_of(file, "tour", "file"), "tourkit_check", TSP)
    return filled("I", 0, lambda *out: call("tourkit_tour_cities", *text.words, *out)).tolist()


def read_solution(file: Union[File, Bytes]) -> List[List[int]]:
    """The customers of each route of a solution file, as `check_solution` accepts them. The stated cost is left out.

        >>> tourkit.read_solution("bakery-plan.sol")[0]
        [2, 20, 21, 18, 28, 9, 5, 27]
    """
    text = accepted(text_of(file, "solution", "file"), "tourkit_checksol", CVRP)
    return [list(map(int, route.split())) for route in ROUTE.findall(text.data)]


def accepted(text: Text, name: str, problem: bytes) -> Text:
    """A text that a function of the library reads together with a problem. Raises `Refused` if it has a fault."""
    texts = [Text(problem, "problem"), text]
    write_texts(name, texts, [word for part in texts for word in part.words], [LINE])
    return text
