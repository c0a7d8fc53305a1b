"""Pictures of problems, tours and routes."""

from __future__ import annotations

import re
from dataclasses import dataclass, field
from html import unescape
from typing import Any, Iterable, Optional, Union

from ._arguments import items_of
from ._checks import verdict_on_list, verdict_on_lists
from ._claims import Claim, claimed_text, refused_list, routes_of, solution_text, tour_text
from ._library import FOUND
from ._problem import Problem, problem_of
from ._refused import Refused
from ._text import ACCEPTED, Bytes, File, Text
from ._verdicts import RouteVerdict, TourVerdict, Verdict, verdict_in
from ._writing import LINE, write_texts

# The maximum number of bytes of a picture and of a page without the cities, and of a city in them.
FRAME, PAGE_FRAME = 8192, 65536
CITY, PAGE_CITY = 64, 256


@dataclass(frozen=True)
class Picture:
    """A picture: its title, the text of an SVG file and, if it was requested, that of an HTML page. Notebooks display it."""

    title: str
    svg: bytes = field(repr=False)
    html: Optional[bytes] = field(default=None, repr=False)

    def _repr_svg_(self) -> str:
        return self.svg.decode()


def plot(problem: Union[Problem, File, Bytes], claim: Optional[Claim] = None, *, html: bool = False) -> Picture:
    """Draws the cities of a problem, and a tour or the routes of a solution, which are checked first. With `html`, the picture also has an
    HTML page, as `tourkit plot --html` prints it.

        >>> tourkit.plot("tri.tsp", [1, 2, 3])
        Picture(title='tri: tour of 3 cities, length 12')
    """
    asked = problem_of(problem)
    text = Text(b"", "claim") if claim is None else claimed_text(claim, "claim") or listed_text(asked, claim)
    svg = drawn("tourkit_plot", asked, text, claim is not None, FRAME + CITY * asked._guess_size())
    page = drawn("tourkit_page", asked, text, claim is not None, PAGE_FRAME + PAGE_CITY * asked._guess_size()) if html else None
    title = re.search(rb"<title>(.*)</title>", svg)
    return Picture(unescape(title[1].decode()) if title else "", svg, page)


def drawn(name: str, problem: Problem, claim: Text, has_claim: bool, size: int) -> bytes:
    """The text that a function writes which draws a problem with a tour or routes."""
    words = (*problem._source.words, *claim.words, has_claim)
    answer, (text, line) = write_texts(name, [problem._source, claim], words, [size, LINE], message=1)
    if answer.status == FOUND:
        verdict: Verdict = verdict_in(line, TourVerdict, RouteVerdict)
        raise Refused(str(verdict), None, verdict.fault, None, claim.file)
    return text


def listed_text(problem: Problem, claim: Any) -> Text:
    """The text of a list of cities, or of a list of routes, which must not have a fault."""
    listed = items_of("claim", claim, ACCEPTED["claim"])
    if listed and all(isinstance(route, Iterable) for route in listed):
        routes = routes_of(listed, "claim")
        served = verdict_on_lists(problem, routes, "claim")
        if not served:
            raise refused_list("claim", served)
        return Text(solution_text(routes, "claim", served.cost or 0), "claim")
    tour = verdict_on_list(problem, listed, "claim")
    if not tour:
        raise refused_list("claim", tour)
    return Text(tour_text(listed, "claim"), "claim")
