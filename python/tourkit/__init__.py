"""Reads, checks, solves and draws symmetric travelling salesman problems and capacitated vehicle routing problems.

A problem, a tour or a solution is a file (`str` or `os.PathLike`), the text of a file (`bytes`), or an object of this package. A tour can
also be a list of cities, and routes a list of lists of customers. Cities and customers are numbered from 1.

    >>> import tourkit
    >>> print(tourkit.check("tri.tsp", [1, 2, 3]))
    tour of 3 cities, length 12

All reading, computing and searching is done by `libtourkit.so`, which is part of this package. Calls may run in parallel threads.
"""

from ._arrays import distances, near
from ._checks import check, check_solution
from ._explaining import explain
from ._library import require_version
from ._matrix import matrix
from ._pictures import Picture, plot
from ._problem import CVRP, TSP, Problem
from ._reading import read_solution, read_tour
from ._refused import Refused
from ._results import RouteRun, Routes, RouteStart, Run, Tour
from ._solve import Interrupted, solve
from ._verdicts import RouteVerdict, TourVerdict

__version__ = "0.1.0"
require_version(__version__)

__all__ = [
    "CVRP",
    "Interrupted",
    "Picture",
    "Problem",
    "Refused",
    "RouteRun",
    "RouteStart",
    "RouteVerdict",
    "Routes",
    "Run",
    "TSP",
    "Tour",
    "TourVerdict",
    "check",
    "check_solution",
    "distances",
    "explain",
    "matrix",
    "near",
    "plot",
    "read_solution",
    "read_tour",
    "solve",
]
