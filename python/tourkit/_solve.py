"""The search for short tours and short routes."""

from __future__ import annotations

from typing import Any, Callable, Dict, Iterable, Optional, Sequence, Union, overload

from ._arguments import items_of, text_argument, within
from ._checks import verdict_on_list, verdict_on_lists
from ._claims import claimed_text, refused_list, routes_of, solution_text, tour_text
from ._limits import CANDIDATE_LIMIT
from ._problem import CVRP, TSP, Problem, problem_of
from ._refused import Refused
from ._results import Routes, Tour
from ._search import SEEDS, BetweenRoutes, ForTours, Search
from ._text import ACCEPTED, Bytes, File, Text

Start = Union[File, Bytes, Tour, Iterable[int], None]
RoutesToStart = Union[File, Bytes, Routes, Iterable[Sequence[int]], None]

CONSTRUCTIONS = ("NEAREST", "SAVINGS")

# The arguments that apply only to a TSP, and those that apply only to a CVRP.
FOR_TOURS = ("initial_tour", "construction")
FOR_ROUTES = ("initial_solution", "within_routes")

# The maximum numbers of runs and of trials.
RUN_LIMIT = 10_000
TRIAL_LIMIT = 1_000_000

# The default numbers of runs and of candidates: of a search for a tour, and of a search between routes.
TOUR_RUNS, TOUR_CANDIDATES = 10, 5
ROUTE_RUNS, ROUTE_CANDIDATES = 1, 12


class Interrupted(KeyboardInterrupt):
    """Reports that an interrupt (Ctrl-C) has ended a search. `best` is the best tour of the runs that have been made, or the best routes; or
    `None`."""

    __module__ = "tourkit"  # the module that tracebacks name

    def __init__(self, best: Union[Tour, Routes, None]) -> None:
        super().__init__(best)
        self.best = best

    def __str__(self) -> str:
        return "no run has been made" if self.best is None else f"best: {self.best}"


@overload
def solve(
    problem: TSP,
    *,
    seed: int = 1,
    trials: Optional[int] = None,
    runs: Optional[int] = None,
    candidates: Optional[int] = None,
    construction: Optional[str] = None,
    initial_tour: Start = None,
    final_sweep: bool = False,
    or_segment: int = 3,
    pieces: int = 1,
    jobs: int = 1,
    progress: Optional[Callable[[Tour], Any]] = None,
) -> Tour: ...


@overload
def solve(
    problem: CVRP,
    *,
    seed: int = 1,
    trials: Optional[int] = None,
    runs: Optional[int] = None,
    candidates: Optional[int] = None,
    initial_solution: RoutesToStart = None,
    within_routes: bool = False,
    final_sweep: bool = False,
    or_segment: int = 3,
    pieces: int = 1,
    jobs: int = 1,
    progress: Optional[Callable[[Routes], Any]] = None,
) -> Routes: ...


@overload
def solve(
    problem: Union[Problem, File, Bytes],
    *,
    seed: int = 1,
    trials: Optional[int] = None,
    runs: Optional[int] = None,
    candidates: Optional[int] = None,
    construction: Optional[str] = None,
    initial_tour: Start = None,
    initial_solution: RoutesToStart = None,
    within_routes: bool = False,
    final_sweep: bool = False,
    or_segment: int = 3,
    pieces: int = 1,
    jobs: int = 1,
    progress: Optional[Callable[[Union[Tour, Routes]], Any]] = None,
) -> Union[Tour, Routes]: ...


def solve(
    problem: Union[Problem, File, Bytes],
    *,
    seed: int = 1,
    trials: Optional[int] = None,
    runs: Optional[int] = None,
    candidates: Optional[int] = None,
    construction: Optional[str] = None,
    initial_tour: Start = None,
    initial_solution: RoutesToStart = None,
    within_routes: bool = False,
    final_sweep: bool = False,
    or_segment: int = 3,
    pieces: int = 1,
    jobs: int = 1,
    progress: Optional[Callable[[Any], Any]] = None,
) -> Union[Tour, Routes]:
    """Searches for a short tour, or for short routes of a CVRP. docs/PARAMETERS.md describes the effect of each option on time and quality.

    The search is deterministic, and the same as that of the program with the same options. By default, a search for a tour makes 10 runs of
    as many trials as there are cities, with 5 candidates; a search for routes makes 1 run of 10 trials for each node, with 12 candidates.
    `jobs` is the number of runs that are made at the same time, in threads; it does not affect the result.

    `construction` and `initial_tour` apply only to a TSP, `initial_solution` and `within_routes` only to a CVRP. With `within_routes`, each
    savings route is improved by itself, as a parameter file does it.

    A long search can be split into `pieces`. Each makes the given runs and trials, starts from the best tour or routes of the previous piece
    and uses the next seeds. After each piece, `progress` is called with the best so far; if it returns `False`, the search ends. With
    `within_routes`, there is only one piece.

    An interrupt (Ctrl-C) ends the search at once, by an `Interrupted` with the best tour or routes of the runs made so far.

        >>> tourkit.solve("board.tsp", runs=1, trials=500)
        Tour(length=71741)
    """
    asked = problem_of(problem)
    given = {"initial_tour": initial_tour, "construction": construction, "initial_solution": initial_solution}
    require_fit(asked, {**given, "within_routes": within_routes or None})
    if within_routes and initial_solution is not None:
        raise ValueError("initial_solution cannot be used with within_routes")
    start = solution_to_start(asked, initial_solution) if asked.kind == "cvrp" else tour_to_start(asked, initial_tour)
    if progress is not None and not callable(progress):
        raise TypeError(f"progress must be a function, not {type(progress).__name__}")
    between = asked.kind == "cvrp" and not within_routes
    first, count = within("seed", seed, 0, SEEDS - 1), run_count(runs, between)
    options = {
        "trials": 0 if trials is None else within("trials", trials, 1, TRIAL_LIMIT),
        "candidates": candidate_count(candidates, between),
        "or_segment": within("or_segment", or_segment, 1, 3),
        "final_sweep": bool(final_sweep),
    }
    how = BetweenRoutes(asked, options) if between else ForTours(asked, {**options, "savings": is_savings(construction)})
    number = within("pieces", pieces, 1, SEEDS)
    search = Search(how, count, within("jobs", jobs, 1, RUN_LIMIT))
    try:
        with search:
            for piece in range(1 if within_routes else number):
                best = search.make((first + piece * count) % SEEDS, start)
                if progress and progress(best) is False:
                    break
                start = Text(best.text, "tour" if isinstance(best, Tour) else "solution")
    except KeyboardInterrupt:
        raise Interrupted(search.best) from None
    return best


def require_fit(problem: Problem, given: Dict[str, Any]) -> None:
    """Checks that the arguments that are given apply to the type of the problem."""
    for name in FOR_TOURS if problem.kind == "cvrp" else FOR_ROUTES:
        if given[name] is not None:
            source = problem._source
            raise Refused(f"{source.where}: {name} does not fit the problem's type", None, "NotForType", None, source.file)


def run_count(runs: Optional[int], between: bool) -> int:
    """The number of runs."""
    default = ROUTE_RUNS if between else TOUR_RUNS
    return default if runs is None else within("runs", runs, 1, RUN_LIMIT)


def candidate_count(candidates: Optional[int], between: bool) -> int:
    """The maximum length of the near lists."""
    default = ROUTE_CANDIDATES if between else TOUR_CANDIDATES
    return default if candidates is None else within("candidates", candidates, 1, CANDIDATE_LIMIT)


def tour_to_start(problem: Problem, initial_tour: Any) -> Optional[Text]:
    """The text of the initial tour, if there is one. A list must be a tour of the problem."""
    if initial_tour is None:
        return None
    text = claimed_text(initial_tour, "tour")
    if text:
        return text
    listed = items_of("initial_tour", initial_tour, ACCEPTED["initial_tour"])
    verdict = verdict_on_list(problem, listed, "initial_tour")
    if not verdict:
        raise refused_list("initial_tour", verdict)
    return Text(tour_text(listed, "initial_tour"), "tour")


def solution_to_start(problem: Problem, initial_solution: Any) -> Optional[Text]:
    """The text of the initial solution, if there is one. Lists of customers must be valid routes of the problem; the text states their
    cost."""
    if initial_solution is None:
        return None
    text = claimed_text(initial_solution, "solution")
    if text:
        return text
    listed = routes_of(initial_solution, "initial_solution")
    verdict = verdict_on_lists(problem, listed, "initial_solution")
    if not verdict:
        raise refused_list("initial_solution", verdict)
    return Text(solution_text(listed, "initial_solution", verdict.cost or 0), "solution")


def is_savings(construction: Optional[str]) -> bool:
    """Whether starting tours are constructed by the savings algorithm; otherwise by nearest neighbours."""
    name = "NEAREST" if construction is None else text_argument("construction", construction).upper()
    if name not in CONSTRUCTIONS:
        raise ValueError(f"construction must be one of {' and '.join(CONSTRUCTIONS)}, not {construction!r}")
    return name == "SAVINGS"
