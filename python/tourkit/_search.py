"""Searches: calls of the library, for all runs at once or for each run by itself."""

from __future__ import annotations

import ctypes
import dataclasses
from functools import partial
from typing import Any, Dict, Optional, Tuple, Union

from ._claims import tour_text
from ._library import RouteOptions, SearchOptions
from ._problem import Problem
from ._results import Routes, RouteStart, Tour, result_of
from ._text import Text
from ._threads import Pool
from ._writing import write_texts

Options = Union[SearchOptions, RouteOptions]
Found = Union[Tour, Routes]
Result = Tuple[int, Found]

SEEDS = 2**32

# The maximum number of bytes of the lines of a search, of the line of a run, and of the text of a tour or of routes. If there were more,
# the search would be repeated.
LINES = 4096
LINE = 256
TEXT = 1 << 22

# A search with fewer trials takes less than a second or two, so its runs need not be known when it is interrupted.
LONG = 50_000

# If there are fewer trials than a quarter of the cities, a run may take less time than its preparation.
FEW = 4

# The number of trials of a search between routes for each node, unless the caller specifies the number of trials.
TRIALS_PER_NODE = 10

# The maximum number of runs for each thread that are in progress or ready to start.
AHEAD = 2


def search(name: str, problem: Text, start: Text, options: Options) -> Tuple[bytes, bytes]:
    """Makes the search of this function of the library with these options. Returns the lines that the program prints, and the text of the
    tour or the routes."""
    words = [*problem.words, *start.words, ctypes.byref(options)]
    _, (lines, text) = write_texts(name, [problem, start], words, [LINES + LINE * options.runs, TEXT])
    return lines, text


class ForTours:
    """Searches for a tour, or for routes that are improved each by itself, with these options apart from `runs`, `seed` and `from_tour`."""

    def __init__(self, problem: Problem, options: Dict[str, Any]) -> None:
        self._problem, self._options = problem, options

    def can_split(self, runs: int, jobs: int, start: Optional[Text]) -> bool:
        """Whether each run can be made by itself, and whether this is worthwhile."""
        if self._problem.kind == "cvrp":
            return False
        size = self._problem.size
        trials: int = self._options["trials"] or size
        if jobs == 1 and trials * runs < LONG:
            return False
        return FEW * trials >= size or (jobs > 1 and not self._needs_tours(start))

    def _needs_tours(self, start: Optional[Text]) -> bool:
        """Whether each run starts from a nearest-neighbour tour of its own."""
        savings: bool = self._options["savings"]
        return start is None and not savings

    def start_of(self, run: int, start: Optional[Text]) -> Optional[Text]:
        """The initial tour of a run; `None` if the library constructs it. Run j starts from the nearest-neighbour tour of city j, and after
        the last city, from that of city 1 again."""
        before = (run - 1) % self._problem.size
        if before == 0 or not self._needs_tours(start):
            return start
        return Text(tour_text(self._problem._nearest_tour(before + 1), "initial_tour"), "tour")

    def found(self, runs: int, seed: int, start: Optional[Text]) -> Found:
        """The result of some runs, by one call of the library."""
        options = SearchOptions(runs=runs, seed=seed, from_tour=start is not None, **self._options)
        told, text = search("tourkit_search", self._problem._source, start or Text(b"", "tour"), options)
        return result_of(told, text, self._problem)


class BetweenRoutes:
    """Searches between the routes of a CVRP, with these options apart from `runs`, `seed` and `from_solution`."""

    def __init__(self, problem: Problem, options: Dict[str, Any]) -> None:
        self._problem, self._options = problem, options

    def can_split(self, runs: int, jobs: int, start: Optional[Text]) -> bool:
        """Whether each run can be made by itself, and whether this is worthwhile. With one customer, there are no runs."""
        size = self._problem.size
        trials: int = self._options["trials"] or TRIALS_PER_NODE * size
        return size > 2 and (jobs > 1 or trials * runs >= LONG)

    def start_of(self, run: int, start: Optional[Text]) -> Optional[Text]:
        """The initial solution of a run; `None` if the library makes savings routes. All runs begin with the same routes."""
        return start

    def found(self, runs: int, seed: int, start: Optional[Text]) -> Found:
        """The result of some runs, by one call of the library."""
        options = RouteOptions(runs=runs, seed=seed, from_solution=start is not None, **self._options)
        told, text = search("tourkit_solve_routes", self._problem._source, start or Text(b"", "solution"), options)
        return result_of(told, text, self._problem)


class Search:
    """The searches of a call of `solve`: one for each piece."""

    def __init__(self, how: Union[ForTours, BetweenRoutes], runs: int, jobs: int) -> None:
        self._how, self._runs, self._jobs = how, runs, jobs
        self._pool = Pool[Result](jobs)
        self._before: Tuple[Any, ...] = ()
        self._began: Optional[RouteStart] = None
        self._found: Dict[int, Any] = {}
        self._best: Tuple[int, Optional[Found]] = (0, None)

    def __enter__(self) -> Search:
        return self

    def __exit__(self, error: object, *_: object) -> None:
        self._pool.end(waits=error is None)

    @property
    def best(self) -> Optional[Found]:
        """The best tour of the runs that have been made, or the best routes; `None` if there are none yet."""
        best = self._best[1]
        if best is None:
            return None
        found = [dataclasses.replace(run, run=len(self._before) + number) for number, run in sorted(self._found.items())]
        runs = (*self._before, *found)
        if isinstance(best, Tour):
            return dataclasses.replace(best, runs=runs)
        return dataclasses.replace(best, runs=runs, start=self._began or best.start)

    def make(self, seed: int, start: Optional[Text]) -> Found:
        """Makes the runs with the seeds from this one on. Returns the best of them, with the runs made before."""
        best = self.best
        self._before, self._found = best.runs if best else (), {}
        self._began = best.start if isinstance(best, Routes) else None
        try:
            if self._runs > 1 and seed + self._runs <= SEEDS and self._how.can_split(self._runs, self._jobs, start):
                self._make_each(seed, start)
            else:
                self._make_all(seed, start)
        except MemoryError:
            self._pool.end(waits=False)
            self._pool = Pool[Result](self._jobs)
            self._found, self._best = {}, (0, best)
            self._make_all(seed, start)
        found = self.best
        assert found
        return found

    def _make_all(self, seed: int, start: Optional[Text]) -> None:
        """Makes all runs by one call of the library."""
        self._pool.start(partial(self._searched, 1, self._runs, seed, start))
        _, found = self._pool.result()
        self._found = dict(enumerate(found.runs, 1))
        self._best = (1, found)

    def _make_each(self, seed: int, start: Optional[Text]) -> None:
        """Makes each run by itself, in threads. The result is that of one search: the best of the first run with the minimum length."""
        for run in range(1, self._runs + 1):
            if run - len(self._found) > AHEAD * self._jobs:
                self._take(*self._pool.result())
            self._pool.start(partial(self._searched, run, 1, seed + run - 1, start))
        while len(self._found) < self._runs:
            self._take(*self._pool.result())

    def _take(self, run: int, found: Found) -> None:
        """Adds the result of a run."""
        number, best = self._best
        is_first = not self._found or best is None
        self._found[run] = found.runs[0]
        if is_first or best is None or (found.length, run) < (best.length, number):
            self._best = (run, found)

    def _searched(self, run: int, runs: int, seed: int, start: Optional[Text]) -> Result:
        """Makes some runs by one call of the library. Returns the number of the first one and the result."""
        return run, self._how.found(runs, seed, self._how.start_of(run, start))
