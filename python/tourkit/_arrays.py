"""Near lists and distances as arrays."""

from __future__ import annotations

import math
from typing import List, Union

from ._arguments import within
from ._limits import CANDIDATE_LIMIT
from ._problem import Problem, problem_of
from ._text import Bytes, File
from ._writing import filled


def near(problem: Union[Problem, File, Bytes], k: int = 5) -> memoryview:
    """The near list of each city: its k nearest neighbours, the nearest first, or all other cities if there are fewer. k is 1 to 100.

    The result is an array of 32-bit integers with a row for each city, which `numpy.asarray` takes without a copy.

        >>> tourkit.near("square.tsp", k=2).tolist()
        [[3, 4], [3, 4], [1, 2], [1, 2]]
    """
    asked, k = problem_of(problem), within("k", k, 1, CANDIDATE_LIMIT)
    n = asked._guess_size()
    entries = filled("I", n * min(k, n - 1), lambda *out: asked._call("near", k, *out))
    return shaped(entries, near_shape(len(entries), k))


def distances(problem: Union[Problem, File, Bytes]) -> memoryview:
    """The distances of all pairs of n cities: that of cities a and b is at [a - 1, b - 1].

    The result is an array of 64-bit integers with n rows of n numbers, which `numpy.asarray` takes without a copy.

        >>> tourkit.distances("tri.tsp")[1, 2]
        5
    """
    asked = problem_of(problem)
    n = asked.size
    return shaped(filled("q", n * n, asked._write_distances), [n, n])


def near_shape(entries: int, k: int) -> List[int]:
    """The numbers of rows and columns of near lists with this many entries: k columns, or n - 1 for n rows if that is fewer."""
    n = entries // k
    if n <= k:
        n = (1 + math.isqrt(1 + 4 * entries)) // 2
    return [n, entries // n]


def shaped(numbers: memoryview, shape: List[int]) -> memoryview:
    """The numbers as an array of this shape."""
    return numbers.cast("B").cast(numbers.format, shape)
