"""Problems with all their distances, as texts."""

from __future__ import annotations

from typing import Union

from ._limits import TABLE_LIMIT
from ._problem import Problem, problem_of
from ._text import Bytes, File
from ._writing import write_texts

# The maximum number of bytes of the lines before the numbers, and of a number with the blank after it.
HEADER = 4096
NUMBER = 11


def matrix(problem: Union[Problem, File, Bytes]) -> bytes:
    """The problem as a TSPLIB file that lists every distance, in the format FULL_MATRIX. The problem can have at most 5,000 cities."""
    asked = problem_of(problem)
    n = min(asked._guess_size(), TABLE_LIMIT)
    _, (text,) = write_texts("tourkit_matrix", [asked._source], asked._source.words, [HEADER + NUMBER * n * n])
    return text
