"""Cities with distances."""

from __future__ import annotations

import functools
from array import array
from typing import Any, Iterable, Iterator, List, Sequence, Tuple, Union

from ._arguments import integers, items_of, require_items
from ._library import input_slice
from ._limits import DISTANCE_LIMIT, TABLE_LIMIT


def rows_in(matrix: Any) -> Iterator[List[Any]]:
    """The rows of a matrix, one after another, as copies."""
    if isinstance(matrix, memoryview) and matrix.ndim == 2:
        matrix = rows_of_view(matrix)
    require_items("matrix", matrix, "a list of rows")
    for number, row in enumerate(matrix, 1):
        yield items_of(f"matrix: row {number}", row, "a list of numbers")


def rows_of_view(matrix: memoryview) -> Iterator[memoryview]:
    """The rows of a memoryview with two dimensions, which may be in any order in memory."""
    if matrix.nbytes == 0:
        return
    flat = matrix if matrix.c_contiguous else memoryview(matrix.tobytes())
    numbers, width = flat.cast("B").cast(matrix.format), matrix.nbytes // matrix.itemsize // len(matrix)
    for start in range(0, len(numbers), width):
        yield numbers[start : start + width]


def read_matrix(matrix: Any) -> Tuple[int, array[int]]:
    """The number of rows of a matrix, and its numbers. Those on the diagonal are ignored."""
    size, width, numbers = 0, 0, array("I")
    for size, row in enumerate(rows_in(matrix), 1):
        width = width or len(row)
        if len(row) != width or not size <= width <= TABLE_LIMIT:
            raise ValueError(f"matrix must have as many columns as rows, 2 to {TABLE_LIMIT:,}, but row {size} has {len(row):,} columns")
        row[size - 1] = 0
        numbers.extend(integers(row, DISTANCE_LIMIT, functools.partial(distance_of, size)))
    if size < 2 or size != width:
        raise ValueError(f"matrix must have as many columns as rows, 2 to {TABLE_LIMIT:,}, but it has {size} rows of {width:,} columns")
    return size, numbers


def distance_of(city: int, index: int) -> str:
    """The number at an index of the row of a city, in words."""
    return f"matrix: distance of {city} and {index + 1}"


# Matrices with a row for each city: lists of lists, numpy arrays, or memoryviews with two dimensions.
Matrix = Union[Iterable[Sequence[int]], memoryview]


class Weights:
    """Cities with distances: the lower triangle of a matrix row by row, without its diagonal."""

    form = "weights"
    kind = "EXPLICIT"

    def __init__(self, matrix: Matrix) -> None:
        n, numbers = read_matrix(matrix)
        self.size = n
        lower = array("I")
        for city in range(1, n):
            row, column = numbers[city * n : city * n + city], numbers[city : city * n : n]
            if row != column:
                other = next(other for other in range(city) if row[other] != column[other])
                there, back = column[other], row[other]
                raise ValueError(f"the matrix is not symmetric: {there} from city {other + 1} to city {city + 1}, but {back} back")
            lower.extend(row)
        self._lower = lower.tobytes()

    @property
    def words(self) -> Tuple[Any, ...]:
        """The arguments of functions on weights."""
        return (self.size, *input_slice(self._lower, "I"))

    def sections(self) -> str:
        """The lines of a problem file."""
        lower = array("I", self._lower)
        starts = (city * (city - 1) // 2 for city in range(1, self.size))
        rows = (lower[start : start + city] for city, start in enumerate(starts, 1))
        lines = "".join(" ".join(map(str, row)) + "\n" for row in rows)
        return f"EDGE_WEIGHT_TYPE : EXPLICIT\nEDGE_WEIGHT_FORMAT : LOWER_ROW\nEDGE_WEIGHT_SECTION\n{lines}"
