"""Problems: a text, or cities with coordinates or distances."""

from __future__ import annotations

import functools
import re
from typing import Any, Dict, Iterable, Optional, Sequence, Tuple, Type, TypeVar, Union, overload

from ._arguments import text_argument
from ._info import NAME_LIMIT, Info, read_info
from ._library import REFUSED, Answer, call, output_slice
from ._limits import CITY_LIMIT
from ._points import Points
from ._refused import Refused
from ._room import room_for
from ._service import Service, given_service
from ._text import Bytes, File, Text, text_of
from ._weights import Matrix, Weights
from ._writing import LINE, filled, write_texts

# The line of a problem file that states the number of cities.
DIMENSION = re.compile(rb"^[ \t\r]*DIMENSION[ \t\r]*:?[ \t\r]*\+?(\d{1,18})\b", re.IGNORECASE | re.MULTILINE)

# The number of bytes that are searched for the DIMENSION line. A search of the whole text would take long.
HEAD = 1 << 16


P = TypeVar("P", bound="Problem")


class Problem:
    """A problem: a `TSP` or a `CVRP`. Functions of this package accept it instead of a file or a text.

        Problem("board.tsp")                            a file
        Problem(b"NAME : ...")                          a text
        Problem.from_points([(0, 0), (3, 4), (0, 8)])   cities with coordinates
        Problem.from_matrix([[0, 5], [5, 0]])           cities with distances
    """

    _given: Union[Text, Points, Weights]
    _name = "Unnamed"
    _given_service: Optional[Service] = None

    def __new__(cls: Type[P], given: Union[File, Bytes]) -> P:
        """The problem of a file or a text, which must be of the class that is called."""
        text = text_of(given, "problem")
        info = problem_of_text(text)._info
        kind: Type[Problem] = CVRP if info.kind == "cvrp" else TSP
        found = object.__new__(kind)
        found._given, found._info = text, info
        if isinstance(found, cls):
            return found
        raise Refused(f"{text.where}: not a {cls.__name__}", None, "WrongType", None, text.file)

    @overload
    @classmethod
    def from_points(
        cls,
        points: Iterable[Sequence[Any]],
        kind: str = "EUC_2D",
        *,
        name: str = "Unnamed",
        demands: None = None,
        capacity: None = None,
        depot: int = 1,
    ) -> TSP: ...

    @overload
    @classmethod
    def from_points(
        cls,
        points: Iterable[Sequence[Any]],
        kind: str = "EUC_2D",
        *,
        name: str = "Unnamed",
        demands: Iterable[int],
        capacity: int,
        depot: int = 1,
    ) -> CVRP: ...

    @overload
    @classmethod
    def from_points(
        cls,
        points: Iterable[Sequence[Any]],
        kind: str = "EUC_2D",
        *,
        name: str = "Unnamed",
        demands: Optional[Iterable[int]] = None,
        capacity: Optional[int] = None,
        depot: int = 1,
    ) -> Problem: ...

    @classmethod
    def from_points(
        cls,
        points: Iterable[Sequence[Any]],
        kind: str = "EUC_2D",
        *,
        name: str = "Unnamed",
        demands: Optional[Iterable[int]] = None,
        capacity: Optional[int] = None,
        depot: int = 1,
    ) -> Problem:
        """A problem of cities with coordinates. `kind` is the distance type: EUC_2D, CEIL_2D, MAN_2D, MAX_2D or ATT.

        The first point is city 1. A coordinate has the value that `str` prints, up to the ninth decimal place, as in a problem file.
        With the demands of all cities, including that of the depot, and a capacity, the problem is a CVRP.
        """
        cities = Points.given(points, kind)
        return cls._of(cities, name, given_service(demands, capacity, depot, cities.size))

    @overload
    @classmethod
    def from_matrix(
        cls,
        matrix: Matrix,
        *,
        name: str = "Unnamed",
        demands: None = None,
        capacity: None = None,
        depot: int = 1,
    ) -> TSP: ...

    @overload
    @classmethod
    def from_matrix(
        cls,
        matrix: Matrix,
        *,
        name: str = "Unnamed",
        demands: Iterable[int],
        capacity: int,
        depot: int = 1,
    ) -> CVRP: ...

    @overload
    @classmethod
    def from_matrix(
        cls,
        matrix: Matrix,
        *,
        name: str = "Unnamed",
        demands: Optional[Iterable[int]] = None,
        capacity: Optional[int] = None,
        depot: int = 1,
    ) -> Problem: ...

    @classmethod
    def from_matrix(
        cls,
        matrix: Matrix,
        *,
        name: str = "Unnamed",
        demands: Optional[Iterable[int]] = None,
        capacity: Optional[int] = None,
        depot: int = 1,
    ) -> Problem:
        """A problem of cities with distances: integers from 0 to 4,000,000,000, in a symmetric matrix.

        With the demands of all cities, including that of the depot, and a capacity, the problem is a CVRP.
        """
        cities = Weights(matrix)
        return cls._of(cities, name, given_service(demands, capacity, depot, cities.size))

    @classmethod
    def _of(cls, cities: Union[Points, Weights], name: str, service: Optional[Service]) -> Problem:
        """A problem of these cities. All arguments are checked here, so the library accepts the text of the problem."""
        kind: Type[Problem] = CVRP if service else TSP
        problem = object.__new__(kind)
        if not isinstance(problem, cls):
            raise ValueError("a TSP has neither demands nor capacity" if service else "a CVRP needs both demands and capacity")
        problem._given, problem._name, problem._given_service = cities, given_name(name), service
        return problem

    @property
    def name(self) -> str:
        """The name. U+FFFD replaces bytes that are not UTF-8."""
        if not isinstance(self._given, Text):
            return self._name
        return self._info.name

    @property
    def kind(self) -> str:
        """`"tsp"` or `"cvrp"`."""
        if not isinstance(self._given, Text):
            return "cvrp" if self._given_service else "tsp"
        return self._info.kind

    @property
    def distance_type(self) -> str:
        """The distance type: EUC_2D, CEIL_2D, MAN_2D, MAX_2D or ATT for cities with coordinates, otherwise EXPLICIT."""
        if isinstance(self._given, Text):
            return self._info.distance_type
        return self._given.kind

    @functools.cached_property
    def points(self) -> Optional[Tuple[Tuple[float, float], ...]]:
        """The coordinates of each city, from city 1, as the nearest floats; `None` if the distances are explicit."""
        return self._points.pairs() if self._points else None

    @functools.cached_property
    def weights(self) -> Optional[memoryview]:
        """Explicit distances as an array of n rows of n 64-bit integers, which cannot be changed; `None` if there are coordinates."""
        if self._points:
            return None
        numbers = memoryview(room_for(8 * self.size * self.size)).cast("B").cast("q")
        self._write_distances(*output_slice(numbers))
        return numbers.cast("B").cast("q", [self.size, self.size]).toreadonly()

    @property
    def demands(self) -> Optional[Tuple[int, ...]]:
        """The demand of each city of a CVRP, from city 1; `None` for a TSP."""
        return self._service.demands if self._service else None

    @property
    def capacity(self) -> Optional[int]:
        """The capacity of a vehicle of a CVRP; `None` for a TSP."""
        return self._service.capacity if self._service else None

    @property
    def depot(self) -> Optional[int]:
        """The city that is the depot of a CVRP; `None` for a TSP."""
        return self._service.depot if self._service else None

    @functools.cached_property
    def size(self) -> int:
        """The number of cities."""
        return self._info.size if isinstance(self._given, Text) else self._given.size

    @property
    def text(self) -> bytes:
        """The problem as the text of a file."""
        return self._source.data

    @property
    def file(self) -> Optional[str]:
        """The file that the problem was read from; `None` if it was not read from a file."""
        return self._source.file if isinstance(self._given, Text) else None

    @functools.cached_property
    def _source(self) -> Text:
        """The text of the problem, which is written when it is first needed."""
        if isinstance(self._given, Text):
            return self._given
        header = f"NAME : {self._name}\nTYPE : {self.kind.upper()}\nDIMENSION : {self.size}\n"
        service = self._service.sections() if self._service else ""
        return Text(f"{header}{self._given.sections()}{service}EOF\n".encode(), "problem")

    @functools.cached_property
    def _info(self) -> Info:
        """What the library knows of the problem of a text."""
        return read_info(self._source)

    @functools.cached_property
    def _points(self) -> Optional[Points]:
        """The coordinates; `None` if the distances are explicit."""
        if not isinstance(self._given, Text):
            return self._given if isinstance(self._given, Points) else None
        if self.distance_type == Weights.kind:
            return None
        xs, ys = (memoryview(room_for(8 * self.size)) for _ in range(2))
        self._accepted(call("tourkit_coordinates", *self._source.words, *output_slice(xs.cast("q")), *output_slice(ys.cast("q"))))
        return Points(bytes(xs), bytes(ys), self.distance_type)

    @functools.cached_property
    def _service(self) -> Optional[Service]:
        """The demands, the capacity and the depot of a CVRP; `None` for a TSP."""
        if not isinstance(self._given, Text):
            return self._given_service
        if self.kind == "tsp":
            return None
        demands = filled("I", self.size, lambda *out: self._accepted(call("tourkit_demands", *self._source.words, *out)))
        return Service(tuple(demands), self._info.capacity, self._info.depot)

    def _nearest_tour(self, start: int) -> memoryview:
        """The nearest-neighbour tour from this city, as 32-bit integers."""
        return filled("I", self.size, lambda *out: self._accepted(call("tourkit_nearest_tour", *self._source.words, start, *out)))

    def _guess_size(self) -> int:
        """An estimate of the number of cities, which may be wrong."""
        if not isinstance(self._given, Text) or "_info" in vars(self):
            return self.size
        found = DIMENSION.search(self.text, 0, HEAD)
        return min(int(found[1]), CITY_LIMIT) if found else 1

    def _call(self, task: str, *arguments: Any) -> Answer:
        """Calls the function on arrays that fits the form of the problem."""
        form = "cities" if isinstance(self._given, Text) else self._given.form
        return self._accepted(call(f"tourkit_{task}_{form}", *self._given.words, *arguments))

    def _write_distances(self, *out: Any) -> Answer:
        """Writes the distances of all pairs of cities to an array, if the array has the right size."""
        return self._accepted(call("tourkit_distances", *self._source.words, *out))

    def _accepted(self, answer: Answer) -> Answer:
        """The answer of a function on arrays. Such functions write no messages, so if the text was rejected, another function is called to
        get the message."""
        if answer.status == REFUSED:
            write_texts("tourkit_near", [self._source], (*self._source.words, 1), [LINE])
            raise ValueError(f"{self!r} was rejected")
        return answer

    def __reduce__(self) -> Tuple[Any, ...]:
        """Pickles the members, without those that can be computed again."""
        kept = vars(self).items()
        state = {name: value for name, value in kept if not isinstance(getattr(type(self), name, None), functools.cached_property)}
        return restored, (type(self), state)

    def __repr__(self) -> str:
        name = type(self).__name__
        if isinstance(self._given, Text):
            return f"{name}({self.file!r})" if self.file is not None else f"{name}(<{len(self.text):,} bytes>)"
        return f"<{name} of {self.size:,} cities by {self._given.form}>"


class TSP(Problem):
    """A symmetric travelling salesman problem."""


class CVRP(Problem):
    """A capacitated vehicle routing problem."""

    @property
    def demands(self) -> Tuple[int, ...]:
        """The demand of each city, from city 1."""
        return self._known_service().demands

    @property
    def capacity(self) -> int:
        """The capacity of a vehicle."""
        return self._known_service().capacity

    @property
    def depot(self) -> int:
        """The city that is the depot."""
        return self._known_service().depot

    def _known_service(self) -> Service:
        """The demands, the capacity and the depot, which a CVRP has."""
        assert self._service
        return self._service


def restored(kind: Type[Problem], state: Dict[str, Any]) -> Problem:
    """A problem that has been pickled."""
    problem = object.__new__(kind)
    vars(problem).update(state)
    return problem


def given_name(name: str) -> str:
    """A name that the caller has passed, on one line."""
    found = " ".join(text_argument("name", name).split()) or "Unnamed"
    try:
        length = len(found.encode())
    except UnicodeEncodeError:
        raise ValueError(f"name is {name!r}, which UTF-8 cannot represent") from None
    if length > NAME_LIMIT:
        raise ValueError(f"name must have at most {NAME_LIMIT:,} bytes, not {length:,}")
    return found


def problem_of(given: Union[Problem, File, Bytes]) -> Problem:
    """The given problem, or the problem of a file or a text."""
    return given if isinstance(given, Problem) else problem_of_text(text_of(given, "problem"))


def problem_of_text(text: Text) -> Problem:
    """The problem of a text, which is parsed only when it is used. It is of neither class."""
    problem = object.__new__(Problem)
    problem._given = text
    return problem
