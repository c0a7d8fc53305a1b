"""The demands, the capacity and the depot of a CVRP."""

from __future__ import annotations

from typing import Iterable, NamedTuple, Optional, Tuple

from ._arguments import integers, items_of, raise_unfit, within
from ._limits import CAPACITY_LIMIT, TABLE_LIMIT


class Service(NamedTuple):
    """The demand of each city, the capacity of a vehicle, and the city that is the depot."""

    demands: Tuple[int, ...]
    capacity: int
    depot: int

    def sections(self) -> str:
        """The lines of a problem file."""
        lines = "".join(f"{city} {demand}\n" for city, demand in enumerate(self.demands, 1))
        return f"CAPACITY : {self.capacity}\nDEMAND_SECTION\n{lines}DEPOT_SECTION\n{self.depot}\n-1\n"


def given_service(demands: Optional[Iterable[int]], capacity: Optional[int], depot: int, size: int) -> Optional[Service]:
    """The arguments of a caller, which must fit a problem of this size; `None` without demands and a capacity."""
    if demands is None and capacity is None:
        return None
    if demands is None or capacity is None:
        raise ValueError("a CVRP needs both demands and capacity")
    if size > TABLE_LIMIT:
        raise ValueError(f"demands: a CVRP must have at most {TABLE_LIMIT:,} cities, not {size:,}")
    most, home = within("capacity", capacity, 1, CAPACITY_LIMIT), within("depot", depot, 1, size)
    listed = items_of("demands", demands, "a list of integers")
    if len(listed) != size:
        raise ValueError(f"demands must be {size:,} numbers, one for each city, not {len(listed):,}")
    numbers = integers(listed, CAPACITY_LIMIT, lambda index: f"demands: demand of city {index + 1}")
    if max(numbers) > most:
        raise_unfit(numbers, most, lambda index: f"demands: with a capacity of {most:,}, demand of city {index + 1}")
    if numbers[home - 1]:
        raise ValueError(f"demands: demand of city {home}, the depot, is {numbers[home - 1]:,}, not 0")
    return Service(tuple(numbers), most, home)
