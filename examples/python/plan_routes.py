#!/usr/bin/env python3
"""Plans routes for the places in a CSV file, prints them as CSV, and draws them. The columns of the file are `name`, `x`, `y` and `demand`.
The first place is the depot. x and y are plane coordinates in a small unit such as metres, since distances are rounded to integers.

usage: plan_routes.py PLACES CAPACITY PICTURE >ROUTES        (needs the package `tourkit`: see docs/PYTHON.md)"""

import csv
import sys
from pathlib import Path
from typing import Dict, List, Tuple

import tourkit

Place = Dict[str, str]


def read_places(file: str) -> List[Place]:
    """Returns the places of a CSV file. The demand of the depot may be empty."""
    with open(file, encoding="utf-8-sig", newline="") as lines:
        return list(csv.DictReader(lines, skipinitialspace=True))


def plan(places: List[Place], capacity: int, name: str) -> Tuple[tourkit.CVRP, tourkit.Routes]:
    """Returns the problem for these places, and its routes."""
    points = [(place["x"], place["y"]) for place in places]
    demands = [int(place["demand"] or 0) for place in places]
    problem = tourkit.Problem.from_points(points, name=name, demands=demands, capacity=capacity)
    return problem, tourkit.solve(problem)


def print_routes(places: List[Place], routes: tourkit.Routes) -> None:
    """Prints a line for each stop. City c is the place at index c - 1."""
    out = csv.writer(sys.stdout, lineterminator="\n")
    out.writerow(["route", "stop", "name"])
    for route, cities in enumerate(routes.cities, 1):
        for stop, city in enumerate(cities, 1):
            out.writerow([route, stop, places[city - 1]["name"]])


def main() -> None:
    if len(sys.argv) != 4:
        sys.exit(__doc__)
    file, capacity, picture = sys.argv[1:]
    places = read_places(file)
    problem, routes = plan(places, int(capacity), Path(file).stem)
    print_routes(places, routes)
    Path(picture).write_bytes(tourkit.plot(problem, routes).svg)
    print(routes, file=sys.stderr)


if __name__ == "__main__":
    try:
        main()
    except (OSError, ValueError) as fault:
        sys.exit(f"plan_routes.py: {fault}")
    except KeyError as fault:
        sys.exit(f"plan_routes.py: there is no column {fault.args[0]}")
