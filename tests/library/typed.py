"""A program with type hints that uses the package, for mypy."""

from pathlib import Path
from typing import List, Tuple, Union

import tourkit


def best_of(folder: Path, problem: tourkit.Problem) -> int:
    """Returns the length of the shortest tour of a directory."""
    verdicts: List[tourkit.TourVerdict] = [tourkit.check(problem, file) for file in folder.glob("*.tour")]
    return min(verdict.length for verdict in verdicts if verdict.length is not None)


def shown(found: Union[tourkit.Tour, tourkit.Routes]) -> str:
    """Returns the result of a search as a text."""
    return f"{found.runs}" if isinstance(found, tourkit.Tour) else f"{len(found.cities)} routes"


def length_of(problem: tourkit.Problem) -> int:
    """Returns the length of the tour or of the routes of any problem."""
    return tourkit.solve(problem).length + tourkit.solve("tri.tsp").length


def solve_tsp() -> List[int]:
    """Returns the cities of a tour. The result of a TSP is a Tour."""
    problem = tourkit.Problem.from_points([(0, 0), (3.5, 4), (0, 8)], kind="CEIL_2D", name="three")
    tour: tourkit.Tour = tourkit.solve(problem, trials=10, progress=lambda tour: print(tour.length, tour.runs))
    weights: tourkit.TSP = tourkit.Problem.from_matrix(tourkit.distances(tourkit.Problem.from_matrix([[0, 1], [1, 0]])))
    return tour.cities + tourkit.solve(weights).cities + tourkit.solve(tourkit.TSP(Path("tri.tsp")), initial_tour=tour).cities


def solve_cvrp() -> List[List[int]]:
    """Returns the customers of routes. The result of a CVRP is Routes."""
    problem = tourkit.Problem.from_points([(0, 0), (3.5, 4), (0, 8)], demands=[0, 1, 2], capacity=2)
    routes: tourkit.Routes = tourkit.solve(problem, jobs=2, runs=3, pieces=2, progress=lambda routes: routes.cost > 5)
    start: tourkit.RouteStart = routes.start
    print(start.cost, start.candidates, sum(run.routes for run in routes.runs))
    known: Tuple[int, int, Tuple[int, ...]] = (problem.capacity, problem.depot, problem.demands)
    print(known, tourkit.check_solution(problem, routes).cost)
    again: tourkit.Routes = tourkit.solve(problem, initial_solution=routes.customers)
    within: tourkit.Routes = tourkit.solve(tourkit.CVRP("bakery.vrp"), within_routes=True)
    return again.customers + within.customers


def main() -> None:
    """Makes the other calls."""
    problem = tourkit.Problem("tri.tsp")
    found = tourkit.solve(problem, progress=lambda found: print(shown(found)))
    if isinstance(found, tourkit.Tour):
        print(tourkit.check(problem, found.cities).valid, best_of(Path("."), problem))
    else:
        verdict: tourkit.RouteVerdict = tourkit.check_solution(problem, found.customers)
        print(verdict.cost)
    if problem.points is not None and problem.demands is None:
        x, y = problem.points[0]
        print(x + y, problem.name.upper(), problem.kind, problem.distance_type, problem.size)
    distances: memoryview = tourkit.distances("tri.tsp")
    text: bytes = tourkit.matrix("tri.tsp")
    picture: tourkit.Picture = tourkit.plot(problem, found, html=True)
    tour: List[int] = tourkit.read_tour("tri.tour")
    solution: List[List[int]] = tourkit.read_solution("bakery-plan.sol")
    explanation: str = tourkit.explain("tri.tsp", 4) + tourkit.explain(b"TYPE : TSP")
    try:
        tourkit.solve(problem, jobs=2)
    except tourkit.Interrupted as stop:
        print(stop.best.length if stop.best else 0)
    try:
        print(tourkit.near(problem, k=2).tolist(), distances.shape, text, picture.title, picture.html or picture.svg, tour, solution, explanation, tourkit.__version__)
    except tourkit.Refused as fault:
        print(fault.number, fault.name, fault.line, fault.file)
