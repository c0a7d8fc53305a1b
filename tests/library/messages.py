"""Errors about values that the caller has passed: each names the argument, and none is about a text that the package has written."""

import re

import tourkit

PAIR = [(0, 0), (3, 4)]
WIDE = [[0, 1], [1, 0, 3]]
FILE = "a file (str or os.PathLike), a text (bytes)"


class Index:
    """An integer that cannot be compared."""

    def __index__(self):
        return 9


def points(given=PAIR, *arguments, **options):
    return lambda: tourkit.Problem.from_points(given, *arguments, **options)


def matrix(given=((0, 1), (1, 0)), **options):
    return lambda: tourkit.Problem.from_matrix(given, **options)


def solve(file="tri.tsp", **options):
    return lambda: tourkit.solve(file, **options)


# Calls, each with the kind of its error and the message.
ERRORS = [
    (matrix([[0, 3.5], [3.5, 0]]), TypeError, "matrix: distance of 1 and 2 is 3.5, not a whole number"),
    (matrix([[0, 3.0], [3.0, 0]]), TypeError, "matrix: distance of 1 and 2 is 3.0, a float instead of an integer"),
    (matrix([[0, 3], [None, 0]]), TypeError, "matrix: distance of 2 and 1 is None, not a whole number"),
    (matrix([[0, -1], [-1, 0]]), ValueError, "matrix: distance of 1 and 2 is -1, not from 0 to 4,000,000,000"),
    (matrix([[0, 4 * 10**9 + 1], [1, 0]]), ValueError, "matrix: distance of 1 and 2 is 4,000,000,001, not from 0 to 4,000,000,000"),
    (matrix([[0, 1], [2, 0]]), ValueError, "the matrix is not symmetric: 1 from city 1 to city 2, but 2 back"),
    (matrix([[0]]), ValueError, "matrix must have as many columns as rows, 2 to 5,000, but it has 1 rows of 1 columns"),
    (matrix([]), ValueError, "matrix must have as many columns as rows, 2 to 5,000, but it has 0 rows of 0 columns"),
    (matrix([[0, 1]]), ValueError, "matrix must have as many columns as rows, 2 to 5,000, but it has 1 rows of 2 columns"),
    (matrix([[0, 1], [1, 0, 3]]), ValueError, "matrix must have as many columns as rows, 2 to 5,000, but row 2 has 3 columns"),
    (matrix([[0, 1], [1, 0], [1, 1]]), ValueError, "matrix must have as many columns as rows, 2 to 5,000, but row 3 has 2 columns"),
    (matrix([[0, 1], 5]), TypeError, "matrix: row 2 must be a list of numbers, not int"),
    (matrix(7), TypeError, "matrix must be a list of rows, not int"),
    (points(7), TypeError, "points must be a list of pairs of coordinates, not int"),
    (points([(0, 0)]), ValueError, "points must be 2 to 100,000 cities, not 1"),
    (points([(0, 0), (1, 2, 3)]), ValueError, "points: city 2 is (1, 2, 3), not a pair of coordinates"),
    (points([(0, 0), 5]), ValueError, "points: city 2 is 5, not a pair of coordinates"),
    (points([(0, 0), (1, "x")]), ValueError, "points: y of city 2 is 'x', not a number"),
    (points(iter([(0, 0), (float("nan"), 1)])), ValueError, "points: x of city 2 is nan, not a number"),
    (points([(0, 10**9 + 1), (0, 0)]), ValueError, "points: y of city 1 is 1000000001, not from -1,000,000,000 to 1,000,000,000"),
    (points(PAIR, "GEO"), ValueError, "kind must be one of EUC_2D, CEIL_2D, MAN_2D, MAX_2D, ATT, not 'GEO'"),
    (points(PAIR, ["ATT"]), TypeError, "kind must be a str, not list"),
    (points(name=5), TypeError, "name must be a str, not int"),
    (points(name="é" * 513), ValueError, "name must have at most 1,024 bytes, not 1,026"),
    (points(name="\udc80"), ValueError, "name is '\\udc80', which UTF-8 cannot represent"),
    (points(demands=[0, 1]), ValueError, "a CVRP needs both demands and capacity"),
    (points(capacity=5), ValueError, "a CVRP needs both demands and capacity"),
    (points(demands=[0], capacity=5), ValueError, "demands must be 2 numbers, one for each city, not 1"),
    (points(demands=5, capacity=5), TypeError, "demands must be a list of integers, not int"),
    (points(demands=[0, 1.5], capacity=5), TypeError, "demands: demand of city 2 is 1.5, not a whole number"),
    (points(demands=[0, "1\n-1"], capacity=5), TypeError, "demands: demand of city 2 is '1\\n-1', not a whole number"),
    (points(demands=[0, -1], capacity=5), ValueError, "demands: demand of city 2 is -1, not from 0 to 2,000,000,000"),
    (points(demands=[0, 2**70], capacity=5), ValueError, f"demands: demand of city 2 is {2**70:,}, not from 0 to 2,000,000,000"),
    (points(demands=[0, 3], capacity=2), ValueError, "demands: with a capacity of 2, demand of city 2 is 3, not from 0 to 2"),
    (points(demands=[1, 1], capacity=2), ValueError, "demands: demand of city 1, the depot, is 1, not 0"),
    (points(demands=[0, 1], capacity=0), ValueError, "capacity must be from 1 to 2,000,000,000, not 0"),
    (points(demands=[0, 1], capacity=1.5), TypeError, "capacity is 1.5, not a whole number"),
    (matrix(demands=[0, 1], capacity=5, depot=3), ValueError, "depot must be from 1 to 2, not 3"),
    (matrix(demands=[0, 1], capacity=5, depot="1"), TypeError, "depot is '1', not a whole number"),
    (points([(place, 0) for place in range(5_001)], demands=[0] * 5_001, capacity=1), ValueError,
     "demands: a CVRP must have at most 5,000 cities, not 5,001"),
    (lambda: tourkit.near("tri.tsp", 0), ValueError, "k must be from 1 to 100, not 0"),
    (lambda: tourkit.near("tri.tsp", 2.0), TypeError, "k is 2.0, a float instead of an integer"),
    (lambda: tourkit.near(5), TypeError, f"problem must be {FILE} or a Problem, not int"),
    (lambda: tourkit.Problem([1]), TypeError, f"problem must be {FILE} or a Problem, not list"),
    (lambda: tourkit.check("tri.tsp", 5), TypeError, f"tour must be {FILE}, a Tour or a list of cities, not int"),
    (lambda: tourkit.check("tri.tsp", [1, 2.5, 3]), TypeError, "tour: city at place 2 is 2.5, not a whole number"),
    (lambda: tourkit.check("tri.tsp", iter([2**40, 2.5, 3])), TypeError, "tour: city at place 2 is 2.5, not a whole number"),
    (lambda: tourkit.check("tri.tsp", [2**40, Index(), "3"]), TypeError, "tour: city at place 3 is '3', not a whole number"),
    (points(demands=[0, Index()], capacity=5), ValueError, "demands: with a capacity of 5, demand of city 2 is 9, not from 0 to 5"),
    (matrix([[0, Index()], [-9, 0]]), ValueError, "matrix: distance of 2 and 1 is -9, not from 0 to 4,000,000,000"),
    (lambda: tourkit.check_solution("bakery.vrp", 5), TypeError, f"solution must be {FILE}, Routes or a list of routes, not int"),
    (lambda: tourkit.check_solution("bakery.vrp", [[1], 2]), TypeError, "solution: route 2 must be a list of customers, not int"),
    (lambda: tourkit.check_solution("bakery.vrp", [[1], [2, "3"]]), TypeError,
     "solution: route 2, customer at place 2 is '3', not a whole number"),
    (lambda: tourkit.plot("tri.tsp", 5), TypeError,
     f"claim must be {FILE}, a Tour, Routes, a list of cities or a list of routes, not int"),
    (lambda: tourkit.plot("tri.tsp", [1, None, 3]), TypeError, "claim: city at place 2 is None, not a whole number"),
    (lambda: tourkit.plot("tri.tsp", iter([1, 7, 3])), tourkit.Refused, "claim: out of range at place 2: 7"),
    (lambda: tourkit.plot("bakery.vrp", [(2, 0.5)]), TypeError, "claim: route 1, customer at place 2 is 0.5, not a whole number"),
    (lambda: tourkit.plot("bakery.vrp", [[99]]), tourkit.Refused, "claim: bad customer in route 1: 99"),
    (solve(initial_tour=5), TypeError, f"initial_tour must be {FILE}, a Tour or a list of cities, not int"),
    (solve(initial_tour=[1, 2.5, 3]), TypeError, "initial_tour: city at place 2 is 2.5, not a whole number"),
    (solve(initial_tour=iter([1, 2, 2])), tourkit.Refused, "initial_tour: repeated city at place 3: 2"),
    (solve(initial_tour=[1, 2]), tourkit.Refused, "initial_tour: wrong count: 3 wanted, 2 read"),
    (solve("bakery.vrp", initial_solution=5), TypeError, f"initial_solution must be {FILE}, Routes or a list of routes, not int"),
    (solve("bakery.vrp", initial_solution=[[1], 2]), TypeError, "initial_solution: route 2 must be a list of customers, not int"),
    (solve("bakery.vrp", initial_solution=[[1], ["2"]]), TypeError,
     "initial_solution: route 2, customer at place 1 is '2', not a whole number"),
    (solve("bakery.vrp", initial_solution=[[1], [2, 1]]), tourkit.Refused, "initial_solution: customer served twice: 1"),
    (solve("bakery.vrp", initial_solution=[[1]], within_routes=True), ValueError, "initial_solution cannot be used with within_routes"),
    (solve("bakery.vrp", candidates=0), ValueError, "candidates must be from 1 to 100, not 0"),
    (solve("bakery.vrp", initial_tour=[1, 2]), tourkit.Refused, "bakery.vrp: initial_tour does not fit the problem's type"),
    (solve(trials=2.5), TypeError, "trials is 2.5, not a whole number"),
    (solve(seed=-1), ValueError, "seed must be from 0 to 4,294,967,295, not -1"),
    (solve(construction=5), TypeError, "construction must be a str, not int"),
    (solve(construction="GREEDY\nRUNS = 1"), ValueError, "construction must be one of NEAREST and SAVINGS, not 'GREEDY\\nRUNS = 1'"),
    (solve(jobs=0), ValueError, "jobs must be from 1 to 10,000, not 0"),
    (solve(jobs="2"), TypeError, "jobs is '2', not a whole number"),
    (solve(progress=5), TypeError, "progress must be a function, not int"),
]


def try_messages():
    """An error about a value names the argument, and is a TypeError or a ValueError."""
    for call, kind, message in ERRORS:
        try:
            given = call()
        except (TypeError, ValueError) as error:
            assert (type(error), str(error)) == (kind, message), f"{type(error).__name__}: {error}, instead of {message}"
        else:
            raise AssertionError(f"no error: {given!r}, instead of {message}")
        assert not re.search(r":\d+: ", message), message


def tests():
    """Returns the checks of this file, named by their docstrings."""
    return [(try_messages.__doc__, try_messages)]
