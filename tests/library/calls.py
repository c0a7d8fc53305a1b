"""Calls of the package `tourkit` with arguments of many kinds, in a directory with the files of examples/."""

import array
import ctypes
import importlib.util
import os
import pathlib
import pickle
import re
import signal
import subprocess
import sys
import threading

import tourkit
from tourkit import _limits
from tourkit._library import CALLS, Answer, ProblemInfo, RouteOptions, SearchOptions, output_slice
from tourkit._text import text_of
from tourkit._writing import write_texts

LENGTH = 12
TOUR = [1, 2, 3]


def refusal(call, *arguments, **options):
    """Returns the exception of a call that is rejected."""
    try:
        given = call(*arguments, **options)
    except tourkit.Refused as fault:
        return fault
    raise AssertionError(f"not refused: {given!r}")


def error(kind, call, *arguments, **options):
    """Returns the message of a call that raises an exception of this kind, which must not be a Refused."""
    try:
        given = call(*arguments, **options)
    except kind as raised:
        assert not isinstance(raised, tourkit.Refused), raised
        return str(raised)
    raise AssertionError(f"no error: {given!r}")


def try_header():
    """The functions and the structs of the package are those of the C header."""
    header = (pathlib.Path(__file__).resolve().parents[2] / "include/tourkit.h").read_text()
    numbers = {f"{name}_t": getattr(ctypes, f"c_{name}") for name in ("uint32", "uint64", "int64")}
    known = {**numbers, "size_t": ctypes.c_size_t, "bool": ctypes.c_bool}
    declared = {}
    for name, parameters in re.findall(r"void (tourkit_\w+)\(([^)]*)\);", header):
        given = [word.strip() for word in parameters.split(",")]
        assert given.pop() == "tourkit_answer *answer", name
        declared[name] = tuple(ctypes.c_void_p if "*" in word else known[word.split()[0]] for word in given)
    assert declared == CALLS, "other calls"
    structs = {name: body for body, name in re.findall(r"typedef struct \{(.*?)\} (\w+);", header, re.DOTALL)}
    ours_by_name = {"tourkit_answer": Answer, "tourkit_problem_info": ProblemInfo}
    for name, ours in {**ours_by_name, "tourkit_search_options": SearchOptions, "tourkit_route_options": RouteOptions}.items():
        fields = re.findall(r"(?m)^ +(\w+) (\w+);", structs.pop(name))
        assert [(field, known[kind]) for kind, field in fields] == ours._fields_, fields
    assert not structs, structs


def try_problems_of_all_kinds():
    """A problem is a file, a text or an object."""
    text = pathlib.Path("tri.tsp").read_bytes()
    given = ["tri.tsp", pathlib.Path("tri.tsp"), text, bytearray(text), memoryview(text), tourkit.Problem("tri.tsp"), tourkit.Problem(text)]
    points = [(0, 0), (3, 0), (0, 4)]
    given += [tourkit.Problem.from_points(points), tourkit.Problem.from_points([(str(x), float(y)) for x, y in points])]
    given += [tourkit.Problem.from_matrix(tourkit.distances("tri.tsp")), tourkit.Problem.from_matrix([[0, 3, 4], [3, 0, 5], [4, 5, 0]])]
    for problem in given:
        assert tourkit.check(problem, TOUR).length == LENGTH, problem
        assert tourkit.near(problem, 2).tolist() == [[2, 3], [1, 3], [1, 2]], problem
        assert tourkit.distances(problem).tolist() == [[0, 3, 4], [3, 0, 5], [4, 5, 0]], problem
        assert tourkit.solve(problem, runs=1).length == LENGTH, problem
    for problem in given[5:]:
        again = pickle.loads(pickle.dumps(problem))
        assert (again.size, again.text, again.file, repr(again)) == (3, problem.text, problem.file, repr(problem)), problem
        assert tourkit.Problem(problem.text).size == 3, problem


def try_tours_of_all_kinds():
    """A tour is a file, a text, a list of some kind or the result of a search."""
    text = pathlib.Path("tri.tour").read_bytes()
    found = tourkit.solve("tri.tsp", runs=1, trials=1)
    lists = [TOUR, tuple(TOUR), range(1, 4), iter(TOUR), array.array("I", TOUR), array.array("q", TOUR), memoryview(array.array("I", TOUR))]
    for tour in ["tri.tour", pathlib.Path("tri.tour"), text, bytearray(text), found, found.cities, *lists]:
        assert tourkit.check("tri.tsp", tour) == tourkit.TourVerdict(True, cities=3, length=LENGTH), tour
    for tour in [TOUR, tuple(TOUR), array.array("I", TOUR), found, "tri.tour", text]:
        assert tourkit.plot("tri.tsp", tour).title == "tri: tour of 3 cities, length 12", tour
        assert tourkit.solve("tri.tsp", initial_tour=tour, runs=1).runs[0].start == LENGTH, tour


def try_cities_that_are_none():
    """A number that cannot be a city is out of range, whatever its size."""
    for city in (0, 4, -1, 2**32, -(2**70)):
        verdict = tourkit.check("tri.tsp", [1, city, 3])
        assert (verdict.fault, verdict.place, verdict.city) == ("OutOfRange", 2, city), verdict
        assert str(refusal(tourkit.plot, "tri.tsp", [1, city, 3])) == f"claim: out of range at place 2: {city}"
        assert str(refusal(tourkit.solve, "tri.tsp", initial_tour=[1, city, 3])) == f"initial_tour: out of range at place 2: {city}"
    assert str(tourkit.check("tri.tsp", [])) == "wrong count: 3 wanted, 0 read"


def try_routes_of_all_kinds():
    """A solution is a file, a text, lists of customers or the result of a search."""
    found = tourkit.solve("bakery.vrp", candidates=20)
    assert isinstance(found, tourkit.Routes)
    wanted = tourkit.RouteVerdict(True, routes=len(found.customers), cost=found.cost)
    for routes in [found, found.text, found.customers, [tuple(route) for route in found.customers], [*found.customers, []]]:
        assert tourkit.check_solution("bakery.vrp", routes) == wanted, routes
        assert tourkit.plot("bakery.vrp", routes).title == f"bakery: {found}", routes
    distances = tourkit.distances("bakery.vrp")
    legs = [leg for route in found.cities for leg in zip([1, *route], [*route, 1])]
    assert sum(distances[a - 1, b - 1] for a, b in legs) == found.cost, "another cost by the distances"
    assert str(tourkit.check_solution("bakery.vrp", found.customers[1:])).startswith("customer not served"), found
    assert refusal(tourkit.plot, "bakery.vrp", found.customers[1:]).name == "NotServed"
    for customer in (0, 43, -1, 2**32):
        wanted = tourkit.RouteVerdict(False, "BadCustomer", route=2, customer=customer)
        assert tourkit.check_solution("bakery.vrp", [[1], [2, customer, -9]]) == wanted, customer


def try_depot_is_no_customer():
    """If the depot is not city 1, the customers below it have their own numbers as cities."""
    options = {"demands": [1, 1, 0, 1], "capacity": 3, "depot": 3}
    problem = tourkit.Problem.from_points([(0, 0), (0, 5), (0, 9), (0, 20)], **options)
    routes = tourkit.solve(problem)
    assert sorted(sum(routes.customers, [])) == [1, 2, 3] and sorted(sum(routes.cities, [])) == [1, 2, 4], routes
    assert problem.depot == 3 and tourkit.Problem("tri.tsp").depot is None
    assert tourkit.Problem.from_matrix(tourkit.distances(problem), **options).depot == 3


def try_refusals():
    """A Refused has the number, the name, the line and the file that the program prints, and can be pickled."""
    known = {
        ("tri.tour:3: 4 Unsupported", 4, "Unsupported", 3, "tri.tour"): (tourkit.check, "tri.tour", "tri.tour"),
        ("<problem>:1: 1 UnknownKeyword", 1, "UnknownKeyword", 1, None): (tourkit.near, b"FOO : 1\n"),
        ("<problem>:2: 3 Missing DIMENSION", 3, "Missing", 2, None): (tourkit.distances, b"TYPE : TSP\nEOF\n"),
        ("square.tsp:3: 4 Unsupported", 4, "Unsupported", 3, "square.tsp"): (tourkit.check, "tri.tsp", pathlib.Path("square.tsp")),
        ("tri.tsp: not a CVRP", None, "WrongType", None, "tri.tsp"): (tourkit.check_solution, "tri.tsp", "bakery-plan.sol"),
        ("five.tsp: no coordinates", None, "NoPlaces", None, "five.tsp"): (tourkit.plot, "five.tsp"),
        ("repeated city at place 3: 2", None, "RepeatedCity", None, "twice.tour"): (tourkit.plot, "square.tsp", "twice.tour"),
    }
    for wanted, (call, *arguments) in known.items():
        fault = refusal(call, *arguments)
        for told in (fault, pickle.loads(pickle.dumps(fault))):
            assert (str(told), told.number, told.name, told.line, told.file) == wanted, told
    start = refusal(tourkit.solve, "square.tsp", initial_tour="twice.tour")
    assert str(start) == "twice.tour: initial tour: 3 RepeatedCity 3" and start.number == 3, start
    for file, name, value in (("bakery.vrp", "initial_tour", TOUR), ("bakery.vrp", "construction", "NEAREST"),
                              ("tri.tsp", "initial_solution", "bakery-plan.sol"), ("tri.tsp", "within_routes", True)):
        unfit = refusal(tourkit.solve, file, **{name: value})
        assert (str(unfit), unfit.name) == (f"{file}: {name} does not fit the problem's type", "NotForType"), unfit
    unserved = refusal(tourkit.solve, "bakery.vrp", initial_solution=b"Route #1: 1\nCost 5\n")
    assert (str(unserved), unserved.name) == ("<solution>: initial solution: customer not served: 2", "NotServed"), unserved
    many = tourkit.Problem.from_points([(place, 0) for place in range(5001)])
    assert str(refusal(tourkit.matrix, many)) == "<problem>: too large for a matrix"
    error(FileNotFoundError, tourkit.check, "gone.tsp", "tri.tour")
    error(IsADirectoryError, tourkit.near, ".")


def try_limits():
    """The limits of problems and texts are those of the sources."""
    source = (pathlib.Path(__file__).resolve().parents[2] / "crates/tk_problem/src/limits.rt").read_text()
    known = {name: int(number.replace("_", "")) for name, number in re.findall(r"pub const (\w+): \w+ = ([\d_]+);", source)}
    ours = {name: number for name, number in vars(_limits).items() if name.endswith("_LIMIT")}
    assert len(ours) == 7 and ours.items() <= known.items(), (ours, known)


def try_arguments_out_of_their_limits():
    """An error about an argument names it."""
    for name, number in {"seed": -1, "trials": 0, "runs": 10_001, "candidates": 101, "or_segment": 4, "pieces": 0}.items():
        assert error(ValueError, tourkit.solve, "tri.tsp", **{name: number}).startswith(f"{name} must be from "), name


def try_matrices_in_any_order():
    """A memoryview with two dimensions is a matrix, in whatever order its numbers are in memory."""
    wide = memoryview(array.array("q", [0, 3, 4, 9, 9, 9, 3, 0, 5, 9, 9, 9, 4, 5, 0])).cast("B").cast("q", [5, 3])
    views = [tourkit.distances("tri.tsp"), wide[::2], wide[::-2][::-1], view_by_columns(array.array("q", [0, 3, 4, 3, 0, 5, 4, 5, 0]), 3)]
    if importlib.util.find_spec("numpy"):
        import numpy

        matrix = numpy.asarray(tourkit.distances("tri.tsp"))
        views += map(memoryview, [numpy.asfortranarray(matrix), numpy.repeat(matrix, 2, axis=1)[:, ::2], matrix[::-1, ::-1][::-1, ::-1]])
    for view in views:
        problem = tourkit.Problem.from_matrix(view)
        assert tourkit.distances(problem).tolist() == [[0, 3, 4], [3, 0, 5], [4, 5, 0]], view.strides
    for empty in (memoryview(b""), wide[:0]):
        error(ValueError, tourkit.Problem.from_matrix, empty)
    error(ValueError, tourkit.Problem.from_matrix, wide)
    one_way = view_by_columns(array.array("q", [0, 1, 2, 0]), 2)
    assert error(ValueError, tourkit.Problem.from_matrix, one_way) == "the matrix is not symmetric: 2 from city 1 to city 2, but 1 back"


class View(ctypes.Structure):
    """`Py_buffer` of Python's header: numbers in memory."""

    _fields_ = [("buf", ctypes.c_void_p), ("obj", ctypes.c_void_p), ("len", ctypes.c_ssize_t), ("itemsize", ctypes.c_ssize_t),
                ("readonly", ctypes.c_int), ("ndim", ctypes.c_int), ("format", ctypes.c_char_p),
                *((name, ctypes.POINTER(ctypes.c_ssize_t)) for name in ("shape", "strides", "suboffsets")), ("internal", ctypes.c_void_p)]


def view_by_columns(numbers, n):
    """A memoryview of a square matrix whose numbers are listed column by column, as numpy calls the order F."""
    place, count = numbers.buffer_info()
    size = numbers.itemsize
    pair = ctypes.c_ssize_t * 2
    view = View(place, None, count * size, size, 0, 2, b"q", pair(n, n), pair(size, n * size), None, None)
    make = ctypes.pythonapi.PyMemoryView_FromBuffer
    make.restype = ctypes.py_object
    made = make(ctypes.byref(view))
    KEPT.append((view, numbers))
    return made


# What memoryviews need that do not keep it themselves.
KEPT = []


def try_coordinates_are_exact():
    """Coordinates are exact up to the ninth decimal place."""
    problem = tourkit.Problem.from_points([(0.1, -0.1), (1e-9, "12.3456789019"), (-(10**9), 10**9)], "MAN_2D", name="a\nb")
    assert problem.text.splitlines()[0] == b"NAME : a b"
    assert problem.text.splitlines()[5:8] == [b"1 0.1 -0.1", b"2 0.000000001 12.345678901", b"3 -1000000000 1000000000"], problem.text


def try_rooms_of_all_sizes():
    """A text is complete, whatever the size of its first buffer."""
    texts = [text_of("square.tsp", "problem"), text_of("twice.tour", "tour")]
    words = [word for text in texts for word in text.words]
    line = b"repeated city at place 3: 2\n"
    for size in (0, 1, len(line) - 1, len(line), len(line) + 1, 1 << 20):
        assert write_texts("tourkit_check", texts, words, [size])[1] == [line], size
        picture, told = write_texts("tourkit_plot", texts[:1], [*texts[0].words, *output_slice(b""), False], [size, size])[1]
        assert picture.endswith(b"</svg>\n") and not told, size
    late = b"COMMENT : far before its size\n" * 5_000 + texts[0].data
    for call in (tourkit.near, tourkit.distances, tourkit.matrix, tourkit.plot):
        assert call(late) == call("square.tsp"), call


def try_search_in_pieces():
    """A piece starts from the best tour of the last piece, and uses the next seeds. `progress` gets every tour and can end the search."""
    seen = []
    found = tourkit.solve("board.tsp", seed=2**32 - 2, runs=2, trials=20, pieces=3, progress=seen.append)
    tour = None
    for seed, told in zip((2**32 - 2, 0, 2), seen):
        tour = tourkit.solve("board.tsp", seed=seed, runs=2, trials=20, initial_tour=tour)
        assert (tour.text, tour.cities) == (told.text, told.cities), seed
    assert found is seen[-1] and [run.run for run in found.runs] == [1, 2, 3, 4, 5, 6], found.runs
    assert tourkit.check("board.tsp", found.cities).length == found.length == min(run.best for run in found.runs), found
    stopped = tourkit.solve("board.tsp", runs=1, trials=5, pieces=100, progress=lambda tour: len(tour.runs) < 3)
    assert len(stopped.runs) == 3, stopped.runs
    assert len(seen) == 3


def try_routes_in_pieces():
    """A piece starts from the best routes of the last piece, and uses the next seeds. The start is that of the first piece."""
    seen = []
    found = tourkit.solve("bakery.vrp", seed=2**32 - 2, runs=2, trials=20, pieces=3, progress=seen.append)
    routes = None
    for seed, told in zip((2**32 - 2, 0, 2), seen):
        routes = tourkit.solve("bakery.vrp", seed=seed, runs=2, trials=20, initial_solution=routes)
        assert (routes.text, routes.customers) == (told.text, told.customers), seed
    assert found is seen[-1] and [run.run for run in found.runs] == [1, 2, 3, 4, 5, 6], found.runs
    assert tourkit.check_solution("bakery.vrp", found).cost == found.cost == min(run.best for run in found.runs), found
    assert {told.start for told in seen} == {tourkit.solve("bakery.vrp", trials=1).start}, seen
    one = tourkit.solve("bakery.vrp", within_routes=True, pieces=3, progress=seen.append)
    assert seen[3:] == [one] and len(one.runs) == 1, seen[3:]


def try_initial_solutions_of_all_kinds():
    """An initial solution is a file, a text, lists of customers or the result of a search."""
    text, listed = pathlib.Path("bakery-plan.sol").read_bytes(), tourkit.read_solution("bakery-plan.sol")
    wanted = tourkit.solve("bakery.vrp", trials=5, initial_solution="bakery-plan.sol")
    assert wanted.start == tourkit.RouteStart(11071, 7, None), wanted.start
    for given in (pathlib.Path("bakery-plan.sol"), text, bytearray(text), listed, [*listed, []], map(tuple, listed)):
        assert tourkit.solve("bakery.vrp", trials=5, initial_solution=given) == wanted, given
    assert tourkit.solve("bakery.vrp", trials=1, initial_solution=wanted).start.cost == wanted.cost
    alone = tourkit.Problem.from_points([(0, 0), (3, 4)], demands=[0, 1], capacity=1)
    assert tourkit.solve(alone, runs=3, jobs=3).runs == () and tourkit.solve(alone, pieces=2).cost == 10, alone


def try_interrupt():
    """`progress` gets the best tour of each piece until an interrupt."""
    seen = []
    before = signal.signal(signal.SIGINT, signal.default_int_handler)  # a job in the background might not have it
    timer = threading.Timer(0.5, os.kill, (os.getpid(), signal.SIGINT))
    timer.start()
    try:
        tourkit.solve("board.tsp", runs=1, trials=50, pieces=10_000, progress=seen.append)
    except KeyboardInterrupt:
        pass
    else:
        raise AssertionError("not interrupted")
    finally:
        timer.join()
        signal.signal(signal.SIGINT, before)
    assert seen and tourkit.check("board.tsp", seen[-1]).length == seen[-1].length, seen


def try_calls_in_threads():
    """Parallel calls give the results of separate calls."""
    wanted = tourkit.near("board.tsp", 7).tolist(), tourkit.solve("board.tsp", runs=1, trials=30).text
    found = []
    problem = tourkit.Problem("board.tsp")

    def call():
        found.append((tourkit.near(problem, 7).tolist(), tourkit.solve(problem, runs=1, trials=30).text))

    threads = [threading.Thread(target=call) for _ in range(8)]
    for thread in threads:
        thread.start()
    for thread in threads:
        thread.join()
    assert found == 8 * [wanted], "another answer in a thread"


def try_too_little_memory():
    """If memory runs out, an exception reports it, and a later call succeeds."""
    code = """
import resource, tourkit
few = tourkit.Problem.from_points([(0, 0), (1, 1), (2, 5)])
many = tourkit.Problem.from_points([(place * 7919 % 10007, place) for place in range(3000)])
many.text, tourkit.distances(few)
used = int(open("/proc/self/statm").read().split()[0]) * resource.getpagesize()
resource.setrlimit(resource.RLIMIT_AS, (used + MORE, -1))
try:
    print("done", tourkit.distances(many).shape)
except MemoryError:
    print("refused", tourkit.distances(few).shape)
"""
    for more, wanted in {1 << 28: "done (3000, 3000)", 1 << 25: "refused (3, 3)", 0: "refused (3, 3)"}.items():
        how = {"env": {**os.environ, "PYTHONPATH": os.pathsep.join(sys.path)}, "stdout": subprocess.PIPE, "text": True, "check": False}
        ran = subprocess.run([sys.executable, "-c", code.replace("MORE", str(more))], **how)
        assert (ran.returncode, ran.stdout.strip()) == (0, wanted), (more, ran)


def try_arrays_of_numpy():
    """numpy uses the results without a copy, and its arrays are accepted."""
    import numpy

    for view, kind in ((tourkit.distances("board.tsp"), numpy.int64), (tourkit.near("board.tsp"), numpy.uint32)):
        taken = numpy.asarray(view)
        assert taken.dtype == kind and taken.shape == view.shape and numpy.shares_memory(taken, numpy.asarray(view)), view
        taken[0, 1] = 77
        assert view[0, 1] == 77, "a copy"
    for kind in (numpy.uint32, numpy.int64, numpy.int16, numpy.uint8):
        cities = numpy.array(TOUR, dtype=kind)
        assert tourkit.check("tri.tsp", cities).length == LENGTH, kind
        cities.flags.writeable = False
        assert tourkit.check("tri.tsp", cities[::-1]).length == LENGTH, kind
        assert tourkit.plot("tri.tsp", cities).title.endswith("length 12"), kind
    places = numpy.array([[0, 0], [3, 0], [0, 4]])
    for kind in (numpy.float64, numpy.float32, numpy.int64):
        assert tourkit.check(tourkit.Problem.from_points(places.astype(kind)), TOUR).length == LENGTH, kind
    weights = numpy.asarray(tourkit.distances("board.tsp")).copy()
    for kind in (numpy.int64, numpy.uint32, numpy.int32):
        problem = tourkit.Problem.from_matrix(weights.astype(kind))
        assert (numpy.asarray(tourkit.distances(problem)) == weights).all(), kind


def tests():
    """Returns the checks of this file, named by their docstrings."""
    checks = [try_header, try_problems_of_all_kinds, try_tours_of_all_kinds, try_cities_that_are_none,
              try_routes_of_all_kinds, try_depot_is_no_customer, try_refusals, try_arguments_out_of_their_limits,
              try_limits, try_matrices_in_any_order, try_coordinates_are_exact, try_rooms_of_all_sizes, try_search_in_pieces,
              try_routes_in_pieces, try_initial_solutions_of_all_kinds, try_interrupt, try_calls_in_threads, try_too_little_memory]
    if importlib.util.find_spec("numpy"):
        checks.append(try_arrays_of_numpy)
    else:
        print("numpy is not installed, so its arrays were not tried")
    return [(check.__doc__, check) for check in checks]
