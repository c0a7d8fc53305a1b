"""The members of a `Problem`, compared with problems of tests/cases and with random ones as the reference reader reads them."""

import pickle
import random
import sys
from pathlib import Path

TESTS = Path(__file__).resolve().parents[1]
sys.path.append(str(TESTS / "readers"))

import mutate
import texts
import tourkit

PUBLIC = ["capacity", "demands", "depot", "distance_type", "file", "from_matrix", "from_points", "kind", "name", "points", "size", "text",
          "weights"]

# Texts with more than their parts, and with their parts in an unusual order or form.
UNUSUAL = [
    b"name:\xff a \n\ttype : Tsp\rx\nDIMENSION 2\nEDGE_WEIGHT_TYPE : att kind\nNODE_COORD_SECTION : 2 1e3 -.5\n1 +7. 0.1234567899\n"
    b"EOF\nNAME : b\n",
    b"COMMENT : NAME : x\nCOMMENT :\nNAME\nTYPE : TSP\nCAPACITY : 9\nDIMENSION : 2\nEDGE_WEIGHT_TYPE : CEIL_2D\n"
    b"NODE_COORD_SECTION 1 0 0 2\n1\n1\nEOF\nDEPOT_SECTION\n1\n",
    b"TYPE : CVRP\nDIMENSION : 3\nCAPACITY : +5 each\nDEPOT_SECTION : 2 EOF\nNAME : late",
    b"NAME=a\nTYPE : TSP\nDIMENSION : 2\nEDGE_WEIGHT_TYPE : EXPLICIT\nEDGE_WEIGHT_FORMAT : UPPER_ROW\n"
    b"DISPLAY_DATA_SECTION:\nNAME-b x y\nEOF-x NAME-b\nTYPE-cvrp\nEDGE_WEIGHT_SECTION\n5\n",
    b"TYPE : CVRP\nDIMENSION : 3\nCAPACITY : +5 each\nEDGE_WEIGHT_TYPE : EXPLICIT\nEDGE_WEIGHT_FORMAT : UPPER_ROW\n"
    b"EDGE_WEIGHT_SECTION\n1 2 3\n"
    b"NODE_COORD_SECTION\n1 5 5\n2 5 5\n3 5 5\nDEMAND_SECTION : 3 4 1 5\n2 0\nDEPOT_SECTION : 2 EOF\nNAME : late\nTYPE : TSP\n",
]


def random_texts(commands):
    """Random texts for these commands. Most of them have a fault."""
    files = [file for seed in range(1_000) for file in mutate.case(random.Random(seed), commands)[1].values()]
    return [file for file in files if isinstance(file, bytes)]


def texts_of_cases():
    """The texts of tests/cases that might be problems."""
    files = [file for case in sorted(TESTS.glob("cases/*")) for file in (*case.glob("in/*"), case / "stdin") if file.is_file()]
    return UNUSUAL + random_texts(["near"]) + sorted({text for text in (file.read_bytes() for file in files) if b"DIMENSION" in text.upper()})


def read_by_reference(text):
    """The problem that the reference reader reads; `None` if it rejects the text."""
    try:
        return texts.read_problem(text)
    except texts.Fault:
        return None


def try_members_of_texts():
    """The members of a problem are what the reference reader reads, for each problem of tests/cases and random ones."""
    counts = {"tsp": 0, "cvrp": 0, "rejected": 0}
    for text in texts_of_cases():
        read = read_by_reference(text)
        try:
            problem = tourkit.Problem(text)
        except tourkit.Refused:
            assert read is None, text[:200]
            counts["rejected"] += 1
            continue
        assert read, text[:200]
        compare(problem, read)
        compare(pickle.loads(pickle.dumps(problem)), read)
        counts[problem.kind] += 1
    assert min(counts.values()) > 150, counts


def compare(problem, read):
    """Compares the members of a problem with a problem of the reference reader."""
    cities = range(1, read.n + 1)
    assert problem.name == read.name.decode(errors="replace"), (problem.name, read.name)
    assert (problem.kind, problem.size) == ("cvrp" if read.cvrp else "tsp", read.n)
    assert problem.distance_type == read.kind.decode(), problem.distance_type
    if read.kind == b"EXPLICIT":
        assert problem.points is None and problem.weights.readonly
        assert problem.weights.tolist() == [[read.weights.get((a, b), 0) for b in cities] for a in cities], "other weights"
    else:
        assert problem.weights is None
        assert problem.points == tuple(tuple(units / 10**9 for units in read.points[city]) for city in cities), "other points"
    if read.cvrp:
        assert problem.demands == tuple(read.demand[city] for city in cities), "other demands"
        assert (problem.capacity, problem.depot) == (read.capacity, read.depot)
    else:
        assert (problem.demands, problem.capacity, problem.depot) == (None, None, None)


def try_members_of_arrays():
    """A problem of points or weights has the members that it was made from, as its text has."""
    service = {"demands": iter([3, 0, 4]), "capacity": 5, "depot": 2}
    points = tourkit.Problem.from_points([(0, -1.5), ("3e2", 0), (0.1, 1e-9)], "MAX_2D", name=" two  words\n", **service)
    assert points.points == ((0, -1.5), (300, 0), (0.1, 1e-9)) and points.name == "two words", points.points
    assert (points.demands, points.capacity, points.depot, points.kind) == ((3, 0, 4), 5, 2, "cvrp")
    weights = tourkit.Problem.from_matrix([[9, 1, 2], [1, 9, 3], [2, 3, 9]], name="")
    assert weights.weights.tolist() == [[0, 1, 2], [1, 0, 3], [2, 3, 0]] and weights.name == "Unnamed"
    for problem in (points, weights):
        compare(problem, texts.read_problem(problem.text))
        again = pickle.loads(pickle.dumps(problem))
        compare(again, texts.read_problem(problem.text))
        assert again.text == problem.text


def try_public_names():
    """A problem shows its members, and no helpers."""
    problem = tourkit.Problem(UNUSUAL[0])
    assert [name for name in dir(problem) if not name.startswith("_")] == PUBLIC, dir(problem)


def try_classes():
    """A problem is a TSP or a CVRP, whatever it is made from. The class that is called must be its class."""
    points = [(0, 0), (3, 0), (0, 4)]
    service = {"demands": [0, 1, 2], "capacity": 2}
    made = [tourkit.Problem("tri.tsp"), tourkit.TSP("tri.tsp"), tourkit.Problem.from_points(points), tourkit.TSP.from_points(points)]
    made += [tourkit.Problem("bakery.vrp"), tourkit.CVRP("bakery.vrp")]
    made += [kind.from_points(points, **service) for kind in (tourkit.Problem, tourkit.CVRP)]
    kinds = [tourkit.TSP] * 4 + [tourkit.CVRP] * 4
    for problem, kind in zip(made, kinds):
        again = pickle.loads(pickle.dumps(problem))
        assert type(problem) is type(again) is kind and problem.kind == again.kind == kind.__name__.lower(), problem
        found = tourkit.solve(problem)
        assert type(found) is {tourkit.TSP: tourkit.Tour, tourkit.CVRP: tourkit.Routes}[kind] and found.length > 0, found
        assert repr(problem).partition("(")[0].partition(" ")[0].strip("<") == kind.__name__, repr(problem)
    for call, message in {
        lambda: tourkit.TSP("bakery.vrp"): "bakery.vrp: not a TSP",
        lambda: tourkit.CVRP("tri.tsp"): "tri.tsp: not a CVRP",
        lambda: tourkit.CVRP.from_points(points): "a CVRP needs both demands and capacity",
        lambda: tourkit.TSP.from_points(points, **service): "a TSP has neither demands nor capacity",
    }.items():
        try:
            raise AssertionError(f"{call()}, instead of {message}")
        except ValueError as error:
            assert str(error) == message, error


def tests():
    """Returns the checks of this file, named by their docstrings."""
    return [(check.__doc__, check) for check in (try_members_of_texts, try_members_of_arrays, try_public_names, try_classes)]
