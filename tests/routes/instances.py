"""CVRPs of the reference search: from problem texts, and at random."""

from pathlib import Path
import sys

ROOT = Path(__file__).resolve().parents[2]
sys.path[:0] = [str(ROOT / "tests/routes"), str(ROOT / "tests/readers")]
from answers import distance
import reference
from texts import read_problem

PLANES = ["EUC_2D", "CEIL_2D", "MAN_2D", "MAX_2D", "ATT"]


def instance_of(text):
    """The instance of a problem text, and its nodes, the depot first."""
    problem = read_problem(text.encode())
    nodes = [problem.depot, *(c for c in range(1, problem.n + 1) if c != problem.depot)]
    table = [[distance(problem, a, b) for b in nodes] for a in nodes]
    return reference.Instance(table, [problem.demand[c] for c in nodes], problem.capacity), nodes


def coordinates(draw, n):
    """The rows of a section of coordinates: on a grid so small that nodes share places, on a large one, or with decimals."""
    side, decimals = draw.choice([(2, 0), (5, 0), (30, 0), (1000, 0), (1, 1), (40, 1), (40, 3), (10**6, 0)])
    rows = [[draw.randint(-side, side) if draw.random() < 0.2 else draw.randint(0, side) for _ in range(2)] for _ in range(n)]
    if draw.random() < 0.15:  # the customers of a few places, among them the depot's
        rows = [draw.choice(rows[:3]) for _ in range(n)]
    shown = [[f"{c}.{draw.randrange(10**decimals):0{decimals}}" if decimals else str(c) for c in row] for row in rows]
    return [f"{node} {x} {y}" for node, (x, y) in enumerate(shown, 1)]


def weights(draw, n):
    """The headers and the rows of explicit weights."""
    most = draw.choice([1, 9, 1000, 4 * 10**9])
    table = {(i, j): draw.randint(0, most) for i in range(n) for j in range(i)}
    form = draw.choice(["FULL_MATRIX", "UPPER_ROW", "LOWER_DIAG_ROW"])
    columns = {"FULL_MATRIX": lambda i: range(n), "UPPER_ROW": lambda i: range(i + 1, n), "LOWER_DIAG_ROW": lambda i: range(i + 1)}[form]
    rows = [" ".join(str(table.get((max(i, j), min(i, j)), 0)) for j in columns(i)) for i in range(n)]
    return ["EDGE_WEIGHT_TYPE : EXPLICIT", f"EDGE_WEIGHT_FORMAT : {form}", "EDGE_WEIGHT_SECTION", *filter(None, rows)]


def loads(draw, n, depot):
    """The demands of the nodes, some or all of them 0, and a capacity: exactly enough, tight, or loose."""
    most = draw.choice([0, 1, 5, 100])
    demands = [0 if node == depot or draw.random() < 0.1 else draw.randint(0, most) for node in range(1, n + 1)]
    least, total = max(1, *demands), max(1, sum(demands))
    part = max(least, -(-total // draw.randint(1, n)))
    return demands, draw.choice([least, part, part + part // 10, total, total + draw.randint(0, 9), 2 * 10**9])


def random_problem(draw, n):
    """A CVRP of n nodes."""
    depot = draw.choice([1, draw.randint(1, n)])
    demands, capacity = loads(draw, n, depot)
    lines = ["NAME : random", "TYPE : CVRP", f"DIMENSION : {n}", f"CAPACITY : {capacity}"]
    if draw.random() < 0.2:
        lines += weights(draw, n)
    else:
        lines += [f"EDGE_WEIGHT_TYPE : {draw.choice(PLANES)}", "NODE_COORD_SECTION", *coordinates(draw, n)]
    lines += ["DEMAND_SECTION", *(f"{node} {demand}" for node, demand in enumerate(demands, 1)), "DEPOT_SECTION", str(depot), "-1", "EOF"]
    return "\n".join(lines) + "\n"


def random_routes(draw, instance):
    """Routes that are valid, some of them empty."""
    customers, routes, load = list(range(1, instance.customers + 1)), [[]], 0
    draw.shuffle(customers)
    for customer in customers:
        if load + instance.demands[customer] > instance.capacity or draw.random() < 0.3:
            routes.append([])
            load = 0
        routes[-1].append(customer)
        load += instance.demands[customer]
    return routes


def solution_text(routes, cost):
    """The text of a solution."""
    return "".join(f"Route #{k}: {' '.join(map(str, route))}".rstrip() + "\n" for k, route in enumerate(routes, 1)) + f"Cost {cost}\n"
