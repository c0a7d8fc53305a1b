#!/usr/bin/env python3
"""Computes the standard output, standard error and status of tourkit, by the readers of texts.py. As a program, it takes the arguments of
tourkit, so that tests/run can run it on the cases. It does not cover a solve that is not rejected."""

import json
from math import isqrt
import os
import re
import sys

sys.dont_write_bytecode = True

import refusal
from texts import Fault, ParamFault, UNIT, places, read_params, read_placed_problem, read_problem, read_solution, read_tour


class Refused(Exception):
    """A rejection: the line on standard error, and the status."""


def half_up(x):
    """Returns x units as an integer, rounded to the nearest, with halves up."""
    return (2 * x + UNIT) // (2 * UNIT)


def distance(problem, a, b):
    if a == b:
        return 0
    if problem.kind == b"EXPLICIT":
        return problem.weights[a, b]
    dx, dy = (abs(p - q) for p, q in zip(problem.points[a], problem.points[b]))
    square = dx * dx + dy * dy
    if problem.kind == b"EUC_2D":
        return (isqrt(4 * square) + UNIT) // (2 * UNIT)
    if problem.kind == b"CEIL_2D":
        return root_up(square, UNIT * UNIT)
    if problem.kind == b"MAN_2D":
        return half_up(dx + dy)
    if problem.kind == b"MAX_2D":
        return half_up(max(dx, dy))
    return root_up(square, 10 * UNIT * UNIT)


def root_up(square, unit):
    """Returns the smallest d with d * d * unit >= square."""
    d = isqrt(square // unit)
    return d if d * d * unit >= square else d + 1


def read_file(name, opened, read):
    """Reads an opened file."""
    if os.path.isdir(name):
        fault = ParamFault if read is read_params else Fault
        raise Refused(f"tourkit: {name}:{fault(1, 'Read')}", 3)
    try:
        return read(opened.read())
    except Fault as fault:
        raise Refused(f"tourkit: {name}:{fault}", 2) from None


def open_word(name):
    """Opens a file of the command line."""
    return sys.stdin.buffer if name == "-" else open_file(name)


def open_file(name):
    try:
        return os.path.isdir(name) or open(name, "rb")
    except (OSError, ValueError):
        raise Refused(f"tourkit: {name}: cannot be opened", 3) from None


def tour_fault(n, cities):
    """Returns the first fault of a list: its name, its place, and the line that check prints."""
    if len(cities) != n:
        return "1 WrongCount", f"wrong count: {n} wanted, {len(cities)} read"
    met = set()
    for place, city in enumerate(cities, 1):
        if not 1 <= city <= n:
            return f"2 OutOfRange {place}", f"out of range at place {place}: {city}"
        if city in met:
            return f"3 RepeatedCity {place}", f"repeated city at place {place}: {city}"
        met.add(city)
    return None


def cycle_length(problem, cities):
    return sum(distance(problem, a, b) for a, b in zip(cities, cities[1:] + cities[:1]))


def check(problem_file, tour_file):
    opened = open_word(problem_file), open_word(tour_file)
    problem = read_file(problem_file, opened[0], read_problem)
    return tour_verdict(problem, tour_file, opened[1])


def tour_verdict(problem, tour_file, opened):
    """Returns the line of a tour file, and the status."""
    cities = read_file(tour_file, opened, read_tour)
    fault = tour_fault(problem.n, cities)
    if fault:
        return fault[1] + "\n", 1
    return f"tour of {problem.n} cities, length {cycle_length(problem, cities)}\n", 0


def plain(units):
    """Returns a number of units of 10^-9 as a decimal number, without zeros at the end."""
    digits = f"{abs(units) // 10**9}.{abs(units) % 10**9:09}".rstrip("0").rstrip(".")
    return "-" * (units < 0) + digits


def info(problem_file):
    problem = read_file(problem_file, open_word(problem_file), read_problem)
    lines = [b"name: " + problem.name, b"type: " + (b"CVRP" if problem.cvrp else b"TSP"), b"dimension: %d" % problem.n,
             b"distances: " + problem.kind]
    if problem.kind == b"EXPLICIT":
        lines.append(b"coordinates: none")
    else:
        axes = list(zip(*problem.points.values()))
        whole = all(units % 10**9 == 0 for axis in axes for units in axis)
        lines.append(b"coordinates: whole" if whole else b"coordinates: decimal")
        lines += [f"{name}: {plain(min(axis))} to {plain(max(axis))}".encode() for name, axis in zip("xy", axes)]
    if problem.cvrp:
        total = sum(problem.demand.values())
        lines += [b"capacity: %d" % problem.capacity, b"depot: %d" % problem.depot, b"total demand: %d" % total,
                  b"vehicles: at least %d" % -(-total // problem.capacity)]
    return b"".join(line + b"\n" for line in lines), 0


def near(problem_file, k):
    problem = read_file(problem_file, open_word(problem_file), read_problem)
    cities = range(1, problem.n + 1)
    lines = []
    for a in cities:
        others = sorted((distance(problem, a, b), b) for b in cities if b != a)
        lines.append(f"{a}: {' '.join(str(b) for _, b in others[:k])}\n")
    return "".join(lines), 0


def matrix(problem_file, form):
    problem = read_file(problem_file, open_word(problem_file), read_problem)
    if problem.n > 5000:
        raise Refused(f"tourkit: {problem_file}: too large for a matrix", 2)
    rows = {}
    for i, j in places(form, problem.n):
        rows.setdefault(j if form.endswith("COL") else i, []).append(str(distance(problem, i, j)))
    head = [b"NAME : " + problem.name, b"TYPE : TSP", b"DIMENSION : %d" % problem.n, b"EDGE_WEIGHT_TYPE : EXPLICIT",
            b"EDGE_WEIGHT_FORMAT : " + form.encode(), b"EDGE_WEIGHT_SECTION"]
    return b"".join(line + b"\n" for line in [*head, *(" ".join(row).encode() for row in rows.values()), b"EOF"]), 0


def checksol(problem_file, solution_file):
    opened = open_word(problem_file), open_word(solution_file)
    problem = read_cvrp(problem_file, opened[0])
    return solution_verdict(problem, solution_file, opened[1])


def read_cvrp(problem_file, opened):
    """Reads an opened problem, which must be a CVRP."""
    problem = read_file(problem_file, opened, read_problem)
    if not problem.cvrp:
        raise Refused(f"tourkit: {problem_file}: not a CVRP", 2)
    return problem


def solution_verdict(problem, solution_file, opened):
    """Returns the line of a solution file, and the status."""
    routes, cost = read_file(solution_file, opened, read_solution)
    line = solution_fault(problem, routes, cost)
    if line:
        return line + "\n", 1
    return f"{sum(map(bool, routes))} routes, cost {cost}\n", 0


def solution_fault(problem, routes, cost):
    """Returns the first fault of the routes of a solution, or None."""
    node = [None] + [c for c in range(1, problem.n + 1) if c != problem.depot]
    met = set()
    for r, route in enumerate(routes, 1):
        for customer in route:
            if not 1 <= customer < problem.n:
                return f"bad customer in route {r}: {customer}"
            if customer in met:
                return f"customer served twice: {customer}"
            met.add(customer)
    for r, route in enumerate(routes, 1):
        load = sum(problem.demand[node[c]] for c in route)
        if load > problem.capacity:
            return f"over capacity in route {r}: {load}"
    for customer in range(1, problem.n):
        if customer not in met:
            return f"customer not served: {customer}"
    counted = sum(cycle_length(problem, [problem.depot] + [node[c] for c in route]) for route in routes)
    if counted != cost:
        return f"wrong cost: {cost} read, {counted} counted"
    return None


FIRST_COLOURS = ["#0072B2", "#C35050", "#786E00", "#78234B", "#050ABE", "#004100", "#000000"]
ENTITIES = {"&": "&amp;", "<": "&lt;", ">": "&gt;", '"': "&quot;"}


def walk_of_colours():
    """Yields the colours of a walk from red to red, from which the colours from the eighth on are taken."""
    red, green, blue = 150, 0, 0
    for channel, step, count in (("g", 1, 110), ("r", -1, 150), ("b", 1, 250), ("g", -1, 110), ("r", 1, 150), ("b", -1, 250)):
        for _ in range(count):
            yield f"rgb({red},{green},{blue})"
            red, green, blue = (red + step * (channel == "r"), green + step * (channel == "g"), blue + step * (channel == "b"))


WALK = list(walk_of_colours())


def colour(number):
    return FIRST_COLOURS[number - 1] if number <= 7 else WALK[389 * number % 1020]


def shown(name):
    """Returns a name in XML."""
    def character(c):
        turns = "\u202a" <= c <= "\u202e" or "\u2066" <= c <= "\u2069"
        plain = c >= "\u00a0" and c not in "\ufffe\uffff" and not turns or " " <= c <= "~"
        return ENTITIES.get(c, c) if plain else "?"
    return "".join(map(character, name.decode(errors="replace")))


def plot(problem_file, claim_file=None):
    opened = open_word(problem_file), claim_file and open_word(claim_file)
    problem = read_file(problem_file, opened[0], read_placed_problem)
    if not problem.points:
        raise Refused(f"tourkit: {problem_file}: no coordinates", 2)
    if not claim_file:
        return picture(problem, f"{problem.n} cities", {}), 0
    if not problem.cvrp:
        cities = read_file(claim_file, opened[1], read_tour)
        fault = tour_fault(problem.n, cities)
        if fault:
            raise Refused(fault[1], 1)
        return picture(problem, f"tour of {problem.n} cities, length {cycle_length(problem, cities)}", {1: cities}), 0
    routes, cost = read_file(claim_file, opened[1], read_solution)
    fault = solution_fault(problem, routes, cost)
    if fault:
        raise Refused(fault, 1)
    node = [None] + [c for c in range(1, problem.n + 1) if c != problem.depot]
    paths = {number: [problem.depot] + [node[c] for c in route] for number, route in enumerate(routes, 1) if route}
    return picture(problem, f"{len(paths)} routes, cost {cost}", paths, True), 0


def lines_through(paths, spot, small, are_routes):
    """Returns the lines of a picture that draw paths: closed lines, or from 20 routes on, pale lines at the depot and then the others."""
    def line(shape, number, path):
        return [f'<{shape} stroke="{colour(number)}" points="', *(spot[c] for c in path), '"/>']

    if not are_routes or len(paths) < 20:
        return [text for number, path in paths.items() for text in line("polygon", number, path)]
    return [f'<g class="depot-lines" stroke-opacity=".5" stroke-width="{8 if small else 3}">',
            *(text for number, path in paths.items() for text in line("polyline", number, [path[-1], *path[:2]])), "</g>",
            *(text for number, path in paths.items() for text in line("polyline", number, path[1:]))]


def picture(problem, caption, paths, numbered=False):
    """Returns the text of a picture, with closed lines through cities, which are given by their numbers."""
    cities = range(1, problem.n + 1)
    xs, ys = ([problem.points[c][axis] for c in cities] for axis in (0, 1))
    left, bottom, top = min(xs), min(ys), max(ys)
    side = max(1, max(xs) - left, top - bottom)
    spot = {c: f"{(x - left) * 10000 // side},{(top - y) * 10000 // side}" for c, x, y in zip(cities, xs, ys)}
    width, height = (-((low - high) * 1000 // side) for low, high in ((left, max(xs)), (bottom, top)))
    room = max(200, height)
    title = f"{shown(problem.name)}: {caption}" + (f", places: {problem.origin} of the file" if problem.origin else "")
    small = problem.n < 2000
    lines = [f'<svg xmlns="http://www.w3.org/2000/svg" viewBox="0 0 1040 {80 + room}">', f"<title>{title}</title>",
             '<rect width="100%" height="100%" fill="white"/>',
             f'<text x="20" y="40" font-family="sans-serif" font-size="24">{title}</text>',
             f'<g transform="translate({20 + (1000 - width) // 2} {60 + (room - height) // 2}) scale(0.1)" fill="none" '
             f'stroke-linecap="round" stroke-linejoin="round" stroke-width="{20 if small else 6}">']
    lines += lines_through(paths, spot, small, numbered)
    if small or not paths:
        lines.append(f'<path stroke="black" stroke-width="{60 if small else 12}" d="')
        lines += [*(f"M{spot[c]}h0" for c in cities), '"/>']
    if numbered:
        numbers = [f'<text transform="translate({spot[path[1]]})" dy="-.4em" fill="{colour(number)}">{number}</text>'
                   for number, path in paths.items()]
        lines += ['<g font-family="sans-serif" font-weight="bold" text-anchor="middle" '
                  f'font-size="{140 if small else 60}">',
                  f'<g class="halo" aria-hidden="true" stroke="white" stroke-width="{40 if small else 17}">',
                  *numbers, "</g>", *numbers, "</g>"]
    if problem.cvrp:
        lines.append(f'<path fill="black" d="M{spot[problem.depot]}m-80,-80h160v160h-160z"/>')
    return "\n".join([*lines, "</g>", "</svg>", ""])


# The options of solve that are only for a TSP, and those that are only for a CVRP, in the order in which they are compared with the problem.
FOR_TOURS = ["--initial-tour", "--construction"]
FOR_ROUTES = ["--initial-solution", "--vehicles", "--within-routes"]


def solve_by_options(problem_file, options):
    """Like solve, but for a problem and options with their values."""
    initial_file = options.get("--initial-tour") or options.get("--initial-solution")
    opened = open_word(problem_file), initial_file and open_word(initial_file)
    problem = read_file(problem_file, opened[0], read_problem)
    for option in FOR_TOURS if problem.cvrp else FOR_ROUTES:
        if option in options:
            raise Refused(f"tourkit: {problem_file}: {option} does not fit the problem's type", 2)
    if problem.cvrp:
        check_initial_solution(problem, initial_file, opened[1])
    else:
        check_initial(problem, initial_file, opened[1])
    return "", None


def check_initial_solution(problem, initial_file, opened):
    """Rejects an initial solution that is not valid."""
    if initial_file:
        fault = solution_fault(problem, *read_file(initial_file, opened, read_solution))
        if fault:
            raise Refused(f"tourkit: {initial_file}: initial solution: {fault}", 2)


def check_initial(problem, initial_file, opened):
    """Rejects an initial tour that is not a tour of the problem."""
    if initial_file:
        fault = tour_fault(problem.n, read_file(initial_file, opened, read_tour))
        if fault:
            raise Refused(f"tourkit: {initial_file}: initial tour: {fault[0]}", 2)


def solve(file, *options):
    """Rejects what solve rejects. Otherwise returns the lines that name ignored keys, and None for the status."""
    flags = [word for word in options if word in ("--final-sweep", "--within-routes")]
    valued = [word for word in options if word not in ("--progress", *flags)]
    if valued or flags:
        return solve_by_options(file, dict(zip(valued[::2], valued[1::2])) | dict.fromkeys(flags))
    values, ignored = read_file(file, open_word(file), read_params)
    problem_file, initial_file = values[b"PROBLEM_FILE"], values.get(b"INITIAL_TOUR_FILE")
    opened = open_file(problem_file), initial_file and open_file(initial_file)
    problem = read_file(problem_file, opened[0], read_problem)
    for key in [b"SOLUTION_FILE"] if not problem.cvrp else [b"TOUR_FILE", b"INITIAL_TOUR_FILE"]:
        if key in values:
            raise Refused(f"tourkit: {problem_file}: {key.decode()} does not fit the problem's type", 2)
    check_initial(problem, initial_file, opened[1])
    return "".join(f"ignored {key.decode()}\n" for key in ignored), None


# The lines of check and checksol, the faults that they report, and the names of their numbers.
LINES = [
    (r"tour of (\d+) cities, length (\d+)", None, ["cities", "length"]),
    (r"wrong count: (\d+) wanted, (\d+) read", "WrongCount", ["wanted", "read"]),
    (r"out of range at place (\d+): (\d+)", "OutOfRange", ["place", "city"]),
    (r"repeated city at place (\d+): (\d+)", "RepeatedCity", ["place", "city"]),
    (r"(\d+) routes, cost (\d+)", None, ["routes", "cost"]),
    (r"bad customer in route (\d+): (\d+)", "BadCustomer", ["route", "customer"]),
    (r"customer served twice: (\d+)", "ServedTwice", ["customer"]),
    (r"over capacity in route (\d+): (\d+)", "OverCapacity", ["route", "load"]),
    (r"customer not served: (\d+)", "NotServed", ["customer"]),
    (r"wrong cost: (\d+) read, (\d+) counted", "WrongCost", ["read", "counted"]),
]


def object_of(line):
    """Returns the object that check and checksol print with --json instead of a line."""
    for form, fault, names in LINES:
        found = re.fullmatch(form + "\n", line)
        if found:
            told = {"valid": True} if fault is None else {"valid": False, "fault": fault}
            return json.dumps(told | dict(zip(names, map(int, found.groups()))), separators=(",", ":")) + "\n"
    return line


def answer_several(command, problem_file, files, as_json):
    """Returns standard output, standard error and the status of check or checksol with several files."""
    try:
        opened = open_word(problem_file)
        problem = read_cvrp(problem_file, opened) if command == "checksol" else read_file(problem_file, opened, read_problem)
    except Refused as refused:
        line, status = refused.args
        return refusal.object_of(line + "\n") if as_json else b"", line.encode() + b"\n", status
    judge = solution_verdict if command == "checksol" else tour_verdict
    out, told, highest = b"", b"", 0
    for file in files:
        try:
            line, status = judge(problem, file, open_word(file))
            out += refusal.with_file(file, object_of(line).encode()) if as_json else f"{file}: {line}".encode()
        except Refused as refused:
            line, status = refused.args
            out += refusal.with_file(file, refusal.object_of(line + "\n")) if as_json else b""
            told += line.encode() + b"\n"
        highest = max(highest, status)
    return out, told, highest


def as_object(words):
    """Returns standard output with --json, standard error and status."""
    out, told, status = answer([*words[:2], "FULL_MATRIX"] if words[0] == "matrix" else words)
    if told:
        out = refusal.printed_for([*words, "--json"], told.decode())
    elif words[0] in ("near", "matrix"):
        out = json.dumps(rows_of(words[0], out.decode().splitlines()), separators=(",", ":")).encode() + b"\n"
    else:
        out = object_of(out.decode()).encode()
    return out, told, status


def rows_of(command, lines):
    """Returns the object that near and matrix print with --json, from the lines of near or of a full matrix."""
    if command == "near":
        lists = [[int(city) for city in line.partition(": ")[2].split()] for line in lines]
        return {"candidates": len(lists[0]), "near": lists}
    rows = [[int(distance) for distance in line.split()] for line in lines[lines.index("EDGE_WEIGHT_SECTION") + 1 : -1]]
    return {"nodes": len(rows), "weights": rows}


def answer(words):
    """Returns standard output, standard error and status."""
    plain_words = [word for word in words if word != "--json"]
    if words[0] in ("check", "checksol") and len(plain_words) > 3:
        return answer_several(words[0], plain_words[1], plain_words[2:], "--json" in words)
    if "--json" in words:
        return as_object(plain_words)
    commands = {"check": check, "info": info, "near": near, "matrix": matrix, "checksol": checksol, "plot": plot, "solve": solve}
    if words[0] == "near":
        words = words[:2] + [int(words[3]) if len(words) > 2 else 5]
    try:
        out, status = commands[words[0]](*words[1:])
        return out if isinstance(out, bytes) else out.encode(), b"", status
    except Refused as refused:
        line, status = refused.args
        return b"", line.encode() + b"\n", status


if __name__ == "__main__":
    written, told, code = answer(sys.argv[1:])
    sys.stdout.buffer.write(written)
    sys.stderr.buffer.write(told)
    sys.exit(0 if code is None else code)
