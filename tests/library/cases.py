"""The cases of tests/cases as calls of the package `tourkit`, and their expected results."""

import dataclasses
import json
import os
import re
import sys
from pathlib import Path

TESTS = Path(__file__).resolve().parents[1]
sys.path.append(str(TESTS / "readers"))

import refusal
import texts
import tourkit
from tourkit._search import LINE, LINES, TEXT
from tourkit._text import Text
from tourkit._writing import write_texts

# What the package does not have.
OF_THE_COMMAND = {"--help", "--names", "--seconds", "--vehicles"}

# Messages about the command line, the files that the program opens and writes, or its two ways to search.
OF_THE_PROGRAM = re.compile(r"^error: |cannot be opened|is the same file as|is the parameter file|search options need")

# The search options that take a value, and the keys of parameter files, by the arguments of `solve`.
OPTIONS = {"trials": int, "runs": int, "seed": int, "candidates": int, "or_segment": int, "construction": str, "initial_tour": str,
           "initial_solution": str}
FLAGS = ("final_sweep", "within_routes")
KEYS = {"trials": b"MAX_TRIALS", "runs": b"RUNS", "seed": b"SEED", "candidates": b"MAX_CANDIDATES", "or_segment": b"OR_SEGMENT",
        "construction": b"CONSTRUCTION", "initial_tour": b"INITIAL_TOUR_FILE", "final_sweep": b"FINAL_SWEEP"}

RUN = "run {run}: start {start}, best {best}, trials {trials}, moves {moves}, tests {tests}, swaps {swaps}\n"
IMPROVED = "savings {savings}, routes {routes}\nimproved {improved}, moves {moves}, tests {tests}, swaps {swaps}\nbest {best}\n"
ROUTE_RUN = RUN.replace("trials", "routes {routes}, trials", 1)

# The numbers that each row of a matrix keeps, by the format. The matrix is symmetric, so columns are its rows.
ROWS = {
    "FULL_MATRIX": lambda row, i: row,
    "UPPER_ROW": lambda row, i: row[i + 1 :],
    "LOWER_COL": lambda row, i: row[i + 1 :],
    "LOWER_ROW": lambda row, i: row[:i],
    "UPPER_COL": lambda row, i: row[:i],
    "UPPER_DIAG_ROW": lambda row, i: row[i:],
    "LOWER_DIAG_COL": lambda row, i: row[i:],
    "LOWER_DIAG_ROW": lambda row, i: row[: i + 1],
    "UPPER_DIAG_COL": lambda row, i: row[: i + 1],
}


class Case:
    """A case: its arguments, and the inputs and expected outputs of the program."""

    def __init__(self, folder):
        self.name = folder.name
        self.folder = folder
        self.words = (folder / "words").read_text(errors="surrogateescape").splitlines()
        self.command = self.words[0] if self.words else ""
        self.stdout = self.content("stdout")
        self.stderr = self.content("stderr").decode()
        self.status = int(self.content("status") or 0)

    def content(self, name):
        """Returns the bytes of a file of the case; no bytes if it is missing."""
        file = self.folder / name
        return file.read_bytes() if file.is_file() else b""

    def has_call(self):
        """Returns whether the package has a function for the arguments."""
        if self.command == "explain" and not (self.folder / "in" / self.words[1]).is_file():
            return False  # the name of a fault, or standard input, whose name would be another
        several = self.command in ("check", "checksol", "plot") and len(self.files()) > 2
        return self.command in CALLS and not several and not OF_THE_COMMAND & set(self.words) and not OF_THE_PROGRAM.search(self.stderr)

    def files(self):
        """Returns its files, and the contents of standard input for `-`, as the package accepts them."""
        return [self.given(word) for word in self.words[1:] if word not in ("--json", "--html")]

    def given(self, word):
        """Returns a file, or the contents of standard input for `-`."""
        return self.content("stdin") if word == "-" else word

    def written(self, name):
        """Returns the bytes that the program writes to a file."""
        return self.content(f"out/{name}") or self.content(f"in/{name}")


def read_cases():
    """Returns all cases for which the package has a function."""
    cases = (Case(words.parent) for words in sorted(TESTS.glob("cases/*/words")))
    return [case for case in cases if case.has_call()]


def try_case(case):
    """Makes the call of a case, in the directory with its files. It must return the bytes of the case, or reject with its line."""
    told = ""
    try:
        out = CALLS[case.command](case)
    except tourkit.Refused as fault:
        out = b""
        told = f"{fault}\n" if case.status == 1 else f"tourkit: {fault}\n"
    except OSError:
        assert case.status == 3 and "14 Read" in case.stderr, "a file could not be read"
        return
    told = re.sub("<(problem|tour|solution|claim)>", "-", told)
    told = re.sub(r"(\w+) (?=does not fit)", lambda name: name[0] if name[1].isupper() else f"--{name[0].replace('_', '-')}", told)
    if told:
        out = refusal.printed_for(case.words, told)
    assert told == (case.stderr if case.status else ""), told
    assert out == case.stdout, out


def check(case):
    problem, tour = case.files()
    verdict = tourkit.check(problem, tour)
    try_lists(problem, tour, verdict)
    return said(case, verdict)


def try_lists(problem, tour, verdict):
    """Checks the tour as a list of cities too, and the problem as the reference reader reads it."""
    cities = texts.read_tour(bytes_of(tour))
    assert tourkit.check(problem, cities) == verdict, "another verdict on the list"
    assert tourkit.check(problem_of(bytes_of(problem)), cities) == verdict, "another verdict on the problem in memory"


def bytes_of(given):
    return given if isinstance(given, bytes) else Path(given).read_bytes()


def problem_of(text):
    """Returns the problem of the coordinates or the weights that the reference reader finds in a text."""
    read = texts.read_problem(text)
    cities = range(1, read.n + 1)
    if read.kind == b"EXPLICIT":
        return tourkit.Problem.from_matrix([[read.weights.get((a, b), 0) for b in cities] for a in cities])
    points = [[decimal(units) for units in read.points[city]] for city in cities]
    return tourkit.Problem.from_points(points, read.kind.decode())


def decimal(units):
    """Returns a coordinate as a decimal number."""
    return f"{'-' if units < 0 else ''}{abs(units) // texts.UNIT}.{abs(units) % texts.UNIT:09}"


def check_solution(case):
    problem, solution = case.files()
    verdict = tourkit.check_solution(problem, solution)
    routes, cost = texts.read_solution(bytes_of(solution))
    listed = tourkit.check_solution(problem, routes)
    if verdict.fault == "WrongCost":
        assert listed and listed.cost == verdict.counted, "another cost of the lists"
    else:
        assert listed == verdict, "another verdict on the lists"
    return said(case, verdict)


def said(case, verdict):
    """Returns a verdict as a line, or as a JSON object."""
    assert bool(verdict) == (case.status == 0), verdict
    known = {name: value for name, value in vars(verdict).items() if value is not None}
    return json_of(known) if "--json" in case.words else f"{verdict}\n".encode()


def json_of(members):
    return json.dumps(members, separators=(",", ":")).encode() + b"\n"


def near(case):
    problem, *rest = case.files()
    lists = tourkit.near(problem, **({"k": int(rest[1])} if rest else {}))
    assert lists == tourkit.near(problem_of(bytes_of(problem)), lists.shape[1]), "other near lists of the problem in memory"
    if "--json" in case.words:
        return json_of({"candidates": lists.shape[1], "near": lists.tolist()})
    lines = (f"{city}: {' '.join(map(str, cities))}\n" for city, cities in enumerate(lists.tolist(), 1))
    return "".join(lines).encode()


def matrix(case):
    """Returns the matrix in the format of the case; the package returns a full matrix."""
    problem, form = case.files()
    head, _, numbers = tourkit.matrix(problem).partition(b"FULL_MATRIX\nEDGE_WEIGHT_SECTION\n")
    rows = tourkit.distances(problem).tolist()
    if "--json" in case.words:
        return json_of({"nodes": len(rows), "weights": rows})
    assert numbers == lines_of(rows) + b"EOF\n", "other numbers than the distances"
    kept = [ROWS[form](row, i) for i, row in enumerate(rows)]
    return head + f"{form}\nEDGE_WEIGHT_SECTION\n".encode() + lines_of(filter(None, kept)) + b"EOF\n"


def lines_of(rows):
    return "".join(" ".join(map(str, row)) + "\n" for row in rows).encode()


def plot(case):
    """Returns the picture or the page of a case. A page contains its picture."""
    if "--html" not in case.words:
        return tourkit.plot(*case.files()).svg
    picture = tourkit.plot(*case.files(), html=True)
    assert picture.svg == tourkit.plot(*case.files()).svg, "another picture"
    return picture.html


def solve(case):
    """Searches by the options of a case, or by its parameter file."""
    options = [word for word in case.words if word.startswith("-") and word not in ("-", "--json", "--progress")]
    return solve_options(case) if options else solve_parameters(case)


def solve_options(case):
    problem, *rest = [word for word in case.words[1:] if word not in ("--json", "--progress")]
    given, output = {}, None
    while rest:
        word = rest.pop(0)
        if word in ("-o", "--output"):
            output = rest.pop(0)
            continue
        name = word[2:].replace("-", "_")
        given[name] = True if name in FLAGS else case.given(OPTIONS[name](rest.pop(0)))
    found = tourkit.solve(case.given(problem), **given)
    assert output is None or found.text == case.written(output), found.text
    return told_of(case, found)


def solve_parameters(case):
    """Searches by the text of a parameter file, as the C function does. If it is accepted, arguments must give the same search."""
    file = next(word for word in case.words[1:] if not word.startswith("--"))
    parameters = Text(bytes_of(case.given(file)), "parameters", file)
    try:
        values, ignored = texts.read_params(parameters.data)
    except texts.ParamFault:
        search(parameters, Text(b"", "problem"), Text(b"", "tour"), {})
        raise AssertionError("parameters that a second reader refuses") from None
    names = {key: values.get(key) for key in (b"PROBLEM_FILE", b"INITIAL_TOUR_FILE", b"TOUR_FILE", b"SOLUTION_FILE")}
    problem = Text(bytes_of(names[b"PROBLEM_FILE"]), "problem", names[b"PROBLEM_FILE"])
    initial = names[b"INITIAL_TOUR_FILE"]
    start = Text(bytes_of(initial), "tour", initial) if initial else Text(b"", "tour")
    lines, text = search(parameters, problem, start, values)
    output = names[b"TOUR_FILE"] or names[b"SOLUTION_FILE"]
    assert output is None or text == case.written(output), text
    arguments = {name: plain(values[key]) for name, key in KEYS.items() if key in values}
    if tourkit.Problem(problem.file).kind == "cvrp":
        arguments = {**arguments, "within_routes": True}
        arguments.pop("construction", None)
    found = tourkit.solve(problem.file, **arguments)
    assert found.text == text, "another search by arguments"
    ignored = [key.decode() for key in ignored]
    assert lines == b"".join(f"ignored {key}\n".encode() for key in ignored) + lines_of_search(found), lines
    return told_of(case, found, ignored)


def search(parameters, problem, start, values):
    """Searches by a parameter file, as a C program does, and returns the lines and the text. If a key is rejected, the error contains the
    name of the key in the file."""
    texts = [parameters, problem, start]
    words = [word for text in texts for word in text.words]
    try:
        return write_texts("tourkit_solve", texts, words, [LINES + LINE * values.get(b"RUNS", 10), TEXT])[1]
    except tourkit.Refused as fault:
        raise tourkit.Refused(str(fault).replace("initial_tour does", "INITIAL_TOUR_FILE does"), fault.number, fault.name) from None


def plain(value):
    """Converts the value of a key into an argument."""
    if value in (b"YES", b"NO"):
        return value == b"YES"
    return value.decode() if isinstance(value, bytes) else value


def told_of(case, found, ignored=()):
    """Returns the result of a search as lines, or as a JSON object."""
    if "--json" in case.words:
        return json_of({"ignored": list(ignored), **object_of(found)})
    return b"".join(f"ignored {key}\n".encode() for key in ignored) + lines_of_search(found)


def object_of(found):
    """Returns the result of a search, by the names of --json."""
    runs = [dataclasses.asdict(run) for run in found.runs]
    if isinstance(found, tourkit.Tour):
        return {"runs": runs, "best": found.length}
    if not is_improvement(found):
        return {"start": dataclasses.asdict(found.start), "runs": runs, "best": found.cost, "routes": len(found.customers)}
    work = {name: runs[0][name] for name in ("moves", "tests", "swaps")}
    return {"savings": found.start.cost, "routes": len(found.customers), "improved": found.cost, **work, "best": found.cost}


def is_improvement(found):
    """Returns whether each of the routes was improved by itself."""
    return [run.trials for run in found.runs] == [0]


def lines_of_search(found):
    """Returns the lines that the program prints for a search."""
    members = object_of(found)
    if "improved" in members:
        return IMPROVED.format(**members).encode()
    if isinstance(found, tourkit.Tour):
        lines = [*(RUN.format(**run) for run in members["runs"]), "best {best}\n".format(**members)]
    else:
        runs = (ROUTE_RUN.format(**run) for run in members["runs"])
        lines = [start_line(found.start), *runs, "best {best}, routes {routes}\n".format(**members)]
    return "".join(lines).encode()


def start_line(start):
    """Returns the line of the routes that a search began with."""
    label, end = ("initial", "") if start.candidates is None else ("savings", f", candidates {start.candidates}")
    return f"{label} {start.cost}, routes {start.routes}{end}\n"


def explain(case):
    file, *line = case.words[1:]
    page = tourkit.explain(file, *map(int, line))
    assert page == tourkit.explain(Renamed(file), *map(int, line)), "another explanation of a path"
    return page.encode()


class Renamed(os.PathLike):
    """A file, given as an object."""

    def __init__(self, name):
        self.name = name

    def __fspath__(self):
        return self.name


CALLS = {"explain": explain, "check": check, "checksol": check_solution, "near": near, "matrix": matrix, "plot": plot, "solve": solve}
