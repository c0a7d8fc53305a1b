"""Arguments that threads change while a call runs, and files without an end. Tests that might end the process run in one of their own."""

import array
import contextlib
import ctypes
import importlib.util
import json
import os
import pathlib
import re
import resource
import subprocess
import sys
import threading
import time

import tourkit
from tourkit import _files, _library

TESTS = pathlib.Path(__file__).resolve().parents[1]
HEADER = TESTS.parent / "include/tourkit.h"

SIZE = 100_000
SECONDS = 2
NONSENSE = (0, 2**32 - 1)
PLACES = range(500, SIZE, 1_000)

MEMORY = 1 << 30  # the limit of a process that reads files without an end
MOST_KILOBYTES = 200_000
MOST_SECONDS = 2


def apart(code, module="safety", **how):
    """Runs code of a module in a process of its own, which must succeed, and returns its output."""
    words = [sys.executable, "-B", "-c", f"import {module}; {module}.{code}"]
    environment = {**os.environ, "PYTHONPATH": os.pathsep.join(sys.path)}
    how.update(env=environment, stdout=subprocess.PIPE, stderr=subprocess.STDOUT, text=True)
    ran = subprocess.run(words, timeout=120, check=False, **how)
    assert ran.returncode == 0, f"{code}: status {ran.returncode}\n{ran.stdout}"
    return ran.stdout


class Recorder:
    """Calls the functions of the shared library, and records their arguments."""

    def __init__(self):
        self.made = []

    def __getattr__(self, name):
        def call(*arguments):
            self.made.append((name, arguments))
            getattr(LIBRARY, name)(*arguments)

        return call


LIBRARY = _library.LIBRARY

# The functions that the package does not call. It takes explicit weights as all distances, and passes options instead of parameters.
UNUSED = {"tourkit_weights", "tourkit_solve"}


def make_each_call():
    """Calls each function, with texts and arrays that can be changed."""
    text, cities = bytearray(pathlib.Path("tri.tsp").read_bytes()), array.array("I", [1, 2, 3])
    points = tourkit.Problem.from_points(array.array("d", [place]) * 2 for place in range(3))
    weights = tourkit.Problem.from_matrix(memoryview(bytearray(9 * 4)).cast("I", [3, 3]))
    for problem in (text, memoryview(text), points, weights):
        for tour in (cities, memoryview(cities), memoryview(cities)[::-1], ctypes_array(cities)):
            assert tourkit.check(problem, tour), tour
            tourkit.plot(problem if problem is not weights else text, tour, html=True)
        tourkit.near(problem, 2), tourkit.distances(problem), tourkit.matrix(problem)
    found = tourkit.solve(text, runs=1, initial_tour=cities)
    assert tourkit.check(text, tourkit.Tour(found.length, found.cities, found.runs, bytearray(found.text)))
    plan = bytearray(pathlib.Path("bakery-plan.sol").read_bytes())
    tourkit.check_solution("bakery.vrp", plan)
    tourkit.solve("bakery.vrp", trials=1, initial_solution=plan)
    for problem in map(tourkit.Problem, ("bakery.vrp", text)):
        assert problem.points and problem.weights is None and bool(problem.demands) == (problem.kind == "cvrp")
    tourkit.solve(text, runs=2, jobs=2)
    tourkit.read_tour(bytearray(found.text))
    tourkit.explain(text, 2)
    with contextlib.suppress(tourkit.Refused):
        tourkit.near(bytearray(b"EOF\n"))


def ctypes_array(cities):
    """The cities as an array of ctypes."""
    return (ctypes.c_uint32 * len(cities))(*cities)


def try_inputs_are_bytes():
    """The texts and arrays of a call are `bytes`, which no other thread can change, at addresses that the header allows. The options of a
    search are a structure that is made for the call."""
    reads = {}
    for name, parameters in re.findall(r"void (tourkit_\w+)\(([^)]*)\);", HEADER.read_text()):
        reads[name] = [place for place, word in enumerate(parameters.split(",")) if "const" in word and "tourkit_" not in word]
    recorder = _library.LIBRARY = Recorder()
    try:
        make_each_call()
    finally:
        _library.LIBRARY = LIBRARY
    assert {name for name, _ in recorder.made} == set(reads) - UNUSED, "other calls were made"
    for name, arguments in recorder.made:
        for place in reads[name]:
            given = arguments[place]
            assert type(given) is bytes and ctypes.cast(given, ctypes.c_void_p).value % 8 == 0, (name, place, given)


def check_while_changed(kind):
    """Checks a tour again and again, while another thread writes nonsense into it and restores it. Prints the number of checks."""
    problem = tourkit.Problem.from_points((place, 0) for place in range(SIZE))
    tour = kind(range(1, SIZE + 1))
    wanted = tourkit.check(problem.text, tour)
    assert wanted and wanted.length == 2 * (SIZE - 1), wanted
    end, checks = time.monotonic() + SECONDS, 0

    def change():
        while time.monotonic() < end:
            for city in NONSENSE:
                for place in PLACES:
                    tour[place] = city
                for place in PLACES:
                    tour[place] = place + 1

    changing = threading.Thread(target=change)
    changing.start()
    while changing.is_alive():
        for given in (problem, problem.text):
            verdict = tourkit.check(given, tour)
            is_of_nonsense = verdict.fault == "OutOfRange" and verdict.place - 1 in PLACES and verdict.city in NONSENSE
            assert verdict == wanted or is_of_nonsense, verdict
            checks += 1
    print(checks)


def array_of(cities):
    """Cities as an array of 32-bit integers."""
    return array.array("I", cities)


def numpy_array_of(cities):
    """Cities as a numpy array."""
    import numpy

    return numpy.array(cities, dtype=numpy.uint32)


def try_changes_during_checks():
    """A tour may change while it is checked: the verdict is right about the cities at some time."""
    for kind in ["safety.array_of", "list"] + ["safety.numpy_array_of"] * bool(importlib.util.find_spec("numpy")):
        checks = int(apart(f"check_while_changed({kind})"))
        assert checks > 10, f"only {checks} checks of {kind}"


# Calls that read a file, by the arguments of the program.
ENDLESS = {
    "near FILE": lambda file: tourkit.near(file),
    "matrix FILE FULL_MATRIX": lambda file: tourkit.matrix(file),
    "check FILE tri.tour": lambda file: tourkit.check(file, "tri.tour"),
    "check tri.tsp FILE": lambda file: tourkit.check("tri.tsp", file),
    "checksol bakery.vrp FILE": lambda file: tourkit.check_solution("bakery.vrp", file),
    "plot FILE": lambda file: tourkit.plot(file),
    "plot tri.tsp FILE": lambda file: tourkit.plot("tri.tsp", file),
    "plot bakery.vrp FILE": lambda file: tourkit.plot("bakery.vrp", file),
    "solve FILE --runs 1": lambda file: tourkit.solve(file, runs=1),
    "solve tri.tsp --initial-tour FILE": lambda file: tourkit.solve("tri.tsp", initial_tour=file),
}


def read_endless(words, file):
    """Makes the call for some arguments of the program. Prints the fault, the seconds and kilobytes that it took, and the members of the
    exception."""
    resource.setrlimit(resource.RLIMIT_AS, (MEMORY, MEMORY))
    began = time.monotonic()
    try:
        ENDLESS[words](file)
    except tourkit.Refused as fault:
        took = time.monotonic() - began
        most = resource.getrusage(resource.RUSAGE_SELF).ru_maxrss
        print(json.dumps([str(fault), took, most, fault.number, fault.name, fault.line, fault.file]))


def try_endless(program, file, writer=None):
    """Each call rejects a file without an end as the program does, within the limits of time and memory."""
    for words in ENDLESS:
        with Writer(writer) as source:
            told = subprocess.run([program, *words.replace("FILE", file).split()], stdin=source, stderr=subprocess.PIPE, check=False).stderr
        with Writer(writer) as source:
            fault, took, most, *members = json.loads(apart(f"read_endless({words!r}, {file!r})", stdin=source))
        assert f"tourkit: {fault}\n" == told.decode(), (words, fault, told)
        number, name = re.fullmatch(r".*:1: (\d+) (\w+)", fault).groups()
        assert members == [int(number), name, 1, file], (words, members)
        assert took < MOST_SECONDS and most < MOST_KILOBYTES, f"{words}: {took:.2f} s, {most:,} kB"


class Writer:
    """A process that writes to a pipe without an end, or no process if there are no words. Yields the pipe, or a null device."""

    def __init__(self, words):
        self.process = subprocess.Popen(words, stdout=subprocess.PIPE) if words else None

    def __enter__(self):
        return self.process.stdout if self.process else subprocess.DEVNULL

    def __exit__(self, *_):
        if self.process:
            self.process.stdout.close()
            self.process.kill()
            self.process.wait()


def texts_of_cases():
    """The short texts of tests/cases."""
    files = [file for case in sorted(TESTS.glob("cases/*")) for file in (*case.glob("in/*"), case / "stdin") if file.is_file()]
    return {text for text in (file.read_bytes() for file in files) if len(text) < 2_000}


def answer_to(text, read):
    """The answer of a reader to a text."""
    answer = read(text)
    return answer.status, answer.text, answer.line, answer.kind


def try_decided_starts():
    """If the fault of the start of a text counts as decided, each longer text has this fault."""
    ends = [b"\n", b" ", b"7", b"x\n", b"-1\n", b"\n-1\nEOF\n", b"E #1: 1\nCost 1\n", b"\nROUTE 1: 1\n", b"x" * _files.UNBROKEN]
    decided = dict.fromkeys(("problem", "tour", "solution"), 0)
    for text in sorted(texts_of_cases()):
        for start in starts_of(text):
            for what in decided:
                read, = _files.READERS[what]
                if _files.is_decided(start, what):
                    decided[what] += 1
                    answer = answer_to(start, read)
                    for end in (text[len(start) :], *ends):
                        assert answer_to(start + end, read) == answer, (what, start[-80:], end[:80])
    assert min(decided.values()) > 100, decided


def starts_of(text):
    """Some starts of a text, each as it is and followed by a word that is too long."""
    for place in range(0, len(text) + 1, max(1, len(text) // 5)):
        yield text[:place]
        yield text[:place] + b"7x,"[place % 3 :][:1] * _files.UNBROKEN


def try_length_of_texts(folder):
    """A file is read no further than one byte over the limit. If it might have no end, it is read no further than necessary for a fault."""
    file, known = folder / "long.tsp", (_files.TEXT_LIMIT, _files.STARTS)
    try:
        for limit, size in ((100, 99), (100, 100), (100, 101), (100, 102), (_files.PIECE + 5, _files.PIECE + 9)):
            _files.TEXT_LIMIT, _files.STARTS = limit, (7, 50)
            for text in (b"\n" * size, (b"COMMENT : x\n" * size)[:size]):
                file.write_bytes(text)
                assert _files.read_file(file, "problem") == text[: limit + 1], (limit, size)
            file.write_bytes(b"COMMENT : x\n" + b"?\n" * size)
            assert len(_files.read_file(file, "problem")) == 50, (limit, size)
    finally:
        _files.TEXT_LIMIT, _files.STARTS = known


def tests(program, folder):
    """The checks of this file, each with its description."""
    checks = [try_inputs_are_bytes, try_changes_during_checks, try_decided_starts]
    return [
        *((check.__doc__, check) for check in checks),
        (try_length_of_texts.__doc__, lambda: try_length_of_texts(folder)),
        ("zeros without an end", lambda: try_endless(program, "/dev/zero")),
        ("lines without an end", lambda: try_endless(program, "/dev/stdin", ["yes"])),
    ]
