"""Tours and solutions that `read_tour` and `read_solution` return, compared with the reference reader."""

import re
import sys
from pathlib import Path

TESTS = Path(__file__).resolve().parents[1]
sys.path.append(str(TESTS / "readers"))

import problems
import texts
import tourkit
from tourkit import _library

# The ends of tour files, and solution files, in an unusual form.
ENDS = [b"", b"\n", b" : +1 02 3", b"\n1\n2\n-1 -1\nEOF\nTOUR_SECTION\n5\n", b"\n1 2 -01\nNAME : 7\n", b"\n1 4294967295 eof\nNAME : 8\n9\n",
        b"\n1 2\nEOF: 3", b"\r1\r2\r-1\r\n", b"\n-0 0"]
TOURS = [b"TYPE : TOUR\nTOUR_SECTION" + end for end in ENDS]
SOLUTIONS = [b"Cost 5", b" route#+7:\rCOST : 5\nroute1: 2\nRoute\x0b: 2",
             b"Route #1 : 1 +2\t03\n\nROUTE -1:\nroute 2:4294967295\nCost 0\nnothing : 3\n"]


def texts_of_cases(word):
    """The texts of tests/cases that contain this word."""
    files = [file for case in sorted(TESTS.glob("cases/*")) for file in (*case.glob("in/*"), case / "stdin") if file.is_file()]
    return sorted({text for text in (file.read_bytes() for file in files) if word in text.upper()})


def compare(given, read, read_by_reference):
    """Compares the results for these texts. A rejected text has the same fault on the same line."""
    counts = {"read": 0, "rejected": 0}
    for text in given:
        try:
            wanted = read_by_reference(text)
        except texts.Fault as fault:
            try:
                found = read(text)
            except tourkit.Refused as refused:
                assert re.sub(r"^<\w+>:", "", str(refused)) == str(fault), (refused, fault)
                assert (refused.line, refused.name) == (fault.line, fault.name), refused
                counts["rejected"] += 1
                continue
            raise AssertionError(f"{found!r} is read from {text!r}") from None
        assert read(text) == wanted, text[:200]
        counts["read"] += 1
    assert min(counts.values()) > 100, counts


def try_tours():
    """`read_tour` returns the cities that the reference reader reads, or raises its fault."""
    compare(TOURS + problems.random_texts(["check"]) + texts_of_cases(b"TOUR"), tourkit.read_tour, texts.read_tour)


def try_solutions():
    """`read_solution` returns the routes that the reference reader reads, or raises its fault."""
    compare(SOLUTIONS + problems.random_texts(["checksol"]) + texts_of_cases(b"COST"), tourkit.read_solution, lambda text: texts.read_solution(text)[0])


def try_files():
    """Both read files, which faults name. Their lists are accepted by the checks."""
    assert tourkit.read_tour("tri.tour") == tourkit.read_tour(Path("tri.tour")) == [1, 2, 3]
    assert tourkit.check("tri.tsp", tourkit.read_tour("tri.tour")).length == 12
    routes = tourkit.read_solution("bakery-plan.sol")
    assert tourkit.check_solution("bakery.vrp", routes).cost == tourkit.check_solution("bakery.vrp", "bakery-plan.sol").cost
    for read in (tourkit.read_tour, tourkit.read_solution):
        try:
            read("tri.tsp")
        except tourkit.Refused as fault:
            assert fault.file == "tri.tsp" and fault.line and str(fault).startswith(f"tri.tsp:{fault.line}: "), fault
        try:
            read([1, 2])
        except TypeError as error:
            assert str(error) == "file must be a file (str or os.PathLike) or a text (bytes), not list", error


def try_explanations():
    """`explain` explains texts without a file too, and its errors name the argument."""
    assert tourkit.explain(Path("tri.tsp").read_bytes()).startswith("<text> has no fault: "), "another name"
    assert tourkit.explain("tri.tour", 2).startswith("tri.tour:2: "), "another line"
    for call, message in {
        lambda: tourkit.explain("tri.tsp", 0): "line must be from 1 to 18,446,744,073,709,551,615, not 0",
        lambda: tourkit.explain([1]): "file must be a file (str or os.PathLike) or a text (bytes), not list",
    }.items():
        try:
            raise AssertionError(call())
        except (TypeError, ValueError) as error:
            assert str(error) == message, error


def try_version():
    """The version of the package is that of the library and of the program. The package rejects a library of another version."""
    version = tourkit.__version__
    major, minor, patch = map(int, version.split("."))
    assert f'VERSION = "{version}"\n' in (TESTS.parent / "build").read_text(), version
    assert f'.version("{version}")' in (TESTS.parent / "crates/tk_command_line/src/command.rt").read_text(), version
    number = 10_000 * major + 100 * minor + patch
    assert f"\n#define TOURKIT_VERSION {number}\n" in (TESTS.parent / "include/tourkit.h").read_text(), number
    for other in (f"{major}.{minor}.{patch + 1}", f"{major + 1}.{minor}.{patch}"):
        try:
            _library.require_version(other)
        except ImportError as error:
            assert str(error) == f"tourkit is of version {other}, but its library is of version {version}", error
        else:
            raise AssertionError(f"version {other} was accepted")


def tests():
    """Returns the checks of this file, named by their docstrings."""
    return [(check.__doc__, check) for check in (try_tours, try_solutions, try_files, try_explanations, try_version)]
