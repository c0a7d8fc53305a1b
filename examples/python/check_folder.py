#!/usr/bin/env python3
"""Checks every tour file of a directory (each file whose name ends in .tour) against one problem, and prints a line for each: the shortest
tour first, then the files without a tour. The problem is read from disk once. The status is 1 if a file does not contain a tour of the
problem.

usage: check_folder.py PROBLEM DIR        (needs the package `tourkit`: see docs/PYTHON.md)"""

import sys
from pathlib import Path
from typing import Dict, Tuple

import tourkit


def said_of(problem: tourkit.Problem, file: Path) -> Tuple[str, float]:
    """Returns the verdict on a tour file as a text, and the length of its tour. Without a tour, the length is infinite."""
    try:
        verdict = tourkit.check(problem, file)
    except tourkit.Refused as fault:
        return f"line {fault.line}: {fault.number} {fault.name}", float("inf")
    return str(verdict), float("inf") if verdict.length is None else verdict.length


def main() -> int:
    if len(sys.argv) != 3:
        sys.exit(__doc__)
    problem = tourkit.Problem(sys.argv[1])
    lengths: Dict[str, float] = {}
    for file in sorted(Path(sys.argv[2]).glob("*.tour")):
        said, length = said_of(problem, file)
        lengths[f"{file.name}: {said}"] = length
    for line in sorted(lengths, key=lengths.__getitem__):
        print(line)
    return int(float("inf") in lengths.values())


if __name__ == "__main__":
    try:
        sys.exit(main())
    except (OSError, tourkit.Refused) as fault:
        sys.exit(f"check_folder.py: {fault}")
