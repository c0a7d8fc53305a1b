#!/usr/bin/env python3
"""Writes problems of uniform and clustered cities, and parameter files for them, to a directory.

usage: instances.py DIR [DIVISOR]

The numbers of trials are divided by DIVISOR.
"""
import os
import sys

SIDE = 1_000_000


class Draw:
    """A congruential generator, so that the files are the same on every machine."""

    def __init__(self, seed):
        self.state = seed

    def below(self, bound):
        self.state = (self.state * 6364136223846793005 + 1442695040888963407) % 2**64
        return (self.state >> 33) % bound


def uniform(draw, n):
    """Places in a square."""
    return [(draw.below(SIDE), draw.below(SIDE)) for _ in range(n)]


def clustered(draw, n):
    """Places near a hundredth as many centres."""
    centres = uniform(draw, n // 100)
    spread = SIDE // 100
    return [(x + draw.below(spread) + draw.below(spread), y + draw.below(spread) + draw.below(spread))
            for x, y in (centres[draw.below(len(centres))] for _ in range(n))]


def strip(draw, n):
    """Places in a strip."""
    return [(draw.below(SIDE), draw.below(100)) for _ in range(n)]


def tenths(draw, n):
    """Places in a square of side 4,000, with one decimal."""
    return [tuple(f"{c // 10}.{c % 10}" for c in (draw.below(40_000), draw.below(40_000))) for _ in range(n)]


def problem(draw, name, n, capacity=None, places=uniform):
    lines = [f"NAME : {name}", f"TYPE : {'TSP' if capacity is None else 'CVRP'}", f"DIMENSION : {n}", "EDGE_WEIGHT_TYPE : EUC_2D"]
    if capacity is not None:
        lines.append(f"CAPACITY : {capacity}")
    lines.append("NODE_COORD_SECTION")
    lines += [f"{i} {x} {y}" for i, (x, y) in enumerate(places(draw, n), 1)]
    if capacity is not None:
        lines.append("DEMAND_SECTION")
        lines += [f"{i} {0 if i == 1 else 1 + draw.below(100)}" for i in range(1, n + 1)]
        lines += ["DEPOT_SECTION", "1", "-1"]
    return "\n".join(lines + ["EOF", ""])


def main():
    folder = sys.argv[1]
    divisor = int(sys.argv[2]) if len(sys.argv) > 2 else 1
    draw = Draw(12345)
    os.makedirs(folder, exist_ok=True)

    def write(name, text):
        with open(os.path.join(folder, name), "w") as file:
            file.write(text)

    for n, trials in [(1_000, 30_000), (10_000, 10_000), (100_000, 1_000)]:
        name = f"tsp{n}"
        write(f"{name}.tsp", problem(draw, name, n))
        keys = f"PROBLEM_FILE = {name}.tsp\nMAX_CANDIDATES = 5\nRUNS = 1\nSEED = 1\nTOUR_FILE = {name}.out\n"
        write(f"{name}.par", f"{keys}MAX_TRIALS = {trials // divisor}\n")
        write(f"{name}-once.par", f"{keys}MAX_TRIALS = 1\n")
        write(f"{name}-savings.par", f"{keys}MAX_TRIALS = 1\nCONSTRUCTION = SAVINGS\n")
    for name, n, trials, candidates, places in [("clusters10000", 10_000, 10_000, 5, clustered), ("k10-10000", 10_000, 10_000, 10, uniform),
                                                ("tenths493", 493, 30_000, 5, tenths), ("long100000", 100_000, 100_000, 5, uniform)]:
        write(f"{name}.tsp", problem(draw, name, n, places=places))
        keys = f"PROBLEM_FILE = {name}.tsp\nMAX_CANDIDATES = {candidates}\nRUNS = 1\nSEED = 1\nTOUR_FILE = {name}.out\n"
        write(f"{name}.par", f"{keys}MAX_TRIALS = {trials // divisor}\n")


if __name__ == "__main__":
    main()
