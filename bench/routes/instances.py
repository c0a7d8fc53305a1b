#!/usr/bin/env python3
"""Writes problems of uniform customers around a uniform depot to a directory, with the words by which `solve` is called.

usage: instances.py DIR

Demands are 1 to 100 and the capacity is 1,000, so a route has about 20 customers. Each problem is solved by parameter files with 5 and with
100 candidates, and by a search between routes. The problems of 1,000 and 5,000 nodes have as many trials as nodes; a third one has 600 nodes
and 30,000 trials.
"""
import os
import sys

sys.path.insert(0, os.path.join(os.path.dirname(os.path.abspath(__file__)), "..", "solve"))
from instances import Draw, problem

CAPACITY = 1_000


def main():
    folder = sys.argv[1]
    draw = Draw(54321)
    os.makedirs(folder, exist_ok=True)

    def write(name, text):
        with open(os.path.join(folder, name), "w") as file:
            file.write(text)

    for n, trials in [(1_000, 1_000), (5_000, 5_000), (600, 30_000)]:
        name = f"cvrp{n}"
        write(f"{name}.vrp", problem(draw, name, n, CAPACITY))
        for candidates in [5, 100] if n >= 1_000 else []:
            solution = f"{name}-{candidates}.out"
            write(f"{name}-{candidates}.par", f"PROBLEM_FILE = {name}.vrp\nMAX_CANDIDATES = {candidates}\nSOLUTION_FILE = {solution}\n")
            write(f"{name}-{candidates}.words", f"{name}-{candidates}.par\n")
        write(f"{name}-between.words", f"{name}.vrp --runs 1 --trials {trials} -o {name}-between.out\n")


main()
