"""Times of calls of the package `tourkit`, compared with the program: processor times, so that other work on the machine matters little."""

import random
import resource
import subprocess
import time

import tourkit

ROUNDS = 7
MOST = 2
TRIES = 5  # Other work on the machine can double a ratio of 7 rounds, so a ratio that is too high is measured again.


def time_of(call):
    """Returns the processor time of a call, in seconds."""
    began = time.process_time()
    call()
    return time.process_time() - began


def time_of_program(*words):
    """Returns the processor time of a run of the program."""

    def used():
        spent = resource.getrusage(resource.RUSAGE_CHILDREN)
        return spent.ru_utime + spent.ru_stime

    began = used()
    subprocess.run(words, stdout=subprocess.DEVNULL, check=True)
    return used() - began


def compare(what, call, *words):
    """Prints the ratio of the best time of a call to that of the program. Fails if it stays above 2 in more rounds."""
    ours, theirs = [], []
    for _ in range(TRIES):
        for _ in range(ROUNDS):
            ours.append(time_of(call))
            theirs.append(time_of_program(*words))
        ratio = min(ours) / min(theirs)
        if ratio <= MOST:
            break
    print(f"{what}: {ratio:.2f} times as long as the program")
    assert ratio <= MOST, f"{min(ours):.3f} s, and the program {min(theirs):.3f} s"


def write_problem(n, folder):
    """Writes a problem of random cities, and a random tour of it."""
    places = random.Random(n)
    problem, tour = folder / f"random{n}.tsp", folder / f"random{n}.tour"
    lines = "".join(f"{city} {places.randrange(10**6)} {places.randrange(10**6)}\n" for city in range(1, n + 1))
    problem.write_text(f"TYPE : TSP\nDIMENSION : {n}\nEDGE_WEIGHT_TYPE : EUC_2D\nNODE_COORD_SECTION\n{lines}EOF\n")
    cities = list(range(1, n + 1))
    places.shuffle(cities)
    tour.write_text("TYPE : TOUR\nTOUR_SECTION\n" + "".join(f"{city}\n" for city in cities) + "-1\nEOF\n")
    return problem, tour, cities


def try_large(program, folder):
    """A check of 100,000 cities, as a text or as a list, and their near lists take at most twice as long as the program."""
    file, tour, cities = write_problem(100_000, folder)
    problem, text = tourkit.Problem(file), tour.read_bytes()
    compare("a check of a text", lambda: tourkit.check(problem, text), program, "check", file, tour)
    compare("a check of a list", lambda: tourkit.check(problem, cities), program, "check", file, tour)
    compare("near lists", lambda: tourkit.near(problem, 5), program, "near", file, "-k", "5")


def try_distances(program, folder):
    """The distances of 5,000 cities, for numpy if that is installed, take at most twice as long as the program takes to print them."""
    problem, _, _ = write_problem(5_000, folder)
    try:
        from numpy import asarray
    except ImportError:
        asarray = memoryview
    compare("distances", lambda: asarray(tourkit.distances(problem)), program, "matrix", problem, "FULL_MATRIX")


def try_many(folder):
    """1,000 tours of 1,000 cities are checked in less than a second."""
    file, _, cities = write_problem(1_000, folder)
    problem = tourkit.Problem(file)
    tours = [random.Random(seed).sample(cities, len(cities)) for seed in range(1_000)]

    def check_all():
        for tour in tours:
            assert tourkit.check(problem, tour)

    best = min(time_of(check_all) for _ in range(3))
    assert best < 1, f"{best:.3f} s"


def tests(program, folder):
    """Returns the checks of this file, named by their docstrings."""
    return [
        (try_large.__doc__, lambda: try_large(program, folder)),
        (try_distances.__doc__, lambda: try_distances(program, folder)),
        (try_many.__doc__, lambda: try_many(folder)),
    ]
