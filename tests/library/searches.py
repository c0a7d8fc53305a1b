"""Searches with runs in threads, compared with those of the program, and searches that an interrupt ends."""

import _thread
import contextlib
import functools
import os
import random
import re
import signal
import subprocess
import sys
import threading
import time

import cases
import safety
import tourkit
from tourkit import _search

RUN = "run {run}: start {start}, best {best}, trials {trials}, moves {moves}, tests {tests}, swaps {swaps}\n"
MOST_SECONDS = 0.5  # until an interrupt ends a search


def write_problem(path, points, kind="EUC_2D"):
    """Writes a problem of these points."""
    path.write_bytes(tourkit.Problem.from_points(points, kind).text)
    return path


def write_matrix(path, rows):
    """Writes a problem with these weights."""
    path.write_bytes(tourkit.Problem.from_matrix(rows).text)
    return path


def problems(folder):
    """Returns problems of many kinds: few and many cities, equal distances, clusters, coordinates far apart, and explicit weights."""
    places = random.Random(7)
    made = {"board": "board.tsp", "tri": "tri.tsp", "five": "five.tsp", "square": "square.tsp"}
    for kind in ("EUC_2D", "CEIL_2D", "MAN_2D", "MAX_2D", "ATT"):
        points = [(places.randrange(30), places.choice([0, 5, places.random() * 20])) for _ in range(200)]
        made[f"ties of {kind}"] = write_problem(folder / f"ties{kind}.tsp", points, kind)
    clusters = [(places.gauss(x, 50), places.gauss(-x, 10**5)) for x in (0, 10**5, 10**8) for _ in range(200)]
    made["clusters"] = write_problem(folder / "clusters.tsp", clusters)
    made["equal weights"] = write_matrix(folder / "equal.tsp", [[7] * 300] * 300)
    made["one point"] = write_problem(folder / "point.tsp", [(5, 5)] * 50)
    made["a line"] = write_problem(folder / "line.tsp", [(place * 10**-4, 0) for place in range(500)])
    weights = tourkit.distances(tourkit.Problem.from_points(clusters[::4])).tolist()
    return {**made, "weights": write_matrix(folder / "weights.tsp", weights)}


def search_by_program(program, file, folder, *words):
    """Returns the lines that the program prints for a search, and the bytes of its tour file."""
    tour = folder / "by-program.tour"
    ran = subprocess.run([program, "solve", file, "-o", tour, *words], stdout=subprocess.PIPE, stderr=subprocess.PIPE, check=False)
    assert ran.returncode == 0, ran
    return ran.stdout.decode(), tour.read_bytes()


def lines_of(tour):
    """Returns the lines that the program prints for a search."""
    return "".join(RUN.format(**vars(run)) for run in tour.runs) + f"best {tour.length}\n"


def try_jobs(program, folder):
    """A search with runs in threads has the bytes of the search of the program, for each construction and starting tour."""
    split = 0
    for name, file in problems(folder).items():
        start = list(range(tourkit.Problem(file).size, 0, -1))
        (folder / "start.tour").write_text("TYPE : TOUR\nTOUR_SECTION\n" + "\n".join(map(str, start)) + "\n-1\n")
        for words, options in {
            ("--runs", "9"): {},
            ("--runs", "4", "--seed", "4294967292", "--trials", "800"): {"seed": 2**32 - 4, "trials": 800},
            ("--runs", "4", "--seed", "4294967293", "--trials", "800"): {"seed": 2**32 - 3, "trials": 800},
            ("--runs", "6", "--construction", "savings"): {"construction": "savings"},
            ("--runs", "6", "--initial-tour", folder / "start.tour"): {"initial_tour": start},
        }.items():
            wanted = search_by_program(program, file, folder, *words)
            for jobs, _search.LONG in ((1, LONG), (1, 1), (4, LONG)):
                before = len(CALLS)
                tour = tourkit.solve(file, runs=int(words[1]), jobs=jobs, **options)
                assert (lines_of(tour), tour.text) == wanted, (name, words, jobs)
                split += len(CALLS) - before > 1
    assert split > 100, split


def try_jobs_of_routes(program, folder):
    """A search between routes with runs in threads has the bytes of the search of the program, for each start."""
    places = random.Random(11)
    points = [(places.randrange(1000), places.randrange(1000)) for _ in range(40)]
    scattered = tourkit.Problem.from_points(points, demands=[0, *(places.randrange(1, 9) for _ in range(39))], capacity=20)
    (folder / "scattered.vrp").write_bytes(scattered.text)
    for file in ("bakery.vrp", folder / "scattered.vrp"):
        (folder / "start.sol").write_bytes(tourkit.solve(file, within_routes=True).text)
        for words, options in {
            ("--runs", "4", "--trials", "30"): {"trials": 30},
            ("--runs", "3", "--trials", "30", "--seed", "4294967293"): {"trials": 30, "seed": 2**32 - 3},
            ("--runs", "3", "--trials", "30", "--seed", "4294967294"): {"trials": 30, "seed": 2**32 - 2},
            ("--runs", "3", "--trials", "9", "--final-sweep", "--candidates", "4"): {"trials": 9, "final_sweep": True, "candidates": 4},
            ("--runs", "5", "--trials", "9", "--initial-solution", folder / "start.sol"): {"trials": 9, "initial_solution": folder / "start.sol"},
            ("--runs", "2"): {},
        }.items():
            wanted = search_by_program(program, file, folder, *words)
            for jobs, _search.LONG in ((1, LONG), (1, 1), (4, LONG)):
                before = len(CALLS)
                routes = tourkit.solve(file, runs=int(words[1]), jobs=jobs, **options)
                assert (cases.lines_of_search(routes).decode(), routes.text) == wanted, (file, words, jobs)
                calls = 1 if options.get("seed") == 2**32 - 2 or (jobs, _search.LONG) == (1, LONG) else int(words[1])
                assert len(CALLS) - before == calls, (file, words, jobs, len(CALLS) - before)


# The functions of the library that have searched, with the number of runs of each call.
CALLS = []


def count_calls(name, *arguments):
    """Makes a search by the library, and records its function and its number of runs."""
    CALLS.append((name, arguments[-1].runs))
    return search(name, *arguments)


search, LONG = _search.search, _search.LONG


def try_starts():
    """Nearest-neighbour tours are those that the runs of a search start from: of each city of a small problem, and of some of a large one."""
    places = random.Random(3)
    large = tourkit.Problem.from_points([(places.randrange(10**5), places.randrange(10**5)) for _ in range(10_000)])
    for problem, cities in ((tourkit.Problem("board.tsp"), range(1, 455)), (large, [1])):
        wanted = tourkit.solve(problem, runs=len(cities), trials=1).runs
        for run, city in zip(wanted, cities):
            found = tourkit.check(problem, problem._nearest_tour(city))
            assert found and found.length == run.start, (problem, city)


def try_pieces_with_jobs():
    """A search in pieces finds the same tours, whatever the number of threads."""
    seen = {jobs: [] for jobs in (1, 3)}
    for jobs, told in seen.items():
        tourkit.solve("board.tsp", runs=4, trials=300, pieces=3, jobs=jobs, progress=told.append)
    assert seen[1] == seen[3] and [len(tour.runs) for tour in seen[3]] == [4, 8, 12], seen


def try_faster(folder):
    """Four runs in four threads take at most two thirds of the time of four runs one after another, if there are four processors."""
    if len(os.sched_getaffinity(0)) < 4 or os.getloadavg()[0] > 2:
        print("there are not four idle processors, so the speed of runs in threads was not measured")
        return
    places = random.Random(5)
    problem = tourkit.Problem.from_points([(places.randrange(10**6), places.randrange(10**6)) for _ in range(5_000)])
    times = {}
    for jobs in (1, 4):
        began = time.monotonic()
        tourkit.solve(problem, runs=4, trials=20_000, jobs=jobs)
        times[jobs] = time.monotonic() - began
    print(f"four runs in four threads: {times[4] / times[1]:.2f} times as long as one after another")
    assert times[4] < times[1] * 2 / 3, times


def try_too_few_threads():
    """If there are no threads or no memory for starting tours, the search is made without them."""
    wanted = tourkit.solve("board.tsp", runs=3, trials=200)

    def fail(*_, **__):
        raise error

    for error, module, name in ((RuntimeError("no thread"), _thread, "start_new_thread"), (MemoryError(), tourkit.Problem, "_nearest_tour")):
        before = getattr(module, name)
        setattr(module, name, fail)
        try:
            assert tourkit.solve("board.tsp", runs=3, trials=200, jobs=2) == wanted, error
        finally:
            setattr(module, name, before)


def try_errors():
    """An error of a call in a thread is raised, and no thread is left."""
    before = count_threads()
    try:
        tourkit.solve("square.tsp", initial_tour="twice.tour", jobs=3)
    except tourkit.Refused as fault:
        assert str(fault) == "twice.tour: initial tour: 3 RepeatedCity 3", fault
    wait_for_threads(before)


def count_threads():
    """Returns the number of threads of this process."""
    return len(os.listdir("/proc/self/task"))


def wait_for_threads(count):
    """Waits until no more threads than these are active."""
    end = time.monotonic() + 5
    while count_threads() > count:
        assert time.monotonic() < end, count_threads()
        time.sleep(0.01)


@contextlib.contextmanager
def interrupt_after(seconds):
    """Interrupts this process after some seconds. Yields a function that returns the time since then."""
    before = signal.signal(signal.SIGINT, signal.default_int_handler)  # a job in the background might not have it
    sent = []

    def interrupt():
        sent.append(time.monotonic())
        os.kill(os.getpid(), signal.SIGINT)

    timer = threading.Timer(seconds, interrupt)
    timer.start()
    try:
        yield lambda: time.monotonic() - sent[0]
    finally:
        timer.join()
        signal.signal(signal.SIGINT, before)


def interrupted(seconds, *arguments, **options):
    """Returns the best tour of a search that is interrupted after some seconds, and how long it then took to end."""
    with interrupt_after(seconds) as since:
        try:
            tourkit.solve(*arguments, **options)
        except KeyboardInterrupt as stop:
            took = since()
            assert isinstance(stop, tourkit.Interrupted) and took < MOST_SECONDS, took
            return stop.best, took
    raise AssertionError("not interrupted")


def try_interrupts():
    """An interrupt ends a search within half a second. The exception has the best tour of the runs until then."""
    safety.apart("interrupt_searches()", "searches")  # so that the runs that continue do not disturb other tests


def interrupt_searches():
    """Interrupts searches with and without threads and pieces."""
    places = random.Random(2)
    problem = tourkit.Problem.from_points([(places.randrange(10**6), places.randrange(10**6)) for _ in range(2_000)])
    best, _ = interrupted(0.3, problem, runs=1, trials=1_000_000)
    assert best is None, best
    pieces = {"runs": 3, "jobs": 3, "pieces": 999}
    for options in ({"jobs": 1}, {"jobs": 3}, {"construction": "SAVINGS"}, {"runs": 1, "pieces": 10_000}, pieces):
        seen = []
        best, _ = interrupted(1.5, problem, **{"runs": 10_000, "trials": 2_000, "progress": seen.append, **options})
        assert best and len(best.runs) >= 3 and tourkit.check(problem, best).length == best.length, options
        assert best.length == min(run.best for run in best.runs) and len({run.run for run in best.runs}) == len(best.runs), options
        assert not seen or best.length <= seen[-1].length, options
    demands = [0, *(places.randrange(1, 9) for _ in range(599))]
    points = [(places.randrange(10**4), places.randrange(10**4)) for _ in demands]
    problem = tourkit.Problem.from_points(points, demands=demands, capacity=60)
    for options in ({"jobs": 3}, {"runs": 1, "pieces": 10_000}):
        best, _ = interrupted(3, problem, **{"runs": 10_000, "trials": 60, **options})
        assert best and best.runs and tourkit.check_solution(problem, best).cost == best.cost, options
        assert len({run.run for run in best.runs}) == len(best.runs), options


def try_many_interrupts():
    """No interrupt is lost, whenever it comes."""
    safety.apart("interrupt_often()", "searches")


def interrupt_often():
    """Interrupts searches of tiny pieces again and again. Each search takes much longer than until the interrupt."""
    places = random.Random(1)
    problem = tourkit.Problem.from_points([(places.random(), places.random()) for _ in range(20)])
    signal.signal(signal.SIGALRM, signal.default_int_handler)
    for _ in range(1_000):
        try:
            signal.setitimer(signal.ITIMER_REAL, 0.002 + places.random() * 0.003)
            tourkit.solve(problem, runs=1, trials=5, pieces=20_000, jobs=2)
        except KeyboardInterrupt:
            continue
        raise AssertionError("an interrupt was lost")


def try_interrupted_process(folder):
    """After an interrupt, a program can use the best tour, and ends at once, although a run may still be in progress."""
    code = """
import random, tourkit
places = random.Random(1)
problem = tourkit.Problem.from_points([(places.randrange(10**6), places.randrange(10**6)) for _ in range(2_000)])
print("begun", flush=True)
try:
    tourkit.solve(problem, runs=1, trials=TRIALS, pieces=1_000, jobs=2)
except KeyboardInterrupt as stop:
    print(stop, bool(stop.best and tourkit.check(problem, stop.best)))
"""
    for trials, wanted in {1_000: r"best: tour of 2000 cities, length \d+ True\n", 1_000_000: r"no run has been made False\n"}.items():
        words = [sys.executable, "-B", "-c", code.replace("TRIALS", str(trials))]
        how = {"stdout": subprocess.PIPE, "text": True, "env": {**os.environ, "PYTHONPATH": os.pathsep.join(sys.path)}}
        with subprocess.Popen(words, preexec_fn=lambda: signal.signal(signal.SIGINT, signal.default_int_handler), **how) as process:
            process.stdout.readline()
            time.sleep(1)
            process.send_signal(signal.SIGINT)
            began = time.monotonic()
            told, _ = process.communicate(timeout=60)
            took = time.monotonic() - began
        assert process.returncode == 0 and re.fullmatch(wanted, told), (process.returncode, told)
        assert took < MOST_SECONDS + 0.5, took  # and the time in which the interpreter ends


def tests(program, folder):
    """Returns the checks of this file, each with its description."""

    def jobs(check):
        _search.search = count_calls
        try:
            check(program, folder)
        finally:
            _search.search, _search.LONG = search, LONG

    return [
        *((check.__doc__, functools.partial(jobs, check)) for check in (try_jobs, try_jobs_of_routes)),
        *((check.__doc__, check) for check in (try_starts, try_pieces_with_jobs, try_too_few_threads, try_errors, try_interrupts, try_many_interrupts)),
        (try_interrupted_process.__doc__, lambda: try_interrupted_process(folder)),
        (try_faster.__doc__, lambda: try_faster(folder)),
    ]
