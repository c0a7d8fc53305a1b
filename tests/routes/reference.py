"""The search between the routes of a CVRP, written from its definitions and not from the code: the ladder of savings routes, the ring, the
descent with capacity, and trials by kicks. It tests every offer by the loads of the whole ring, so it is for small instances."""

from dataclasses import dataclass, field

LADDER = 3, 5, 8, 12, 20, 32, 50, 100
MOST_DRAWS = 1000
LONGEST_PART = 10
SPARE_FLIPS = 1000


class Pcg32:
    """The generator PCG32 (XSH RR), from a seed of 64 bits, and the numbers below a bound that are drawn from its words."""

    def __init__(self, seed):
        words = []
        for _ in range(4):
            seed = (seed * 0x5851F42D4C957F2D + 0xA17654E46FBE17F3) % 2**64
            words.append(self.word_of(seed))
        self.increment = words[2] + words[3] * 2**32 | 1
        self.state = (words[0] + words[1] * 2**32 + self.increment) % 2**64
        self.step()

    @staticmethod
    def word_of(state):
        word = ((state >> 18 ^ state) >> 27) % 2**32
        turn = state >> 59
        return (word >> turn | word << 32 - turn) % 2**32

    def step(self):
        self.state = (self.state * 0x5851F42D4C957F2D + self.increment) % 2**64

    def next_word(self):
        word = self.word_of(self.state)
        self.step()
        return word

    def between(self, low, high):
        """A number from low to high: the high half of a product, with the carry of a second word if it can matter."""
        count = high - low + 1
        drawn, rest = divmod(self.next_word() * count, 2**32)
        if rest > 2**32 - count:
            drawn += rest + (self.next_word() * count >> 32) >= 2**32
        return low + drawn


@dataclass
class Options:
    runs: int
    trials: int
    seed: int
    candidates: int
    or_segment: int
    final_sweep: bool = False
    start: list | None = None  # routes, or None for the ladder


@dataclass
class Run:
    start: int
    best: int = 0
    routes: int = 0
    trials: int = 0
    kicks: int = 0
    draws: int = 0
    better: int = 0
    moves: int = 0
    tests: int = 0
    swaps: int = 0
    passes: int = 0
    copied: int = 0
    shown: list = field(default_factory=list)  # for the first descent and each trial: its cost, the best cost, and the routes if they are new


@dataclass
class Solved:
    routes: list
    cost: int
    start: int
    start_routes: int
    candidates: int | None
    runs: list


class Instance:
    """A CVRP by its customers 1 to k; 0 is the depot. The distances are a table over these k + 1 places."""

    def __init__(self, table, demands, capacity):
        self.table, self.demands, self.capacity = table, demands, capacity
        self.customers = len(table) - 1

    def cost(self, routes):
        return sum(self.table[a][b] for route in routes for a, b in zip([0, *route], [*route, 0]))


def turned(route):
    return route if route[0] <= route[-1] else route[::-1]


def savings(instance, node, width):
    """The savings routes over near lists of this length. `node` orders customers and depot as their nodes are numbered."""
    places = sorted(range(instance.customers + 1), key=node)
    near = {a: set(sorted((b for b in places if b != a), key=lambda b: (instance.table[a][b], node(b)))[:width]) for a in places}
    pairs = []
    for i in range(1, instance.customers + 1):
        for j in range(i + 1, instance.customers + 1):
            saving = instance.table[0][i] + instance.table[0][j] - instance.table[i][j]
            if saving > 0 and (j in near[i] or i in near[j]):
                pairs.append((-saving, i, j))
    route_of = {c: [c] for c in range(1, instance.customers + 1)}
    for _, i, j in sorted(pairs):
        one, two = route_of[i], route_of[j]
        load = sum(instance.demands[c] for c in one + two)
        if one is two or load > instance.capacity or i not in (one[0], one[-1]) or j not in (two[0], two[-1]):
            continue
        joined = (one if one[-1] == i else one[::-1]) + (two if two[0] == j else two[::-1])
        route_of |= dict.fromkeys(joined, joined)
    return sorted(turned(list(route)) for route in {tuple(route) for route in route_of.values()})


def ladder(instance, node):
    """The cheapest savings routes, and the length of the near lists that they were made with."""
    lengths = [min(k, instance.customers) for k in LADDER]
    return min(((savings(instance, node, k), k) for k in lengths), key=lambda found: instance.cost(found[0]))


class Ring:
    """Customers 1 to k and copies of the depot, in their order."""

    def __init__(self, instance, routes):
        self.instance = instance
        self.order = [instance.customers + 1]
        for copy, route in enumerate(routes, instance.customers + 2):
            self.order += [*route, copy]
        self.flips = self.swaps = 0

    def distance(self, a, b):
        customers = self.instance.customers
        return self.instance.table[a if a <= customers else 0][b if b <= customers else 0]

    def length(self):
        return sum(self.distance(a, b) for a, b in zip(self.order, self.order[1:] + self.order[:1]))

    def next(self, c):
        return self.order[(self.order.index(c) + 1) % len(self.order)]

    def prev(self, c):
        return self.order[self.order.index(c) - 1]

    def paths(self, order=None):
        """The customers between two copies, for each copy and the next one."""
        order = self.order if order is None else order
        is_copy = [c > self.instance.customers for c in order]
        begin = is_copy.index(True)
        paths, path = [], []
        for c in order[begin + 1 :] + order[: begin + 1]:
            if c <= self.instance.customers:
                path.append(c)
            else:
                paths.append(path)
                path = []
        return paths

    def fits(self, order=None):
        demands = self.instance.demands
        return all(sum(demands[c] for c in path) <= self.instance.capacity for path in self.paths(order))

    def flip(self, a, b, c, d):
        """Replaces the edges a-b and c-d by a-c and b-d, and reverses the shorter side in place; of equal sides, that from b to c."""
        size, place = len(self.order), self.order.index
        inner, outer = ((b, c), d) if self.next(a) == b else ((c, b), a)
        count = (place(inner[1]) - place(inner[0])) % size + 1
        first, count = (place(inner[0]), count) if 2 * count <= size else (place(outer), size - count)
        places = [(first + k) % size for k in range(count)]
        for k, city in zip(places, [self.order[k] for k in reversed(places)]):
            self.order[k] = city
        self.flips += 1
        self.swaps += count // 2

    def make(self, offer):
        if len(offer) == 4:
            self.flip(*offer)
            return
        a, x, e, b, y, w = offer
        if self.next(a) != x:
            a, x, e, b, y, w = b, e, x, a, w, y
        c, d = (y, w) if self.next(y) == w else (w, y)
        self.flip(a, x, c, d)
        self.flip(a, c, b, e)
        if (c, d) == (y, w) and x != e:
            self.flip(c, e, x, d)


def offers(ring, near, most, x):
    """The offers of an element, in order."""
    size = len(ring.order)
    segments = []
    for length in range(1, most + 1):
        for ahead, back in [(ring.next, ring.prev), (ring.prev, ring.next)][: 1 if length == 1 else 2]:
            cities = [x]
            while len(cities) < length:
                cities.append(ahead(cities[-1]))
            if size >= length + 2:
                segments.append((back(x), cities, ahead(cities[-1])))
    for y in near[x]:
        yield x, ring.next(x), y, ring.next(y)
        yield x, ring.prev(x), y, ring.prev(y)
        for before, cities, after in segments:
            for w in ring.next(y), ring.prev(y):
                if y not in cities and w not in cities:
                    yield before, x, cities[-1], after, y, w


def gain(distance, offer):
    if len(offer) == 4:
        a, b, c, d = offer
        return distance(a, b) + distance(c, d) - distance(a, c) - distance(b, d)
    a, x, e, b, y, w = offer
    return distance(a, x) + distance(e, b) + distance(y, w) - distance(a, b) - distance(x, y) - distance(e, w)


def look(ring, near, most, x, run):
    """Makes the first allowed offer of an element with positive gain, and returns its ends."""
    for offer in offers(ring, near, most, x):
        run.tests += 1
        if gain(ring.distance, offer) <= 0:
            continue
        order, counts = ring.order[:], (ring.flips, ring.swaps)
        ring.make(offer)
        if ring.fits():
            run.moves += 1
            return offer if len(offer) == 4 else (offer[1], offer[0], *offer[2:])
        ring.order, (ring.flips, ring.swaps) = order, counts
    return ()


def descend(ring, near, options, awake, run):
    """A descent, or with sweeps, passes with all elements awake until one makes no move."""
    moves = None
    while run.moves != moves:
        moves = run.moves
        queue = sorted(ring.order) if options.final_sweep else list(dict.fromkeys(awake))
        while queue:
            for end in look(ring, near, options.or_segment, queue.pop(0), run):
                if end not in queue:
                    queue.append(end)
        run.passes += 1
        if not options.final_sweep:
            return


def draw_kick(ring, generator):
    """The four parts of the first kick drawn after which the ring fits, and the number of draws."""
    size = len(ring.order)
    for draws in range(MOST_DRAWS if size >= 8 else 0):
        first = generator.between(1, size)
        cuts, order = [0], ring.order[first - 1 :] + ring.order[: first - 1]
        for _ in range(3):
            cuts.append(cuts[-1] + generator.between(1, min(LONGEST_PART, (size - 1) // 3)))
        a, b, c, d = (order[i:j] for i, j in zip(cuts, [*cuts[1:], size]))
        if ring.fits(a + d + c + b):
            return (a, b, c, d), draws + 1
    return None, MOST_DRAWS if size >= 8 else 0


def kick(ring, parts):
    """Swaps the second part and the fourth by four flips, and returns the ends of the parts."""
    (a1, an), (b1, bn), (c1, cn), (d1, dn) = ((part[0], part[-1]) for part in parts)
    ring.flip(an, b1, dn, a1)
    ring.flip(an, dn, d1, cn)
    ring.flip(dn, cn, c1, bn)
    ring.flip(cn, bn, b1, a1)
    return a1, an, b1, bn, c1, cn, d1, dn


def read_routes(ring, order):
    return sorted(turned(path) for path in ring.paths(order) if path)


def search(instance, start, near, options, seed):
    """One run from the ring of some routes: its report and its best ring."""
    ring = Ring(instance, start)
    generator = Pcg32(seed)
    run = Run(ring.length())
    descend(ring, near, options, sorted(ring.order), run)
    current = run.best = ring.length()
    best = ring.order[:]
    run.shown.append((run.best, run.best, read_routes(ring, best)))
    for trial in range(1, options.trials + 1):
        before = ring.order[:]
        parts, draws = draw_kick(ring, generator)
        run.trials, run.draws, run.kicks = trial, run.draws + draws, run.kicks + (parts is not None)
        if parts is None:
            run.shown.append((current, run.best, None))
            continue
        ring.flips = 0
        descend(ring, near, options, kick(ring, parts), run)
        found = ring.length()
        limit = run.best + run.best * 3 * (options.trials - trial) // (1000 * options.trials)
        is_better = found < run.best
        if is_better:
            current = run.best = found
            best = ring.order[:]
            run.better += 1
            run.copied += len(best)
        elif found <= limit:
            current = found
        elif ring.flips <= len(best) + SPARE_FLIPS and current <= limit:
            ring.order = before
        else:
            ring.order, current = best[:], run.best
            run.copied += len(best)
        run.shown.append((found, run.best, read_routes(ring, best) if is_better else None))
    run.routes, run.swaps = len(read_routes(ring, best)), ring.swaps
    return run, best


def solve(instance, node, options):
    """The outcome of all runs. `node` gives the node of a customer, and of the depot for 0."""
    if options.start is None:
        start, candidates = ladder(instance, node)
    else:
        start, candidates = [route for route in options.start if route], None
    ring = Ring(instance, start)
    customers = range(1, instance.customers + 1)
    near = {
        x: sorted((y for y in customers if y != x), key=lambda y: (ring.distance(x, y), y))[: min(options.candidates, len(customers) - 1)]
        for x in ring.order
    }
    runs = [search(instance, start, near, options, options.seed + j) for j in range(options.runs if len(customers) > 1 else 0)]
    cost, best = min([(ring.length(), ring.order), *((run.best, best) for run, best in runs)], key=lambda found: found[0])
    return Solved(read_routes(ring, best), cost, ring.length(), len(start), candidates, [run for run, _ in runs])
