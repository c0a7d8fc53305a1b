"""Makes cases for the comparison of the readers: the arguments of a command and the files that it reads. Each case is a valid text of
random shape with up to three faults. The same random generator gives the same case. A file may also be None, if it is missing, or
DIRECTORY."""

import answers
from texts import FORMATS, HEADERS, IGNORED_KEYS, NUMBER_KEYS, PLANES, SECTIONS, Fault, places, read_problem, read_solution

NUMBERS = [b"0", b"1", b"2", b"3", b"-1", b"-01", b"+1", b"-0", b"00", b"1.5", b".5", b"5.", b".", b"-", b"+", b"1e", b"1e2", b"1E-3",
           b"1e1000", b"1e-999", b"1.2.3", b"--1", b"1x", b"0x1", b"65", b"64", b"4000000000", b"4000000001", b"2000000000",
           b"2000000001", b"4294967295", b"4294967296", b"1000000000", b"1000000001", b"1000000000.0000000009", b"1000000000.000000001",
           b"-1e9", b"1e10", b"0.0000000001", b"-0.0000000019", b"999999999999999999", b"1000000000000000000", b"-999999999999999999",
           b"100000", b"100001", b"5000", b"5001", b"0" * 17 + b"3", b"0" * 18 + b"3", b"0" * 63 + b"3", b"0" * 64 + b"3",
           b"." + b"5" * 63, b"." + b"5" * 64, b"0.4999999999", b"0.5", b"1e0000", b"1e+2", b"1e-02"]
OTHERS = [b"EOF", b"eof", b"EOF:", b"EOF-", b"EOFX", b":", b"::", b"#", b"=", b"$", b"-1", b"-1 -1", b"-1 EOF", b"-1\n-1", b"-1\n-1\n-1",
          b"-1\nEOF", b"\x00", b"\xff", b"\xc3\xa9", b"x" * 64, b"x" * 65, b"x" * 70, b"Route", b"Route #1:", b"Cost", b"Cost 5",
          b"Cost: 5", b"ROUTE # 2 : 1", b"FUNCTION", b"CVRP", b"TSP", b"TOUR", b"ATSP", b"GEO", b"\x0b", b"\x0c", b"_", b"FOO", b"FOO : 1"]
LINES = [b"NAME : " + b"y" * 1024, b"NAME : " + b"y" * 1025, b"COMMENT : " + b"y" * 4092, b"COMMENT : " + b"y" * 4093,
         b"COMMENT :" + b"y" * 4096, b"COMMENT" + b" " * 4096, b"COMMENT" + b" " * 4097, b"TYPE : TSP", b"TYPE : CVRP", b"TYPE : TOUR",
         b"DIMENSION : 4", b"DIMENSION : " + b"0" * 17 + b"4", b"DIMENSION : " + b"0" * 65, b"CAPACITY : 9", b"CAPACITY : 0",
         b"EDGE_WEIGHT_TYPE : EXPLICIT", b"EDGE_WEIGHT_TYPE : EUC_2D", b"EDGE_WEIGHT_FORMAT : FUNCTION", b"EDGE_WEIGHT_FORMAT : UPPER_ROW",
         b"NODE_COORD_TYPE : NO_COORDS", b"NODE_COORD_TYPE : THREED_COORDS", b"DISPLAY_DATA_TYPE : x", b"DISTANCE : 5", b"SERVICE_TIME",
         b"VEHICLES : 2", b"DISTANCE" + b" " * 4097, b"DEPOT_SECTION\n1\n-1", b"DEPOT_SECTION 2 -1 -1", b"DEPOT_SECTION -1",
         b"EDGE_DATA_SECTION", b"FIXED_EDGES_SECTION", b"TOUR_SECTION", b"TOUR_SECTION 1 2 -1", b"DISPLAY_DATA_SECTION", b"", b" \t\r",
         b"# note", b"COMMENT = x", b"#" + b"x" * 4095, b"#" + b"x" * 4096, b"EOF" + b" " * 4094, b" " * 4093 + b"EOF", b" " * 4094 + b"EOF",
         b"SEED = 1", b"RUNS = 0", b"RUNS = 1", b"RUNS = 1 2", b"RUNS = ", b"TRACE_LEVEL = 1", b"MOVE_TYPE", b"PROBLEM_FILE = a$b",
         b"PROBLEM_FILE =", b"TOUR_FILE = \xff", b"CONSTRUCTION = greedy", b"CONSTRUCTION = Savings", b"FINAL_SWEEP = yes",
         b"OR_SEGMENT = 4", b"OR_SEGMENT = 2", b"INITIAL_TOUR_FILE = t", b"INITIAL_TOUR_FILE = gone", b"SOLUTION_FILE = o",
         b"TOUR_FILE = o", b"Route #1: 1", b"Route 1 : 1 2", b"Route # 3:", b"Route #x: 1", b"Route: 1", b"Route#-7:1", b"Cost 10",
         b"Cost : 10", b"Cost", b"Cost 10 11", b"Cost -1", b"Cost " + b"0" * 64, b"Cost " + b"0" * 65, b"Route #1: " + b"0" * 65]


DIRECTORY = "directory"


def cased(random, word):
    """Returns a word, or the word in another case."""
    if random.random() < 0.8:
        return word
    return bytes(random.choice([b, b ^ 32]) if chr(b).isalpha() else b for b in word)


def header(random, word, value):
    gap = random.choice([b" : ", b" : ", b" : ", b":", b": ", b" ", b"\t:\t", b"  "])
    return random.choice([b"", b"", b"", b" ", b"\t"]) + cased(random, word) + gap + value + random.choice([b"", b"", b"", b" ", b"\r", b" x"])


def rows(random, numbers, width):
    """Returns numbers in lines with `width` numbers each, or in free layout."""
    if random.random() < 0.6:
        return [b" ".join(numbers[i:i + width]) for i in range(0, len(numbers), width)]
    text = b"".join(number + random.choice([b" ", b" ", b"  ", b"\n", b"\t", b" \r", b"\n\n"]) for number in numbers)
    return text.split(b"\n")


def coordinate(random, span):
    kind = random.randrange(5)
    whole = random.randint(-span, span)
    if kind < 2:
        return b"%d" % whole
    if kind == 2:
        return b"%d.%0*d" % (whole, random.randint(1, 11), random.randrange(10))
    if kind == 3:
        return b"%de%d" % (whole, random.randint(-12, 0))
    return random.choice([b"0", b"1", b"0.5", b"-.5", b"2.", b"1e0"])


def points(random, nodes, span):
    """Returns the tokens of a section with the coordinates of nodes."""
    return [token for node in nodes for token in (b"%d" % node, coordinate(random, span), coordinate(random, span))]


def problem(random, n, cvrp):
    lines = [header(random, b"TYPE", random.choice([b"CVRP"] if cvrp else [b"TSP"])), header(random, b"DIMENSION", b"%d" % n)]
    if random.random() < 0.8:
        lines.append(header(random, b"NAME", random.choice([b"p", b"a b", b"", b"EOF", b": y", b"\xc3\xa9"])))
    if random.random() < 0.2:
        lines.append(header(random, b"COMMENT", b"c"))
    explicit = random.random() < 0.35
    if explicit:
        form = random.choice(FORMATS)
        lines += [header(random, b"EDGE_WEIGHT_TYPE", b"EXPLICIT"), header(random, b"EDGE_WEIGHT_FORMAT", form)]
    else:
        lines.append(header(random, b"EDGE_WEIGHT_TYPE", cased(random, random.choice(PLANES))))
    if cvrp:
        lines.append(header(random, b"CAPACITY", b"%d" % random.choice([3, 5, 10, 10])))
    random.shuffle(lines)
    nodes = list(range(1, n + 1))
    if random.random() < 0.3:
        random.shuffle(nodes)
    span = random.choice([2, 10, 1000, 10**6, 10**9])
    sections = []
    if explicit:
        weights = {}
        numbers = []
        for i, j in places(form.decode(), n):
            top = random.choice([2, 100, 4 * 10**9])
            weight = weights.setdefault((min(i, j), max(i, j)), random.randint(-2 if i == j else 0, top))
            numbers.append(b"%d" % weight)
        sections.append([b"EDGE_WEIGHT_SECTION", *rows(random, numbers, random.choice([n, 10]))])
    else:
        sections.append([b"NODE_COORD_SECTION", *rows(random, points(random, nodes, span), 3)])
    if explicit and random.random() < 0.3:
        sections.append([b"NODE_COORD_SECTION", *rows(random, points(random, nodes, span), 3)])
    if random.random() < (0.4 if explicit else 0.1):
        ignored = [b"1"] * (3 * n)
        sections.append([b"DISPLAY_DATA_SECTION", *rows(random, points(random, nodes, span) if explicit else ignored, 3)])
    if cvrp:
        depot = random.randint(1, n) if random.random() < 0.5 else 1
        numbers = [number for node in nodes for number in (b"%d" % node, b"%d" % (0 if node == depot else random.randint(0, 3)))]
        sections += [[b"DEMAND_SECTION", *rows(random, numbers, 2)], [b"DEPOT_SECTION", b"%d" % depot, *ending(random)]]
    random.shuffle(sections)
    return lines + [line for section in sections for line in section] + last(random)


def ending(random):
    return random.choice([[b"-1"], [b"-1"], [b"-1"], [b"-1", b"-1"], [b"-1 -1"], [b"-01", b"-0001"], []])


def last(random):
    return random.choice([[b"EOF"], [b"EOF"], [b"EOF"], [], [b"eof"], [b"EOF", b"junk"]])


def tour(random, n):
    cities = list(range(1, n + 1))
    random.shuffle(cities)
    if random.random() < 0.25:
        cities[random.randrange(n)] = random.choice([0, 1, n, n + 1, 4294967295])
    if random.random() < 0.1:
        cities = cities[:-1] if random.random() < 0.5 else cities + [1]
    numbers = [b"%d" % city for city in cities]
    lines = [b"TYPE : TOUR"] + ([b"DIMENSION : %d" % n] if random.random() < 0.7 else []) + ([b"NAME : t"] if random.random() < 0.5 else [])
    return lines + [random.choice([b"TOUR_SECTION", b"TOUR_SECTION :"]), *rows(random, numbers, random.choice([1, 10])), *ending(random), *last(random)]


def solution(random, n, data):
    customers = list(range(1, n))
    random.shuffle(customers)
    if random.random() < 0.3:
        customers[random.randrange(n - 1)] = random.choice([0, 1, n, n + 3])
    lines = []
    while customers:
        count = random.randint(0, 3)
        route, customers = customers[:count], customers[count:]
        head = random.choice([b"Route #%d:", b"Route #%d: ", b"route # %d :", b"Route %d:", b"ROUTE\t#\t%d\t: "]) % (len(lines) + 1)
        lines.append(head + b" ".join(b"%d" % customer for customer in route))
    cost = random.choice([b"Cost %d", b"Cost : %d", b"cost:%d", b"Cost %d "]) % (counted(data, lines) + random.choice([0, 0, 0, 1]))
    return lines + [cost] + random.choice([[], [], [b"x"]])


def counted(data, lines):
    """Returns the cost of routes if they are otherwise valid, or 0."""
    try:
        routes, _ = read_solution(b"\n".join([*lines, b"Cost 0"]))
        problem = read_problem(data)
    except Fault:
        return 0
    found = answers.solution_fault(problem, routes, -1) if problem.cvrp else ""
    return int(found.split()[-2]) if found.startswith("wrong cost") else 0


def params(random, cvrp):
    lines = [b"PROBLEM_FILE = p"]
    for key, (low, high) in NUMBER_KEYS.items():
        if random.random() < 0.4:
            lines.append(key + b" = %d" % random.choice([low, min(high, low + 2)]))
    if random.random() < 0.3:
        lines.append(random.choice(IGNORED_KEYS) + b" = 5")
    if random.random() < 0.3:
        lines.append(b"CONSTRUCTION = " + random.choice([b"NEAREST", b"SAVINGS", b"savings"]))
    if random.random() < 0.5:
        lines.append(b"SOLUTION_FILE = o" if cvrp else b"TOUR_FILE = o")
    if not cvrp and random.random() < 0.4:
        lines.append(b"INITIAL_TOUR_FILE = t")
    random.shuffle(lines)
    return [b"RUNS = 1"] * (not any(line.startswith(b"RUNS") for line in lines)) + lines + random.choice([[], [], [b"EOF"], [b"EOF", b"junk"]])


def fault(random, lines):
    """Makes one change in a text, which is often a fault."""
    at = random.randrange(len(lines)) if lines else 0
    kind = random.randrange(12)
    if not lines or kind == 0:
        return lines[:at] + [random.choice(LINES)] + lines[at:]
    if kind == 1:
        return lines[:at] + lines[at + 1:]
    if kind == 2:
        return lines[:at] + [lines[at]] + lines[at:]
    if kind == 3:
        other = random.randrange(len(lines))
        lines = list(lines)
        lines[at], lines[other] = lines[other], lines[at]
        return lines
    if kind <= 7:
        words = lines[at].split(b" ")
        words[random.randrange(len(words))] = random.choice(NUMBERS if kind < 7 else OTHERS + HEADERS + SECTIONS)
        return lines[:at] + [b" ".join(words)] + lines[at + 1:]
    line = lines[at]
    place = random.randint(0, len(line))
    if kind == 8:
        line = line[:place] + random.choice(OTHERS + NUMBERS) + line[place:]
    elif kind == 9:
        line = line[:place] + line[place + 1:]
    elif kind == 10:
        line = line[:place] + bytes([random.choice(b" \t\r\n:;#-+.e0159AaZz_=$\x00\xff")]) + line[place:]
    else:
        return lines[:at] + [line[:place]] if random.random() < 0.5 else lines[:at] + [line + random.choice([b" 1", b" x", b" EOF", b" :", b" -1"])] + lines[at + 1:]
    return lines[:at] + [line] + lines[at + 1:]


def text(random, lines, faulty):
    for _ in range(random.choice([1, 1, 2, 3]) if faulty else 0):
        lines = fault(random, lines)
    return random.choice([b"\n", b"\n", b"\n", b"\r\n"]).join(lines) + random.choice([b"\n", b"\n", b""])


def case(random, commands):
    """Returns the arguments of a command, and its files."""
    command = random.choice(commands)
    cvrp = command == "checksol" and random.random() < 0.95 or random.random() < 0.4
    n = random.choice([2, 3, 4, 5, 8, 12])
    other = {"check": "t", "checksol": "s", "plot": random.choice(["", "s" if cvrp else "t"]), "solve": "x"}.get(command)
    faulty = random.choice(["p", other or "p"]) if random.random() < 0.9 else ""
    files = {"p": text(random, problem(random, n, cvrp), faulty == "p")}
    first = files["p"]
    if other == "t":
        files["t"] = text(random, tour(random, n), faulty == "t")
    elif other == "s":
        files["s"] = text(random, solution(random, n, files["p"]), faulty == "s")
    elif command == "solve":
        files["x"] = text(random, params(random, cvrp), faulty == "x")
        files["t"] = text(random, tour(random, n), random.random() < 0.2)
    if random.random() < 0.03:
        files[random.choice(list(files))] = random.choice([None, DIRECTORY])
    words = {"info": ["info", "p"], "plot": ["plot", "p"] + [other] * bool(other),
             "near": ["near", "p"] + random.choice([[], ["-k", "1"], ["-k", "3"], ["-k", "100"]]),
             "matrix": ["matrix", "p", random.choice(FORMATS).decode()], "solve": ["solve", "x"]}
    words = words.get(command) or [command, "p", other]
    if command in ("check", "checksol") and random.random() < 0.2:
        lines = tour(random, n) if command == "check" else solution(random, n, first)
        files["u"] = text(random, lines, random.random() < 0.3)
        words += random.choice([["u"], ["u", other], ["gone", "u"]])
    return words, files


def plane(n, kind=b"EUC_2D", cvrp=False):
    """Returns a problem of n nodes on a grid; for a CVRP, with demands of 1 and a capacity of 7."""
    nodes = range(1, n + 1)
    lines = [b"TYPE : CVRP\nCAPACITY : 7" if cvrp else b"TYPE : TSP", b"DIMENSION : %d" % n, b"EDGE_WEIGHT_TYPE : " + kind,
             b"NODE_COORD_SECTION", *(b"%d %d %d" % (node, node % 71, node // 71) for node in nodes)]
    if cvrp:
        lines += [b"DEMAND_SECTION", *(b"%d %d" % (node, node > 1) for node in nodes), b"DEPOT_SECTION 1"]
    return b"\n".join(lines)


def large_cases(commands):
    """Returns cases at the limits on sizes, which random cases do not reach."""
    tour_head = b"TYPE : TOUR\nTOUR_SECTION\n"
    cases = []
    for n in [100_000, 100_001]:
        cities = b"\n".join(b"%d" % city for city in range(n, 0, -1))
        cases.append((["check", "p", "t"], {"p": plane(n, b"CEIL_2D"), "t": tour_head + cities}))
        routes = b"Route #1:\n" * (n - 1) + b"Route #2: 1\nCost 2\n"
        cases.append((["checksol", "p", "s"], {"p": plane(2, cvrp=True), "s": routes}))
    for count in [1_000_000, 1_000_001]:
        cases.append((["check", "p", "t"], {"p": plane(2), "t": tour_head + b"1\n" * count + b"-1"}))
        cases.append((["checksol", "p", "s"], {"p": plane(2, cvrp=True), "s": b"Route #1: " + b"1 " * count + b"\nCost 2"}))
    for n in [5000, 5001]:
        cases.append((["check", "p", "t"], {"p": plane(n, b"ATT", cvrp=True), "t": tour_head + b"1 2 3"}))
    cases.append((["matrix", "p", "UPPER_ROW"], {"p": plane(5001)}))
    for end in [b"", b"\n", b"#", b"EOF", b"\nRUNS = 0"]:
        for size in [1_048_576, 1_048_575, 1_048_573, 1_048_568]:
            lines = b"PROBLEM_FILE = p\nRUNS = 1\n"
            rest = size - len(lines)
            comments = (b"#".ljust(4095, b"x") + b"\n") * (rest // 4096) + b"#" * (rest % 4096)
            cases.append((["solve", "x"], {"x": lines + comments + end, "p": plane(2)}))
    return [case for case in cases if case[0][0] in commands]
