"""Reads problem, tour, solution and parameter texts as docs/FORMATS.md describes them. It is slow and simple: it keeps the whole text in
memory, and is independent of the readers of tourkit. It has no limit of 1 GiB on a text."""

from dataclasses import dataclass, field
from fractions import Fraction
import re

BLANKS = b" \t\r"
UNIT = 10**9

FAULTS = ["UnknownKeyword", "Repeated", "Missing", "Unsupported", "BadNumber", "OutOfLimit", "BadNode", "NotSymmetric", "Truncated",
          "TrailingData", "BadDepot", "DemandOverCapacity", "TooLong", "Read", "NoMemory"]
PARAM_FAULTS = ["UnknownKey", "RepeatedKey", "BadValue", "MissingProblem", "DollarInName", "TooLong", "Read", "NoMemory"]

HEADERS = [b"NAME", b"TYPE", b"COMMENT", b"DIMENSION", b"CAPACITY", b"EDGE_WEIGHT_TYPE", b"EDGE_WEIGHT_FORMAT", b"NODE_COORD_TYPE",
           b"DISPLAY_DATA_TYPE", b"DISTANCE", b"SERVICE_TIME", b"VEHICLES"]
SECTIONS = [b"NODE_COORD_SECTION", b"EDGE_WEIGHT_SECTION", b"DEMAND_SECTION", b"DEPOT_SECTION", b"DISPLAY_DATA_SECTION",
            b"EDGE_DATA_SECTION", b"FIXED_EDGES_SECTION", b"TOUR_SECTION"]
KEYWORDS = {*HEADERS, *SECTIONS, b"EOF"}
PLANES = [b"EUC_2D", b"CEIL_2D", b"MAN_2D", b"MAX_2D", b"ATT"]
FORMATS = [b"FULL_MATRIX", b"UPPER_ROW", b"LOWER_ROW", b"UPPER_DIAG_ROW", b"LOWER_DIAG_ROW", b"UPPER_COL", b"LOWER_COL",
           b"UPPER_DIAG_COL", b"LOWER_DIAG_COL"]
FILE_KEYS = [b"PROBLEM_FILE", b"TOUR_FILE", b"SOLUTION_FILE", b"INITIAL_TOUR_FILE"]
NUMBER_KEYS = {b"RUNS": (1, 10_000), b"MAX_TRIALS": (1, 1_000_000), b"SEED": (0, 2**32 - 1), b"MAX_CANDIDATES": (1, 100),
               b"OR_SEGMENT": (1, 3)}
WORD_KEYS = {b"CONSTRUCTION": [b"NEAREST", b"SAVINGS"], b"FINAL_SWEEP": [b"YES", b"NO"]}
IGNORED_KEYS = [b"MOVE_TYPE", b"PATCHING_A", b"PATCHING_C", b"PRECISION", b"TRACE_LEVEL", b"OPTIMUM"]


class Fault(Exception):
    """The fault of a rejected text: its line, its name and its values."""

    def __init__(self, line, name, *values):
        super().__init__(line, name, *values)
        self.line, self.name, self.values = line, name, values

    def __str__(self):
        names = FAULTS if self.name in FAULTS and not isinstance(self, ParamFault) else PARAM_FAULTS
        return " ".join([f"{self.line}: {names.index(self.name) + 1} {self.name}", *map(str, self.values)])


class ParamFault(Fault):
    """The fault of a parameter text."""


@dataclass
class Problem:
    name: bytes = b"Unnamed"
    n: int = 0
    cvrp: bool = False
    kind: bytes = b""
    points: dict = field(default_factory=dict)
    weights: dict = field(default_factory=dict)
    capacity: int = 0
    demand: dict = field(default_factory=dict)
    depot: int = 0
    origin: str = ""  # of the points, if the distances do not depend on them


def integer(word):
    """Returns the value of an integer, or None."""
    return int(word) if re.fullmatch(rb"[+-]?[0-9]{1,18}", word) else None


def decimal(word):
    """Returns the value of a decimal number in units of 10^-9, or None."""
    parts = re.fullmatch(rb"([+-]?)([0-9]*)(?:(\.)([0-9]*))?(?:[eE]([+-]?[0-9]{1,3}))?", word)
    if not parts or not (parts[2] or parts[4]):
        return None
    digits = parts[2] + (parts[4] or b"")
    shift = int(parts[5] or 0) - len(parts[4] or b"") + 9
    value = int(Fraction(int(digits)) * Fraction(10) ** shift)
    return -value if parts[1] == b"-" else value


class Text:
    """A text and a position in it."""

    def __init__(self, data):
        self.data, self.at = data, 0

    def fault(self, name, *values, at=None):
        return Fault(1 + self.data.count(b"\n", 0, self.at if at is None else at), name, *values)

    def skip(self, some):
        while not self.ended() and self.data[self.at] in some:
            self.at += 1

    def ended(self):
        return self.at == len(self.data)

    def rest_of_line(self):
        end = self.data.find(b"\n", self.at)
        return self.data[self.at:] if end < 0 else self.data[self.at:end]

    def word(self):
        """Returns the word at the current position."""
        return re.compile(rb"[A-Za-z0-9_]*").match(self.data, self.at)[0]

    def peek(self):
        """Goes to the next token and returns its bytes, which are empty at the end of the text."""
        self.skip(BLANKS + b"\n")
        return re.compile(rb"[^ \t\r\n]*").match(self.data, self.at)[0]

    def token(self):
        """Reads the next token. Returns it and its position."""
        token = self.peek()
        begins = self.at
        if len(token) > 64:
            raise self.fault("TooLong")
        self.at += len(token)
        return token, begins

    def is_end(self, token):
        return token == b"" or token.upper() in (b"EOF", b"EOF:")

    def number(self, read, low, high, token=None):
        """Reads the next token as a number within these limits. Returns it and its position."""
        token, begins = token or self.token()
        bare = token[:-1] if token.endswith(b":") else token
        if token == b"" or bare.upper() in KEYWORDS:
            raise self.fault("Truncated", at=begins)
        value = read(token)
        if value is None:
            raise self.fault("BadNumber", at=begins)
        if not low <= value <= high:
            raise self.fault("OutOfLimit", at=begins)
        return value, begins

    def blank_to_line_end(self):
        self.skip(BLANKS)
        if not self.ended() and self.data[self.at] != 10:
            raise self.fault("TrailingData")

    def second_minus_one(self):
        """Skips a second -1 after the -1 that ends a section."""
        back = self.at
        token = self.peek()
        if len(token) <= 64 and integer(token) == -1:
            self.at += len(token)
        else:
            self.at = back
        self.blank_to_line_end()


ANY = (-10**18, 10**18)


class Handler:
    """The common parts of problem and tour texts: lines, headers and sections."""

    def __init__(self, data):
        self.text, self.seen, self.value = Text(data), set(), {}

    def read(self):
        text = self.text
        while True:
            text.skip(BLANKS + b"\n")
            if text.ended():
                break
            if not chr(text.data[text.at]).isascii() or not chr(text.data[text.at]).isalpha():
                raise text.fault("TrailingData")
            word = text.word()
            if len(word) > 64:
                raise text.fault("TooLong")
            key = word.upper()
            if key == b"EOF":
                break
            begins = text.at
            text.at += len(word)
            if key in HEADERS:
                self.header(key, begins)
            elif key in SECTIONS:
                self.section(key, begins)
            else:
                raise text.fault("UnknownKeyword", at=begins)
        return self.end()

    def header(self, key, begins):
        text = self.text
        line = text.rest_of_line()
        text.at += len(line)
        value = line.lstrip(BLANKS)
        value = (value[1:] if value.startswith(b":") else value).strip(BLANKS)
        if len(line) > 4096 or key == b"NAME" and len(value) > 1024:
            raise text.fault("TooLong", at=begins)
        if key != b"COMMENT" and key in self.seen:
            raise text.fault("Repeated", at=begins)
        self.seen.add(key)
        first = re.match(rb"[^ \t\r]*", value)[0]
        self.take_header(key, value, first.upper(), begins)

    def limited(self, word, low, high, begins):
        value = integer(word)
        if value is None:
            raise self.text.fault("BadNumber", at=begins)
        if not low <= value <= high:
            raise self.text.fault("OutOfLimit", at=begins)
        return value

    def one_of(self, word, words, begins):
        if word not in words:
            raise self.text.fault("Unsupported", at=begins)
        return word

    def begin_section(self, key, begins, needs):
        """Checks the requirements of every section, and skips its colon."""
        if key in self.seen:
            raise self.text.fault("Repeated", at=begins)
        self.seen.add(key)
        for need in needs:
            if need not in self.seen:
                raise self.text.fault("Missing", need.decode(), at=begins)

    def colon(self):
        self.text.skip(BLANKS)
        if self.text.data[self.text.at:self.text.at + 1] == b":":
            self.text.at += 1


class ProblemHandler(Handler):
    """Problem texts. If `placed` is true, the values of DISPLAY_DATA_SECTION are coordinates, unless the distances are known to depend on
    others."""

    placed = False

    def take_header(self, key, value, first, begins):
        if key == b"NAME":
            self.value[key] = value
        elif key == b"TYPE":
            self.value[key] = self.one_of(first, [b"TSP", b"CVRP"], begins)
        elif key == b"DIMENSION":
            self.value[key] = self.limited(first, 2, 100_000, begins)
        elif key == b"CAPACITY":
            self.value[key] = self.limited(first, 1, 2 * 10**9, begins)
        elif key == b"EDGE_WEIGHT_TYPE":
            self.value[key] = self.one_of(first, PLANES + [b"EXPLICIT"], begins)
        elif key == b"EDGE_WEIGHT_FORMAT":
            self.value[key] = self.one_of(first, FORMATS + [b"FUNCTION"], begins)
        elif key == b"NODE_COORD_TYPE":
            self.one_of(first, [b"TWOD_COORDS", b"NO_COORDS"], begins)
        elif key not in (b"COMMENT", b"DISPLAY_DATA_TYPE"):
            raise self.text.fault("Unsupported", at=begins)

    def section(self, key, begins):
        text = self.text
        if key in (b"EDGE_DATA_SECTION", b"FIXED_EDGES_SECTION", b"TOUR_SECTION"):
            raise text.fault("Unsupported", at=begins)
        needs = [b"TYPE", b"DIMENSION"]
        if key == b"EDGE_WEIGHT_SECTION":
            needs += [b"EDGE_WEIGHT_TYPE", b"EDGE_WEIGHT_FORMAT"]
        self.begin_section(key, begins, needs)
        n = self.value[b"DIMENSION"]
        if key == b"EDGE_WEIGHT_SECTION":
            if self.value[b"EDGE_WEIGHT_TYPE"] != b"EXPLICIT" or self.value[b"EDGE_WEIGHT_FORMAT"] == b"FUNCTION":
                raise text.fault("Unsupported", at=begins)
        if key in (b"DEMAND_SECTION", b"DEPOT_SECTION") and self.value[b"TYPE"] == b"TSP":
            raise text.fault("Unsupported", at=begins)
        if key in (b"EDGE_WEIGHT_SECTION", b"DEMAND_SECTION") and n > 5000:
            raise text.fault("OutOfLimit", at=begins)
        self.colon()
        if key == b"NODE_COORD_SECTION":
            self.value[key] = self.rows(n, decimal, -10**9 * UNIT, 10**9 * UNIT, 2)
        elif key == b"DEMAND_SECTION":
            self.value[key] = self.rows(n, integer, 0, 2 * 10**9, 1)
        elif key == b"EDGE_WEIGHT_SECTION":
            self.value[key] = self.weights(n)
        elif key == b"DISPLAY_DATA_SECTION" and self.placed and self.value.get(b"EDGE_WEIGHT_TYPE", b"EXPLICIT") == b"EXPLICIT":
            self.value[key] = self.rows(n, decimal, -10**9 * UNIT, 10**9 * UNIT, 2)
        elif key == b"DISPLAY_DATA_SECTION":
            for _ in range(3 * n):
                text.number(lambda token: 0, 0, 0)
            text.blank_to_line_end()
        else:
            self.value[key] = self.depot(n)

    def rows(self, n, read, low, high, count):
        """Returns the values of each node, by its number."""
        rows = {}
        for _ in range(n):
            node, begins = self.text.number(integer, *ANY)
            if not 1 <= node <= n or node in rows:
                raise self.text.fault("BadNode", at=begins)
            rows[node] = [self.text.number(read, low, high)[0] for _ in range(count)]
        self.text.blank_to_line_end()
        return rows

    def weights(self, n):
        table = {}
        for i, j in places(self.value[b"EDGE_WEIGHT_FORMAT"].decode(), n):
            weight, begins = self.text.number(integer, *(ANY if i == j else (0, 4 * 10**9)))
            if table.get((j, i), weight) != weight and i != j:
                raise self.text.fault("NotSymmetric", j, i, at=begins)
            table[i, j] = weight
        self.text.blank_to_line_end()
        return {pair: weight for (i, j), weight in table.items() if i != j for pair in ((i, j), (j, i))}

    def depot(self, n):
        text = self.text
        depot, begins = text.number(integer, *ANY)
        if not 1 <= depot <= n:
            raise text.fault("BadDepot", at=begins)
        if text.is_end(text.peek()):
            return depot
        last, begins = text.number(integer, *ANY)
        if last != -1:
            raise text.fault("BadDepot", at=begins)
        text.second_minus_one()
        return depot

    def end(self):
        text, value = self.text, self.value
        for key in (b"TYPE", b"DIMENSION", b"EDGE_WEIGHT_TYPE"):
            self.need(key)
        kind = value[b"EDGE_WEIGHT_TYPE"]
        self.need(b"EDGE_WEIGHT_SECTION" if kind == b"EXPLICIT" else b"NODE_COORD_SECTION")
        problem = Problem(value.get(b"NAME") or b"Unnamed", value[b"DIMENSION"], value[b"TYPE"] == b"CVRP", kind,
                          value.get(b"NODE_COORD_SECTION", {}), value.get(b"EDGE_WEIGHT_SECTION", {}))
        if kind == b"EXPLICIT" and problem.points:
            problem.origin = "node coordinates"
        if kind == b"EXPLICIT" and b"DISPLAY_DATA_SECTION" in value:
            problem.points, problem.origin = value[b"DISPLAY_DATA_SECTION"], "display data"
        if problem.cvrp:
            for key in (b"CAPACITY", b"DEMAND_SECTION", b"DEPOT_SECTION"):
                self.need(key)
            problem.capacity, problem.depot = value[b"CAPACITY"], value[b"DEPOT_SECTION"]
            problem.demand = {node: row[0] for node, row in value[b"DEMAND_SECTION"].items()}
            if problem.demand[problem.depot]:
                raise text.fault("BadDepot")
            for node in sorted(problem.demand):
                if problem.demand[node] > problem.capacity:
                    raise text.fault("DemandOverCapacity", node)
        return problem

    def need(self, key):
        if key not in self.seen:
            raise self.text.fault("Missing", key.decode())


class TourHandler(Handler):
    """Tour texts."""

    def take_header(self, key, value, first, begins):
        if key == b"TYPE":
            self.one_of(first, [b"TOUR"], begins)
        elif key == b"DIMENSION":
            self.limited(first, 1, 1_000_000, begins)
        elif key not in (b"NAME", b"COMMENT"):
            raise self.text.fault("Unsupported", at=begins)

    def section(self, key, begins):
        text = self.text
        if key != b"TOUR_SECTION":
            raise text.fault("Unsupported", at=begins)
        self.begin_section(key, begins, [])
        self.colon()
        self.value[key] = cities = []
        while not text.is_end(text.peek()):
            city, begins = text.number(integer, *ANY)
            if city == -1:
                text.second_minus_one()
                return
            if not 0 <= city < 2**32 or len(cities) == 1_000_000:
                raise text.fault("OutOfLimit", at=begins)
            cities.append(city)

    def end(self):
        for key in (b"TYPE", b"TOUR_SECTION"):
            if key not in self.seen:
                raise self.text.fault("Missing", key.decode())
        return self.value[b"TOUR_SECTION"]


def places(form, n):
    """Returns the matrix entries of a format of explicit weights, in their order."""
    cities = range(1, n + 1)
    if form == "FULL_MATRIX":
        return [(i, j) for i in cities for j in cities]
    upper, diagonal = form.startswith("UPPER"), "DIAG" in form
    inside = [(i, j) for i in cities for j in cities if i == j and diagonal or i != j and (i < j) == upper]
    return inside if form.endswith("ROW") else sorted(inside, key=lambda place: (place[1], place[0]))


def read_problem(data):
    return ProblemHandler(data).read()


def read_placed_problem(data):
    """Returns a problem with the points that a picture shows."""
    reader = ProblemHandler(data)
    reader.placed = True
    return reader.read()


def read_tour(data):
    return TourHandler(data).read()


def read_solution(data):
    """Returns the routes and the cost of a solution text."""
    routes, cost, customers = [], None, 0
    for number, line in enumerate(data.split(b"\n"), 1):
        line = line.strip(BLANKS)
        parts = re.match(rb"([A-Za-z][A-Za-z0-9_]*)(.*)", line, re.DOTALL)
        word, rest = (parts[1].upper(), parts[2]) if parts else (b"", line)
        if line == b"":
            continue
        if cost is not None:
            if word in (b"ROUTE", b"COST"):
                raise Fault(number, "TrailingData")
        elif word == b"ROUTE":
            if len(routes) == 100_000:
                raise Fault(number, "OutOfLimit")
            head = re.match(rb"[ \t\r]*#?[ \t\r]*[+-]?[0-9]{1,18}[ \t\r]*:", rest)
            if not head:
                raise Fault(number, "BadNumber")
            route = [limited_token(number, token, 0, 2**32 - 1) for token in tokens(rest[head.end():], 1_000_000 - customers, number)]
            customers += len(route)
            routes.append(route)
        elif word == b"COST":
            value = rest.lstrip(BLANKS)
            found = tokens(value[1:] if value.startswith(b":") else value)
            if not found:
                raise Fault(number, "BadNumber")
            cost = limited_token(number, found[0], 0, 10**18)
            if len(found) > 1:
                raise Fault(number, "TrailingData")
        else:
            raise Fault(number, "UnknownKeyword")
    if cost is None:
        raise Fault(1 + data.count(b"\n"), "Missing", "Cost")
    return routes, cost


def tokens(line, most=None, number=0):
    """Returns the tokens of a line. If there are more than `most`, raises the first fault of these and of the one after them."""
    found = [token for token in re.split(rb"[ \t\r]+", line) if token]
    if most is not None and len(found) > most:
        for token in found[:most]:
            limited_token(number, token, 0, 2**32 - 1)
        token = found[most]
        limited_token(number, token, -10**18, 10**18)
        raise Fault(number, "OutOfLimit")
    return found


def limited_token(number, token, low, high):
    if len(token) > 64:
        raise Fault(number, "TooLong")
    value = integer(token)
    if value is None:
        raise Fault(number, "BadNumber")
    if not low <= value <= high:
        raise Fault(number, "OutOfLimit")
    return value


def read_params(data):
    """Returns the values by key, and the ignored keys in the order of the file."""
    values, ignored, begins = {}, [], 0
    for number, line in enumerate(data.split(b"\n"), 1):
        start = line.lstrip(BLANKS)
        key = re.match(rb"(?:[A-Za-z][A-Za-z0-9_]*)?", start)[0]
        upto = len(line) - len(start) + 3 if key.upper() == b"EOF" else len(line)
        if upto > 4096 or begins + upto > 1_048_576 or len(key) > 64:
            raise ParamFault(number, "TooLong")
        if key.upper() == b"EOF":
            break
        begins += len(line) + 1
        if start and not start.startswith(b"#") and key.upper() != b"COMMENT":
            take_key(number, key.upper(), start[len(key):], values, ignored)
        if begins > 1_048_576 and begins <= len(data):
            raise ParamFault(number, "TooLong")
    if b"PROBLEM_FILE" not in values:
        raise ParamFault(number, "MissingProblem")
    return values, ignored


def take_key(number, key, rest, values, ignored):
    """Reads one line of a parameter text."""
    rest = rest.lstrip(BLANKS)
    value = (rest[1:] if rest.startswith(b"=") else rest).strip(BLANKS)
    if key not in FILE_KEYS + IGNORED_KEYS and key not in NUMBER_KEYS and key not in WORD_KEYS:
        raise ParamFault(number, "UnknownKey")
    if key in values or key in ignored:
        raise ParamFault(number, "RepeatedKey")
    if key in IGNORED_KEYS:
        ignored.append(key)
    elif key in FILE_KEYS:
        if b"$" in value:
            raise ParamFault(number, "DollarInName")
        try:
            values[key] = value.decode("utf-8")
        except UnicodeDecodeError:
            raise ParamFault(number, "BadValue") from None
        if not value:
            raise ParamFault(number, "BadValue")
    elif key in WORD_KEYS:
        if value.upper() not in WORD_KEYS[key]:
            raise ParamFault(number, "BadValue")
        values[key] = value.upper()
    else:
        low, high = NUMBER_KEYS[key]
        count = integer(value)
        if count is None or not low <= count <= high:
            raise ParamFault(number, "BadValue")
        values[key] = count
