"""The object that --json prints for a refusal, made from its line on standard error."""

import json
import re

TEXT = re.compile(r"(?P<file>.*?):(?P<line>[0-9]+): (?P<number>[0-9]+) (?P<name>\w+)(?P<values>(?: \w+)*)")
INITIAL = re.compile(r"(?P<file>.*?): initial tour: (?P<number>[0-9]+) (?P<name>\w+)(?P<values>(?: \w+)*)")
ROUTES = re.compile(r"(?P<file>.*?): initial solution: (?P<words>.*)")
OPTION = re.compile(r"--[a-z-]+: (?P<number>[0-9]+) (?P<name>\w+)(?P<values>)")
FILE = re.compile(r"(?P<file>.*): (?:cannot be opened|not a CVRP|too large for a matrix|search options need .*"
                  r"|\S+ (?:does not fit the problem's type|is the same file as \S+|is the parameter file))")
PLAIN = re.compile(r"write fault|out of memory")
# The names of the faults of an initial solution, by their words.
NAMES = {"bad customer in route": "BadCustomer", "customer served twice": "ServedTwice", "over capacity in route": "OverCapacity",
         "customer not served": "NotServed", "wrong cost": "WrongCost"}


def value(word):
    """Returns a value of a fault: a number, or a keyword."""
    return int(word) if word.isdecimal() else word


def name_of(shown):
    """Returns the name of a file, from a message."""
    return shown.replace("\\x0a", "\n").replace("\\x0d", "\r")


READ = {"file": name_of, "line": int, "number": int, "name": str, "values": lambda words: [value(word) for word in words.split()]}


def members_of_routes(file, words):
    """Returns the members about a fault of an initial solution."""
    name = next(name for start, name in NAMES.items() if words.startswith(start))
    return {"file": name_of(file), "name": name, "values": [int(number) for number in re.findall("-?[0-9]+", words)]}


def object_of(line):
    """Returns the bytes of the object for a line of standard error, which ends with a line feed."""
    message = line.removeprefix("tourkit: ").removesuffix("\n")
    found = ROUTES.fullmatch(message)
    if found:
        return bytes_of(members_of_routes(**found.groupdict()), message)
    for form in (TEXT, INITIAL, OPTION, FILE, PLAIN):
        found = form.fullmatch(message)
        if found:
            return bytes_of({name: READ[name](text) for name, text in found.groupdict().items()}, message)
    raise ValueError(f"no message of a refusal: {line!r}")


def bytes_of(members, message):
    """Returns the bytes of the object with these members and a message."""
    refused = {"refused": {**members, "message": message}}
    return json.dumps(refused, separators=(",", ":"), ensure_ascii=False).encode() + b"\n"


def with_file(file, text):
    """Returns the bytes of an object with the name of one of several files as its first member."""
    return b'{"file":' + json.dumps(file, ensure_ascii=False).encode() + b"," + text.removeprefix(b"{")


def printed_for(words, line):
    """Returns what a command with these arguments prints on standard output when it stops with a line on standard error."""
    if "--json" not in words or line.startswith("tourkit: write fault"):
        return b""
    return object_of(line)
