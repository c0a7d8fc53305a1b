"""The functions of the sources, and what the prover reports about them."""

import re
from typing import NamedTuple

# The first line of a function, that of an impl or a trait, with their indents, and that of a type.
FUNCTION = re.compile(r'( *)(?:pub(?:\([^)]*\))? )?(?:const )?(?:extern "C" )?fn (\w+)')
OWNER = re.compile(r"( *)(?:impl(<.*?>)? (?:(?:\w+::)*(\w+)(?:<(\w*).*?>)? for )?|(?:pub )?trait )(\w+)")
TYPE = re.compile(r"^(?:pub(?:\([^)]*\))? )?(?:struct|enum|trait) (\w+)", re.MULTILINE)
# The prover's verdict on a function, and the error of an answer to one of its goals, with the directory of the answer.
VERDICT = re.compile(r"^fn (\S.*?): (.*)$", re.MULTILINE)
ANSWER = re.compile(r"^(?:\./)?proofs/(\S+)/\w+\.antt:\d+:\d+: error: (?:`([^`]*)`: )?(.*(?:\n  .*)*)$", re.MULTILINE)
# Why an answer is rejected that cites a name that is gone.
LOST = re.compile(r"has no field|is not in scope|has no `|was not admitted")

ACCEPTED, REJECTED, LOST_NAME, UNDECIDED = "accepted", "rejected", "lost name", "undecided"


class Function(NamedTuple):
    """A function: its module, or that of its type if it is in an impl without a trait; its type and trait; and its name."""

    module: str
    owner: str
    name: str

    def path(self):
        """The path within the crate by which the prover names it."""
        return "::".join(part for part in self if part)

    def is_of(self, path):
        """Whether a path within the crate is that of this function or of one of its closures."""
        closure = "::".join(part for part in (self.module, "fn", self.owner, self.name, "") if part) + "::"
        return path == self.path() or path.startswith(closure)


class Place(NamedTuple):
    """A function in a text: the numbers of its first line, and of that which ends its signature and its contract."""

    function: Function
    begin: int
    body: int

    def header(self, text):
        """The signature and the contract, with single spaces."""
        return " ".join(" ".join(text.splitlines()[self.begin : self.body + 1]).split())

    def keeps_header(self, before, after):
        """Whether a changed text has the same signature and contract, so that only the body is another."""
        return " ".join(" ".join(after.splitlines()[self.begin :]).split()).startswith(self.header(before))


class Sources:
    """The source files of a crate, in the layout of `rt fmt`."""

    def __init__(self, folder):
        """Reads them."""
        self.texts = {str(path.relative_to(folder)): path.read_text(encoding="utf-8") for path in sorted((folder / "src").rglob("*.rt"))}
        self.types = {name: file for file, text in self.texts.items() for name in TYPE.findall(text)}

    def place(self, file, text, line):
        """The function that contains a line of a text of a file, or None."""
        lines = text.splitlines()
        begin = next((at for at in range(line, -1, -1) if FUNCTION.match(lines[at])), None)
        if begin is None:
            return None
        indent, name = FUNCTION.match(lines[begin]).groups()
        body = next((at for at in range(begin, len(lines)) if lines[at] == indent + "{" or lines[at].endswith((" {", "{}"))), begin)
        if any(line.endswith(";") for line in lines[begin:body]):
            return None  # a method of a trait without a body
        end = body if lines[body].endswith("{}") else next((at for at in range(body, len(lines)) if lines[at] == indent + "}"), -1)
        type_name, trait = owner_of(lines[:begin], indent)
        function = Function(module_of(file if trait else self.types.get(type_name, file)), type_name + trait, name)
        return Place(function, begin, body) if line <= end else None

    def functions(self):
        """All functions that have a body, each with its text."""
        for file, text in self.texts.items():
            lines = text.splitlines()
            begins = [at for at, line in enumerate(lines) if FUNCTION.match(line)]
            for begin, end in zip(begins, [*begins[1:], len(lines)]):
                if place := self.place(file, text, begin):
                    yield place.function, "\n".join(lines[begin:end])


def owner_of(lines, indent):
    """The type of the impl in which a function with an indent begins after these lines, and its trait with the type of its parameter."""
    found = next((match for line in reversed(lines) if (match := OWNER.match(line)) and len(match[1]) < len(indent)), None)
    if not found:
        return "", ""
    _, parameters, trait, argument, name = found.groups()
    is_type = argument and argument not in re.findall(r"\w+", parameters or "")
    return name, (trait or "") + (argument if is_type else "")


def module_of(file):
    """The module of a source file."""
    return "::".join(file.removeprefix("src/").removesuffix(".rt").split("/")) if file != "src/lib.rt" else ""


def verdicts_of(said):
    """The verdicts of the prover, by the paths of the functions within their crate."""
    return {path.partition("::")[2]: verdict for path, verdict in VERDICT.findall(said)}


def judge(paths, verdicts, said):
    """What becomes of a mutant that changes the functions with these paths, and why: the goals that fail."""
    refused = {path: verdicts[path] for path in paths if not verdicts[path].startswith("proved")}
    answers = [(goal, why) for folder, goal, why in ANSWER.findall(said) if folder.replace("/", "::") in refused]
    goals = [goal for goal, why in answers if goal and not LOST.search(why)]
    for verdict in refused.values():
        goals += re.findall("`([^`]+)`", verdict.partition("`search` did not prove")[2].partition(";")[0])
    if goals:
        return REJECTED, ", ".join(sorted(set(goals)))
    if refused and answers:
        return LOST_NAME, answers[0][1].partition("\n")[0]
    if refused or not paths:
        return UNDECIDED, "; ".join(refused.values())
    return ACCEPTED, ", ".join(paths)
