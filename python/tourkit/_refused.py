"""The exception for rejected texts and problems."""

from __future__ import annotations

import re
from typing import Optional, Sequence

from ._library import Answer
from ._text import Text

# The reasons why a function does not apply to a problem, by their numbers in `tourkit.h`.
MISFITS = {16: "WrongType", 17: "NotForType", 18: "TooLarge", 19: "NoPlaces"}

# The faults of an initial tour, by their numbers in `tourkit.h`, with their numbers in messages.
CLASHES = {20: (1, "WrongCount"), 21: (2, "OutOfRange"), 22: (3, "RepeatedCity")}

# The faults of the routes of an initial solution, by their numbers in `tourkit.h`.
ROUTE_FAULTS = {23: "BadCustomer", 24: "ServedTwice", 25: "OverCapacity", 26: "NotServed", 27: "WrongCost"}


class Refused(ValueError):
    """Reports that a text has a fault, or that a function does not apply to a problem. It prints as the program reports it:

        broken.tsp:10: 10 TrailingData

    number   the number of the fault, as in docs/FORMATS.md; `None` if the program prints none
    name     its name
    line     the line of the fault, from 1; `None` if it is not on a line
    file     the name of the rejected file, as it was given; `None` for a text that is not in a file
    """

    __module__ = "tourkit"  # the module that tracebacks name

    def __init__(
        self,
        message: str,
        number: Optional[int] = None,
        name: Optional[str] = None,
        line: Optional[int] = None,
        file: Optional[str] = None,
    ) -> None:
        super().__init__(message)
        self.number = number
        self.name = name
        self.line = line
        self.file = file


def refused(answer: Answer, message: bytes, texts: Sequence[Text]) -> Refused:
    """The exception for an answer and its message, after a call with these texts. If the function does not apply to the problem, the
    exception names the problem among them."""
    told = message.decode().replace("INITIAL_TOUR_FILE", "initial_tour")
    if answer.kind in MISFITS and told:
        problem = next(text for text in texts if text.what == "problem")
        return Refused(f"{problem.where}: {told}", None, MISFITS[answer.kind], None, problem.file)
    text = texts[answer.text - 1]
    if answer.kind in CLASHES:
        number, name = CLASHES[answer.kind]
        place = f" {answer.place}" if answer.place else ""
        return Refused(f"{text.where}: initial tour: {number} {name}{place}", number, name, None, text.file)
    if answer.kind in ROUTE_FAULTS and told:
        return Refused(f"{text.where}: {told}", None, ROUTE_FAULTS[answer.kind], None, text.file)
    fault = re.search(rf"\b{answer.line}: ({answer.kind} (\w+).*)$", told)
    if not fault:
        raise MemoryError("tourkit: out of memory")
    return Refused(f"{text.where}:{answer.line}: {fault[1]}", answer.kind, fault[2], answer.line, text.file)
