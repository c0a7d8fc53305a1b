"""Reads the texts of files, no further than necessary."""

from __future__ import annotations

import io
import os
import re
import stat
from typing import BinaryIO, Union

from ._library import Answer, call, input_slice, output_slice
from ._limits import TEXT_LIMIT

# The number of bytes that are read at once.
PIECE = 1 << 20

# The lengths at which a text that might have no end is tested.
STARTS = (1 << 20, 1 << 24, 1 << 28)

# No word, number or header may have this many bytes without a blank.
UNBROKEN = 8192

# The problems that are read together with a tour or a solution.
TSP = b"TYPE : TSP\nDIMENSION : 2\nEDGE_WEIGHT_TYPE : EUC_2D\nNODE_COORD_SECTION\n1 0 0\n2 0 1\n"
CVRP = TSP.replace(b"TSP", b"CVRP") + b"CAPACITY : 1\nDEMAND_SECTION\n1 0\n2 1\nDEPOT_SECTION\n1\n-1\n"


def read_file(path: Union[str, "os.PathLike[str]"], what: str) -> bytes:
    """The text of a file. It is cut off after the first byte over the limit of texts, or earlier if it has a fault that no later bytes can
    change. So the result is that of the program, which reads no further than the first fault."""
    with open(path, "rb") as file:
        state = os.fstat(file.fileno())
        if stat.S_ISREG(state.st_mode) and state.st_size <= TEXT_LIMIT:
            text = file.read(state.st_size + 1)
            if len(text) <= state.st_size:
                return text
            file.seek(0)
        return read_start(file, what)


def read_start(file: BinaryIO, what: str) -> bytes:
    """The text of a file of unknown length."""
    text = io.BytesIO()
    for length in (*STARTS, TEXT_LIMIT + 1):
        read_up_to(length, file, text)
        if text.tell() < length or length > TEXT_LIMIT or is_decided(text.getvalue(), what):
            break
    return text.getvalue()


def read_up_to(length: int, file: BinaryIO, text: io.BytesIO) -> None:
    """Continues reading until the text has this length or the file ends."""
    while text.tell() < length:
        piece = file.read(min(PIECE, length - text.tell()))
        if not piece:
            return
        text.write(piece)


def is_decided(start: bytes, what: str) -> bool:
    """Whether these bytes certainly have a fault that no bytes after them can change.

    A fault that is detected only at the end of a text is on its last line, so a fault on an earlier line is decided. A fault on the last
    line is decided if that line ends in a word that is already too long, because the fault is in this word or before it."""
    lines = [fault_line(read(start)) for read in READERS[what]]
    return all(lines) and (max(lines) <= start.count(b"\n") or is_unbroken(start[-UNBROKEN:]))


def is_unbroken(end: bytes) -> bool:
    """Whether this end of a text has the length of such a word, without a blank or a line feed."""
    return len(end) == UNBROKEN and not re.search(rb"[ \t\r\n]", end)


def fault_line(answer: Answer) -> int:
    """The line of the fault in a text that was read; 0 if there is none."""
    return int(answer.line)


def read_problem(text: bytes) -> Answer:
    """Lets the library read a problem."""
    return call("tourkit_distances", *input_slice(text), *output_slice(b""))


def read_tour(text: bytes) -> Answer:
    """Lets the library read a tour."""
    return call("tourkit_check", *input_slice(TSP), *input_slice(text), *output_slice(b""))


def read_solution(text: bytes) -> Answer:
    """Lets the library read a solution."""
    return call("tourkit_checksol", *input_slice(CVRP), *input_slice(text), *output_slice(b""))


def read_any(text: bytes) -> Answer:
    """Lets the library read a text of any kind."""
    return call("tourkit_explain", *input_slice(text), *input_slice(b"text"), 0, *output_slice(b""))


# The functions that read each kind of text. The claim that `plot` draws is a tour or a solution, and a text is of any kind.
READERS = {
    "problem": [read_problem],
    "tour": [read_tour],
    "solution": [read_solution],
    "claim": [read_tour, read_solution],
    "text": [read_any],
}
