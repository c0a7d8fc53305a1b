"""Texts, given as files or as bytes."""

from __future__ import annotations

import os
from typing import Any, NamedTuple, Optional, Tuple, Union

from ._files import read_file
from ._library import frozen, input_slice

File = Union[str, os.PathLike[str]]
Bytes = Union[bytes, bytearray, memoryview]


# The kinds of objects that each argument can be.
FILE_OR_TEXT = "a file (str or os.PathLike), a text (bytes)"
ACCEPTED = {
    "file": "a file (str or os.PathLike) or a text (bytes)",
    "problem": f"{FILE_OR_TEXT} or a Problem",
    "tour": f"{FILE_OR_TEXT}, a Tour or a list of cities",
    "initial_tour": f"{FILE_OR_TEXT}, a Tour or a list of cities",
    "solution": f"{FILE_OR_TEXT}, Routes or a list of routes",
    "initial_solution": f"{FILE_OR_TEXT}, Routes or a list of routes",
    "claim": f"{FILE_OR_TEXT}, a Tour, Routes, a list of cities or a list of routes",
}


class Text(NamedTuple):
    """The bytes of a text, its kind, and the file that it was read from."""

    data: bytes
    what: str
    file: Optional[str] = None

    @property
    def where(self) -> str:
        """The name of the text in messages."""
        return f"<{self.what}>" if self.file is None else self.file

    @property
    def words(self) -> Tuple[Any, ...]:
        """The arguments that pass the bytes to a function of the library."""
        return input_slice(self.data)


def is_text(given: Any) -> bool:
    """Whether this is a file or the bytes of a text."""
    if isinstance(given, memoryview):
        return given.itemsize == 1
    return isinstance(given, (str, os.PathLike, bytes, bytearray))


def text_of(given: Any, what: str, name: str = "") -> Text:
    """The text of a file or of bytes. `name` is that of the argument, if it is not the kind of the text."""
    if isinstance(given, (str, os.PathLike)):
        return Text(read_file(given, what), what, os.fspath(given))
    if not is_text(given):
        raise TypeError(f"{name or what} must be {ACCEPTED[name or what]}, not {type(given).__name__}")
    return Text(frozen(given), what)
