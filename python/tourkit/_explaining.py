"""Explanations of files in words."""

from __future__ import annotations

from typing import Optional, Union

from ._arguments import within
from ._library import input_slice
from ._text import Bytes, File, text_of
from ._writing import write_texts

# The maximum number of bytes of most explanations.
PAGE = 4096

# The maximum number of a line.
LAST_LINE = 2**64 - 1


def explain(file: Union[File, Bytes], line: Optional[int] = None) -> str:
    """Explains a file in words: its first fault and how to fix it, or what it contains. With `line`, explains this line, from 1.

        >>> print(tourkit.explain("tri.tsp"), end="")
        tri.tsp has no fault: it is a TSP of 3 cities named tri, with EUC_2D distances.
        ...
    """
    text = text_of(file, "text", "file")
    number = 0 if line is None else within("line", line, 1, LAST_LINE)
    words = (*text.words, *input_slice(shown(text.where)), number)
    _, (page,) = write_texts("tourkit_explain", [text], words, [PAGE])
    return page.decode()


def shown(name: str) -> bytes:
    """A file name on one line, as the program shows it. Characters that UTF-8 cannot represent become question marks."""
    return name.replace("\n", "\\x0a").replace("\r", "\\x0d").encode(errors="replace")
