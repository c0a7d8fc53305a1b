"""Calls of functions that write texts or arrays."""

from __future__ import annotations

import struct
from typing import Any, Callable, List, Sequence, Tuple

from ._library import NO_ROOM, REFUSED, Answer, call, output_slice
from ._refused import refused
from ._room import first_bytes, room_for
from ._text import Text

# The size of a buffer for a line or a message.
LINE = 256


def write_texts(
    name: str, texts: Sequence[Text], words: Sequence[Any], sizes: Sequence[int], message: int = 0
) -> Tuple[Answer, List[bytes]]:
    """Calls a function that writes one text for each of these sizes. If the function rejects one of `texts`, it writes a message instead of
    text number `message`. If a text does not fit, the call is repeated."""
    rooms = [room_for(size) for size in sizes]
    answer = call(name, *words, *(word for room in rooms for word in output_slice(room)))
    needed = [answer.needed, answer.needed_file][: len(sizes)]
    if answer.status == REFUSED:
        raise refused(answer, first_bytes(rooms[message], answer.needed), texts)
    if any(count > size for count, size in zip(needed, sizes)):
        return write_texts(name, texts, words, [max(pair) for pair in zip(needed, sizes)], message)
    return answer, [first_bytes(room, count) for room, count in zip(rooms, needed)]


def filled(letter: str, count: int, fill: Callable[..., Answer]) -> memoryview:
    """The numbers that a call writes. If `count` is not their number, the call is repeated with the right one."""
    numbers = memoryview(room_for(count * struct.calcsize(letter))).cast("B").cast(letter)
    answer = fill(*output_slice(numbers))
    return filled(letter, answer.needed, fill) if answer.status == NO_ROOM else numbers
