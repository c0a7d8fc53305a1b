"""Memory for the buffers that a call writes to."""

from __future__ import annotations

import contextlib
import mmap
from typing import Union

Room = Union[bytearray, mmap.mmap]

# From this size on, memory is mapped, so the system provides a page only when it is written to.
LARGE = 1 << 20

# From this size on, the system is asked for huge pages, which take less time to provide.
HUGE = 1 << 24


def room_for(size: int) -> Room:
    """A buffer of this many bytes."""
    if size < LARGE:
        return bytearray(size)
    try:
        room = mmap.mmap(-1, size, flags=mmap.MAP_PRIVATE | mmap.MAP_ANONYMOUS)
    except (OSError, OverflowError):
        raise MemoryError(f"tourkit: no room for {size:,} bytes") from None
    if size >= HUGE:
        with contextlib.suppress(OSError):
            room.madvise(mmap.MADV_HUGEPAGE)
    return room


def first_bytes(room: Room, count: int) -> bytes:
    """The first bytes of a buffer."""
    with memoryview(room) as view:
        return bytes(view[:count])
