"""Calls of the library in other threads, so that an interrupt (Ctrl-C) reaches the thread that waits for them."""

from __future__ import annotations

import _thread
import queue
from typing import Any, Callable, Generic, Tuple, TypeVar, Union

R = TypeVar("R")

# The maximum time until a waiting thread notices an interrupt that another thread has received, in seconds.
PAUSE = 0.2


class Pool(Generic[R]):
    """Threads that make calls. After an exception, such as an interrupt, they end with their current calls, and they do not keep the process
    from ending.

    The functions of `threading` may lose an interrupt that comes while they start a thread or remove its object, so `_thread` is used."""

    def __init__(self, jobs: int) -> None:
        self._tasks: queue.SimpleQueue[Union[Callable[[], R], None]] = queue.SimpleQueue()
        self._results: queue.SimpleQueue[Tuple[bool, Any]] = queue.SimpleQueue()
        self._jobs, self._threads, self._started, self._ended = jobs, 0, 0, False

    def end(self, waits: bool) -> None:
        """Lets the threads end, and waits for that if there are no more calls."""
        self._ended = True
        for _ in range(self._threads + 1):  # an interrupt may have come before a new thread was counted
            self._tasks.put(None)
        for _ in range(self._threads if waits else 0):
            self._results.get()

    def start(self, task: Callable[[], R]) -> None:
        """Lets a thread make a call, as soon as one is free."""
        self._tasks.put(task)
        self._started += 1
        if self._threads < min(self._started, self._jobs):
            self._add_thread()

    def _add_thread(self) -> None:
        """Starts another thread. If there cannot be one, this thread makes the call."""
        try:
            _thread.start_new_thread(self._work, ())
            self._threads += 1
        except RuntimeError:
            if self._threads == 0:
                self._make(self._tasks.get())

    def result(self) -> R:
        """Waits for the result of a call. The calls may end in any order. If the call has raised an exception, raises it."""
        while True:
            try:
                is_result, result = self._results.get(timeout=PAUSE)
            except queue.Empty:
                continue
            self._started -= 1
            if is_result:
                found: R = result
                return found
            raise result

    def _work(self) -> None:
        """Makes calls until there are no more. Then reports that the thread ends."""
        while self._make(self._tasks.get()):
            pass
        self._results.put((True, None))

    def _make(self, task: Union[Callable[[], R], None]) -> bool:
        """Makes a call and keeps its result. Returns whether there was one to make."""
        if task is None or self._ended:
            return False
        try:
            self._results.put((True, task()))
        except BaseException as error:
            self._results.put((False, error))
        return True
