"""A session of the library. All its calls but `stop` and `clear` are made on one thread."""

import ctypes
import threading
from collections.abc import Callable

from . import _library
from ._library import Slot, library


class Held:
    """The slots of a session and of its stopper."""

    def __init__(self) -> None:
        calls = library()
        self._calls = calls
        # A stopper is asked by one call at a time, also where a signal's handler stops the session.
        self._lock = threading.RLock()
        self._session = Slot(calls.poincare_session_size(), calls.poincare_session_align())
        self._stopper = Slot(calls.poincare_stopper_size(), calls.poincare_stopper_align())
        self._out = ctypes.create_string_buffer(1024)
        calls.poincare_session_init(self._session.place)
        calls.poincare_stopper_init(self._stopper.place)

    def open(self, pool: int) -> None:
        if self._calls.poincare_open(self._session.place, pool) != _library.DONE:
            raise MemoryError("there is no memory for a session")
        with self._lock:
            code = self._calls.poincare_stopper_open(self._stopper.place, self._session.place)
        if code != _library.DONE:
            raise MemoryError("there is no memory for what stops a session")

    def line(self, line: bytes, checks: int | None) -> tuple[int, str]:
        """The code of a line, and its text."""
        if checks is None:
            code = self._calls.poincare_line(self._session.place, line, len(line))
        else:
            code = self._calls.poincare_line_within(self._session.place, line, len(line), checks)
        return code, self._written(self._calls.poincare_text)[1]

    def picture(self) -> tuple[int, str]:
        return self._written(self._calls.poincare_draw)

    def pool(self) -> tuple[int, int]:
        used, left = ctypes.c_uint32(), ctypes.c_uint32()
        self._calls.poincare_pool(self._session.place, ctypes.byref(used), ctypes.byref(left))
        return used.value, left.value

    def stop(self) -> None:
        with self._lock:
            self._calls.poincare_stop(self._stopper.place)

    def clear(self) -> None:
        with self._lock:
            self._calls.poincare_clear(self._stopper.place)

    def close(self) -> None:
        with self._lock:
            self._calls.poincare_stopper_close(self._stopper.place)
        self._calls.poincare_close(self._session.place)

    def _written(self, call: Callable[..., int]) -> tuple[int, str]:
        """What a call writes, with its code; where there is not room for all of it, the call is made again."""
        place, count = self._session.place, ctypes.c_size_t()
        code = call(place, self._out, len(self._out), ctypes.byref(count))
        if count.value > len(self._out):
            self._out = ctypes.create_string_buffer(count.value)
            code = call(place, self._out, len(self._out), ctypes.byref(count))
        return code, self._out.raw[: count.value].decode()
