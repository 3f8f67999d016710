"""The thread on which a session lives.

The library wants each session to be asked on the thread that opened it. So a session has a thread of its own, which makes
all its calls, one after another in the order in which they were asked for. Any thread may ask, and waits for the answer.
"""

import contextlib
import os
import queue
import threading
from collections.abc import Callable
from typing import Any

# After so many seconds who waits looks whether the thread is still there.
SECONDS = 1.0


class Call:
    """A call that is asked for, and what comes of it."""

    def __init__(self, function: Callable[..., Any], words: tuple[Any, ...]) -> None:
        self._function, self._words = function, words
        self._result: Any = None
        self._error: BaseException | None = None
        self._made = threading.Lock()
        self._made.acquire()
        self.is_dropped = False

    def make(self) -> None:
        try:
            self._result = self._function(*self._words)
        except BaseException as error:
            self._error = error
        self._made.release()

    def refuse(self) -> None:
        self._error = ValueError("the session is closed")
        self._made.release()

    def outcome(self, is_served: Callable[[], bool]) -> Any:
        """What the function gives or raises, once it is made; a ValueError where nobody makes it any more."""
        if not self._is_made(is_served):
            raise ValueError("the session is closed")
        error, self._error = self._error, None
        if error is not None:
            raise error
        return self._result

    def _is_made(self, is_served: Callable[[], bool]) -> bool:
        """Waits until the call is made or nobody is there who would make it."""
        while not self._made.acquire(timeout=SECONDS):
            if not is_served():
                return self._made.acquire(blocking=False)
        return True


class Home:
    """A thread that makes calls, the last of which ends it."""

    def __init__(self, stop: Callable[[], None], clear: Callable[[], None]) -> None:
        """`stop` interrupts the call that is being made, and `clear` takes that back where it came too late."""
        self._stop, self._clear = stop, clear
        # Of what runs and is dropped. A signal's handler may come between any two steps of the same thread.
        self._lock = threading.RLock()
        self._calls: queue.SimpleQueue[tuple[Call, bool]] = queue.SimpleQueue()
        self._running: Call | None = None
        self._is_ended = False
        self._process = os.getpid()
        self._thread = threading.Thread(target=self._make_all, name="poincare session", daemon=True)
        self._thread.start()

    @property
    def is_ended(self) -> bool:
        """Whether the last call is asked for."""
        return self._is_ended

    def ask(self, function: Callable[..., Any], *words: Any) -> Any:
        """Has a function called, and waits for what it gives or raises. Where a signal's handler raises meanwhile, as that
        of Ctrl-C does, the call is interrupted, or left out if it has not begun."""
        return self._answer(Call(function, words), False)

    def ask_last(self, function: Callable[..., Any], *words: Any) -> Any:
        """The same, for the last call."""
        result = self._answer(Call(function, words), True)
        self._thread.join()
        return result

    def post_last(self, function: Callable[..., Any], *words: Any) -> None:
        """Has a function called, as the last call, and waits for nothing."""
        if os.getpid() == self._process:
            self._put(Call(function, words), True)

    def _answer(self, call: Call, last: bool) -> Any:
        if os.getpid() != self._process:
            raise RuntimeError("a session is not asked in a process that was forked from its own")
        if threading.current_thread() is self._thread:
            raise RuntimeError("a session is not asked while its own thread collects what was dropped")
        try:
            self._put(call, last)
            return call.outcome(self._thread.is_alive)
        except BaseException:
            if not last:
                self._drop(call)
            raise

    def _put(self, call: Call, last: bool) -> None:
        # No lock is held: a signal's handler that asks and waits would hold it until the thread has made its call.
        if self._is_ended:
            raise ValueError("the session is closed")
        if last:
            self._is_ended = True
        self._calls.put((call, last))

    def _drop(self, call: Call) -> None:
        """Nobody waits for the call any more."""
        with self._lock:
            call.is_dropped = True
            if self._running is call:
                self._stop()

    def _make_all(self) -> None:
        last = False
        while not last:
            call, last = self._calls.get()
            self._make(call)
            # What the call knows is not kept while the next one is waited for.
            del call
        with contextlib.suppress(queue.Empty):
            while True:
                self._calls.get_nowait()[0].refuse()

    def _make(self, call: Call) -> None:
        with self._lock:
            if call.is_dropped:
                return
            self._running = call
        call.make()
        with self._lock:
            self._running = None
            if call.is_dropped:
                self._clear()
