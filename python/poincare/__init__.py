"""Exact answers to lines such as `1/(√(2)+√(3))`: rationals, square roots and symbols, never a rounded number.

    >>> from poincare import Session
    >>> with Session() as session:
    ...     print(session.line("1/3+1/6"))
    ...     print(session.line("x+1→y").kind)
    ...     print(session.line("2^127"))
    1/2
    Kind.STORED
    ! overflow 2^127

What a line may be says docs/LANGUAGE.md. The module stands on the library for C, which `make -C c` builds.
"""

import contextlib
import ctypes
import decimal
import enum
import mmap
import operator
import warnings
from dataclasses import dataclass
from types import TracebackType
from typing import NamedTuple, NoReturn

from . import _library
from ._held import Held
from ._home import Home
from ._library import LibraryMissing, library

__all__ = ["Answer", "Kind", "LibraryMissing", "Pool", "PoolFull", "Refusal", "Rounded", "Session", "answers"]

__version__ = "1.0.0"

DEFAULT_POOL = 32768

# How much room `answers` has for what it writes: so much, or so many times its text.
ANSWERS_ROOM = 1 << 26
ANSWERS_TIMES = 64


class Kind(enum.Enum):
    """What became of a line."""

    SHOWN = 0
    """Its text is the new last answer."""
    STORED = 1
    """The same, and it is stored under a name."""
    UNDEFINED = 2
    """No values of its names give it a meaning; the text is `undef`."""
    BLANK = 3
    """It has nothing but blanks, and there is no text."""
    REPORT = 4
    """The text is what a command tells."""
    DRAW = 5
    """It asks for the picture of the last answer; there is no text."""
    REFUSED = 100
    """The text says why, and nothing was changed."""


class Refusal(enum.Enum):
    """Why a line is refused; docs/LANGUAGE.md says when each comes."""

    LONG = 1
    CHARACTER = 2
    NUMBER = 3
    SYNTAX = 4
    DEEP = 5
    RESERVED = 6
    NAMES_FULL = 7
    FULL = 8
    OVERFLOW = 9
    INTERRUPTED = 10
    CIRCULAR = 11
    COMMAND = 12
    NOT_POLYNOMIAL = 14
    NO_DERIVATIVE = 15
    NOT_LINEAR = 16
    TOO_MANY = 17
    NO_DECIMAL = 18
    UNDECIDED = 19
    DEGREE = 20


@dataclass(frozen=True)
class Answer:
    """What a line is answered with: its kind, its text, and why it is refused, where it is."""

    kind: Kind
    text: str
    refusal: Refusal | None = None

    def __str__(self) -> str:
        return self.text


class Rounded(decimal.Decimal):
    """A decimal, with how far the value may be from it: not at all, or half a unit of its last place."""

    error: decimal.Decimal


class Pool(NamedTuple):
    """How many bytes of a pool are in use, and how many are free."""

    used: int
    free: int


class PoolFull(Exception):
    """A picture or a text in LaTeX finds no room in the pool. The text is the program's: `! full needed N free M`."""


def _bytes_of(line: str | bytes) -> bytes:
    if isinstance(line, str):
        return line.encode("utf-8", "surrogateescape")
    if isinstance(line, bytes | bytearray | memoryview):
        return bytes(line)
    raise TypeError(f"a line is a str or bytes, and not {type(line).__name__}")


def _without_end(line: bytes) -> bytes:
    """A line without a newline at its end and a carriage return before that."""
    return line.removesuffix(b"\n").removesuffix(b"\r")


def _pool_of(size: int) -> int:
    pool = operator.index(size)
    if pool not in range(64, 524_281, 8):
        raise ValueError(f"a pool has a multiple of 8 bytes, from 64 to 524280, and not {pool}")
    return pool


def _checks_of(count: int) -> int:
    checks = operator.index(count)
    if not 0 <= checks < 1 << 64:
        raise ValueError(f"a count of checks is not negative and below 2^64, and not {checks}")
    return checks


def _pages(size: int) -> mmap.mmap:
    """Memory for so many bytes. The system gives a page of it once something is written there."""
    return mmap.mmap(-1, size, flags=mmap.MAP_PRIVATE | mmap.MAP_ANONYMOUS)


class Session:
    """A session: a pool with the last answer and the stored names.

    Any thread may ask it. It answers one line at a time, on a thread of its own, and so do `asyncio.to_thread` and pools of
    threads work. It is a context manager; `close` gives its memory back. A process that is forked has none of the sessions
    that were opened before.
    """

    def __init__(self, pool: int = DEFAULT_POOL) -> None:
        """Opens a session whose pool has so many bytes, a multiple of 8 from 64 to 524,280.

        Raises ValueError for another size, MemoryError where there is no memory, RuntimeError where there is no thread, and
        LibraryMissing where the library is not built.
        """
        size = _pool_of(pool)
        held = Held()
        home = Home(held.stop, held.clear)
        try:
            home.ask(held.open, size)
        except BaseException:
            home.post_last(held.close)
            raise
        self._held, self._home = held, home

    def line(self, text: str | bytes, checks: int | None = None) -> Answer:
        """Answers a line. A newline at its end is cut, and so is a carriage return before that.

        With `checks` it is interrupted where it needs more than so many; there is one for each node that is reduced. A
        line that is refused changes nothing, so it may be asked again with more.
        """
        line = _without_end(_bytes_of(text))
        code: int
        told: str
        code, told = self._home.ask(self._held.line, line, None if checks is None else _checks_of(checks))
        if code > _library.REFUSED:
            return Answer(Kind.REFUSED, told, Refusal(code - _library.REFUSED))
        return Answer(Kind(code), told)

    def decimal(self, line: str, places: int) -> Rounded:
        """The nearest decimal of a line with so many places, at most 38. Raises ValueError where there is none.

        Its `error` is 0 where the decimal is the value, and else half a unit of its last place.
        """
        answer = self.line(f":decimal {operator.index(places)} {line}")
        if answer.kind is Kind.REFUSED or answer.text == "undef":
            raise ValueError(answer.text)
        told = Rounded(answer.text.removeprefix("≈"))
        told.error = decimal.Decimal(5).scaleb(-places - 1) if answer.text.startswith("≈") else decimal.Decimal(0)
        return told

    def roots(self, name: str, equation: str) -> list[str] | None:
        """The real roots of a polynomial equation in a name, as texts such as `1/2+√(5)/2`, each as often as it is a root.

        Rational roots come first, rising. The list is empty where there is no root, and None where every value is one, as
        of `x=x`. Raises ValueError where the roots are not told, with the reason as the program writes it.

            session.roots("x", "x^2=x+1")  gives  ["1/2-√(5)/2", "1/2+√(5)/2"]
        """
        answer = self.line(f":roots {name} {equation}")
        if answer.kind is not Kind.REPORT:
            raise ValueError(answer.text)
        if answer.text == f"{name} free":
            return None
        return [] if answer.text == "none" else [told.removeprefix(f"{name}=") for told in answer.text.split(";")]

    def latex(self) -> str:
        """The last answer as LaTeX, for math mode. Raises PoolFull where its layout finds no room in the pool."""
        answer = self.line(":latex")
        if answer.refusal is Refusal.FULL:
            raise PoolFull(answer.text)
        return answer.text

    def picture(self) -> str:
        """The last answer, drawn: rows, each ended by a newline. Raises PoolFull where it finds no room in the pool."""
        code: int
        rows: str
        code, rows = self._home.ask(self._held.picture)
        if code == _library.FULL:
            raise PoolFull(rows.removesuffix("\n"))
        return rows

    @property
    def pool(self) -> Pool:
        """How many bytes of the pool are in use, and how many are free."""
        return Pool(*self._home.ask(self._held.pool))

    def stop(self) -> None:
        """Interrupts the line that runs at its next check, or else the next line that makes one.

        Any thread may call it, and a signal's handler; in a session that is closed it does nothing. The node that is being
        reduced is ended first; the longest that is known takes 30 ms with the default pool, and 0.7 s with the greatest.
        """
        self._held.stop()

    def clear(self) -> None:
        """Takes back what `stop` asked for, where no line has met it."""
        self._held.clear()

    def close(self) -> None:
        """Gives the memory of the session back, after the lines that were asked before. A session that is closed stays as it
        is."""
        if not self.closed:
            with contextlib.suppress(ValueError):
                self._home.ask_last(self._held.close)

    @property
    def closed(self) -> bool:
        """Whether the session is closed."""
        return self._home.is_ended

    def __enter__(self) -> "Session":
        if self.closed:
            raise ValueError("the session is closed")
        return self

    def __exit__(
        self, kind: type[BaseException] | None, error: BaseException | None, trace: TracebackType | None
    ) -> None:
        self.close()

    def __reduce__(self) -> NoReturn:
        raise TypeError("a session is neither copied nor pickled")

    def __del__(self) -> None:
        # One that was not opened has no home.
        if hasattr(self, "_home") and not self.closed:
            warnings.warn(f"a session was dropped and not closed: {self!r}", ResourceWarning, source=self)
            self._home.post_last(self._held.close)


def answers(text: str | bytes, pool: int = DEFAULT_POOL) -> str:
    """What the program writes for a whole input, in a session of its own: the text of each line, and a newline.

    The lines are answered once. Only where the answers have more than 64 MiB, and more than 64 times the bytes of the
    text, or where the system has no room for so many, are they answered a second time.
    """
    size, lines, count = _pool_of(pool), _bytes_of(text), ctypes.c_size_t(4096)
    try:
        out = _pages(max(ANSWERS_ROOM, ANSWERS_TIMES * len(lines)))
    except OSError:
        out = _pages(count.value)
    code = _answers(size, lines, out, count)
    if code == _library.NO_ROOM:
        out = _pages(count.value)
        code = _answers(size, lines, out, count)
    if code == _library.NO_MEMORY:
        raise MemoryError("there is no memory for a session")
    return out[: count.value].decode()


def _answers(size: int, lines: bytes, out: mmap.mmap, count: ctypes.c_size_t) -> int:
    place = ctypes.addressof(ctypes.c_char.from_buffer(out))
    code: int = library().poincare_answers(size, lines, len(lines), place, len(out), ctypes.byref(count))
    return code
