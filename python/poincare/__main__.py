"""A prompt: it answers line by line.

    python -m poincare [--pool N] [--draw]

Lines are edited and kept in a history, in ~/.poincare_history, where Python has `readline`. Ctrl-C interrupts the line
that runs, and Ctrl-D ends. The words `help` and `quit` are for the prompt: names of these letters stand in parentheses.
Where the input is no terminal there is no prompt, the answers are those of the program, and Ctrl-C ends it.
"""

import argparse
import contextlib
import io
import locale
import os
import signal
import sys
from collections.abc import Iterator

from . import DEFAULT_POOL, Kind, LibraryMissing, PoolFull, Session
from ._guide import help_text, note_on

PROMPT = "> "
HISTORY = os.path.expanduser("~/.poincare_history")
MOST_LINES = 1000
KEYS = "Arrow keys bring lines back, Ctrl-C interrupts, quit or Ctrl-D ends.\n"


def speak_utf8() -> None:
    """Has `readline` read UTF-8, whatever the locale is: it asks the environment for it at each line."""
    try:
        locale.setlocale(locale.LC_CTYPE, "")
        encoding = locale.nl_langinfo(locale.CODESET)
    except locale.Error:
        encoding = ""
    if encoding != "UTF-8":
        os.environ["LC_ALL"] = "C.UTF-8"


def edit_lines() -> None:
    """Has lines edited, beginning with those of earlier sessions, and has them kept at the end."""
    speak_utf8()
    try:
        import atexit
        import readline
    except ImportError:
        return
    # Where there is no locale with UTF-8 at all, its bytes are still read and shown.
    for setting in ("convert-meta off", "input-meta on", "output-meta on"):
        readline.parse_and_bind(f"set {setting}")
    try:
        readline.read_history_file(HISTORY)
    except FileNotFoundError:
        pass
    except OSError as error:
        print(f"the history is not read, and stays as it is: {error}", file=sys.stderr)
        return
    readline.set_history_length(MOST_LINES)
    atexit.register(write_history)


def write_history() -> None:
    import readline

    try:
        readline.write_history_file(HISTORY)
    except OSError as error:
        print(f"the history is not kept: {error}", file=sys.stderr)


def picture(session: Session) -> str:
    try:
        return session.picture()
    except PoolFull as full:
        return f"{full}\n"


def told(session: Session, line: str, draws: bool, hints: bool = False) -> str:
    """What is printed for a line."""
    answer = session.line(line)
    if answer.kind is Kind.BLANK:
        return ""
    if answer.kind is Kind.DRAW:
        return picture(session)
    drawn = draws and answer.kind in (Kind.SHOWN, Kind.STORED)
    return f"{answer.text}\n{note_on(line, answer) if hints else ''}{picture(session) if drawn else ''}"


@contextlib.contextmanager
def interrupted_by_control_c(session: Session) -> Iterator[None]:
    """Has Ctrl-C interrupt the line that runs, and no line after it."""
    before = signal.signal(signal.SIGINT, lambda number, frame: session.stop())
    try:
        yield
    finally:
        signal.signal(signal.SIGINT, before)
        session.clear()


def converse(session: Session, draws: bool) -> None:
    """Answers the lines that are typed, until they end."""
    while True:
        try:
            line = input(PROMPT)
            if line.strip() == "quit":
                return
            with interrupted_by_control_c(session):
                text = help_text(session) + KEYS if line.strip() == "help" else told(session, line, draws, hints=True)
            sys.stdout.write(text)
            sys.stdout.flush()
        except EOFError:
            print()
            return
        except KeyboardInterrupt:
            print()


def answer_input(session: Session, draws: bool) -> None:
    """Answers the lines of an input that is no terminal."""
    signal.signal(signal.SIGINT, signal.SIG_DFL)
    with contextlib.suppress(EOFError):
        while True:
            sys.stdout.write(told(session, input(), draws))
            sys.stdout.flush()


def main() -> int:
    words = argparse.ArgumentParser(prog="python -m poincare", description="Exact answers, line by line.")
    words.add_argument("--pool", type=int, default=DEFAULT_POOL, metavar="N", help="bytes of the pool")
    words.add_argument("--draw", action="store_true", help="draws each answer below its text")
    given = words.parse_args()
    prompts = sys.stdin.isatty()
    if prompts:
        edit_lines()
    for stream in (sys.stdin, sys.stdout):
        assert isinstance(stream, io.TextIOWrapper)
        stream.reconfigure(encoding="utf-8", errors="surrogateescape")
    try:
        session = Session(given.pool)
    except (LibraryMissing, ValueError, MemoryError) as error:
        print(error, file=sys.stderr)
        return 2 if isinstance(error, ValueError) else 1
    with session:
        (converse if prompts else answer_input)(session, given.draw)
    return 0


if __name__ == "__main__":
    sys.exit(main())
