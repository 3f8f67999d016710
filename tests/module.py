#!/usr/bin/env python3
"""Tries what the module for Python adds to the library: what it takes and refuses, and its prompt.

    tests/module.py PROGRAM

PROGRAM is the program, or tests/c/program.c over the library. The module loads what POINCARE_LIBRARY names, or what
`make -C c` built. tests/through_c.py compares the answers of the module with the program's.
"""
import asyncio
import contextlib
import copy
import gc
import importlib
import importlib.util
import os
import pathlib
import pickle
import signal
import sys
import tempfile
import threading
import time
import warnings
from concurrent.futures import ThreadPoolExecutor

from asked import PROGRAM, Lacking, run, written_by
from terminal import PYTHON, Terminal

sys.path.insert(0, str(PYTHON))
poincare = importlib.import_module("poincare")

# Lines of which the second takes some tenths of a second in the greatest pool: powers of a sum of eight roots.
SLOW = ["+".join(f"√({prime})" for prime in (2, 3, 5, 7, 11, 13, 17, 19)) + "→t", "+".join(["t^12"] * 30)]


def raised_by(call, *words):
    """The class of what a call raises, or None."""
    try:
        call(*words)
    except Exception as error:
        return type(error)
    return None


def check_types():
    """What is no text, no bytes or no whole number is a TypeError, whatever call it is given to."""
    with poincare.Session() as session:
        wrong = [(session.line, 5), (session.line, 2**40), (session.line, None), (session.line, ["1"]), (session.line, "1", 2.0),
                 (session.line, "1", "2"), (poincare.answers, 3), (poincare.answers, None), (poincare.answers, "1", 32768.0),
                 (poincare.Session, 32768.0), (poincare.Session, "64"), (poincare.Session, None)]
        for call, *words in wrong:
            if raised_by(call, *words) is not TypeError:
                print("in", call, *words)
                return False
        same = [session.line(it).text for it in ("√(8)", "√(8)".encode(), bytearray("√(8)".encode()), memoryview("√(8)".encode()))]
        return same == ["2×√(2)"] * 4 and session.line("ans").text == "2×√(2)"


def check_commands():
    """Roots are told as texts: none, all values, or why they are not told. The last answer is told as LaTeX, if that finds room."""
    with poincare.Session() as session, poincare.Session(64) as small:
        told = [session.roots("x", it) for it in ("x^2=x+1", "x^3=x^2", "x^2+1=0", "x=x")]
        texts = [session.line(it).text and session.latex() for it in ("√(2)/x1", "2+")]
        small.line("170141183460469231731687303715884105727")
        refused = [raised_by(session.roots, "x", it) for it in ("x^3=2", "x=y", "x")]
        return (told == [["1/2-√(5)/2", "1/2+√(5)/2"], ["0", "0", "1"], [], None] and refused == [ValueError] * 3
                and texts == [r"\frac{\sqrt{2}}{x_{1}}"] * 2 and raised_by(small.latex) is poincare.PoolFull
                and session.line(":roots x x^3=2").refusal is poincare.Refusal.DEGREE)


def check_copies():
    """A session is neither copied nor pickled, and stays as it is."""
    with poincare.Session() as session:
        session.line("1/3→y")
        held = [raised_by(call, session) is TypeError for call in (copy.copy, copy.deepcopy, pickle.dumps)]
        return all(held) and session.line("y").text == "1/3"


def calls_for(text):
    """How often `answers` asks the library, and what it gives."""
    library, count = poincare.library(), []
    asked = library.poincare_answers
    try:
        library.poincare_answers = lambda *words: count.append(1) or asked(*words)
        return len(count), poincare.answers(text), len(count)
    finally:
        library.poincare_answers = asked


def check_answers_once():
    """Answers of some megabytes are made once, and those for which there was no room twice."""
    text = "1/3→y\n" + ":dump\n" * 100_000
    _, told, times = calls_for(text)
    wanted = written_by([PROGRAM], text)[1]
    room, poincare.ANSWERS_ROOM, poincare.ANSWERS_TIMES = poincare.ANSWERS_ROOM, 4096, 0
    _, second, more = calls_for(text)
    poincare.ANSWERS_ROOM, poincare.ANSWERS_TIMES = room, 64
    return len(told) > 2_000_000 and told == second == wanted and (times, more) == (1, 2)


def noted_calls(use):
    """What `use` gives, and the threads on which the calls of each session were made, by the slot of the session."""
    library, threads, originals = poincare.library(), {}, {}

    def noting(call):
        def noted(place, *words):
            threads.setdefault(place, []).append(threading.get_ident())
            return call(place, *words)

        return noted

    for name in ("open", "line", "line_within", "text", "draw", "pool", "close"):
        originals[name] = getattr(library, f"poincare_{name}")
        setattr(library, f"poincare_{name}", noting(originals[name]))
    try:
        return use(), threads
    finally:
        for name, call in originals.items():
            setattr(library, f"poincare_{name}", call)


def check_threads():
    """Eight threads ask one session at once, and each gets its own answers; the library is asked on one thread, which ends."""
    before = threading.active_count()

    def ask(session, number):
        held = [session.line(f"{number}→n{number}").text == str(number)]
        for other in range(100):
            held.append(session.line(f"{number}×x+{other}×x+n{number}").text == expected(number, number + other))
            held.append(session.line("1+2+3", checks=3).refusal is poincare.Refusal.INTERRUPTED)
        return all(held)

    def expected(number, times):
        return f"{number}+{times}×x"

    def use():
        with poincare.Session() as session, ThreadPoolExecutor(8) as pool:
            held = list(pool.map(lambda number: ask(session, number), range(2, 10)))
            return all(held) and pool.submit(session.picture).result() != "" and session.pool.used > 0

    held, threads = noted_calls(use)
    asked = [set(it) for it in threads.values()]
    return held and len(asked) == 1 and len(asked[0]) == 1 and threading.get_ident() not in asked[0] and threading.active_count() == before


def check_tasks():
    """`asyncio.to_thread` asks a session, and a session that was opened in one thread is closed in another."""

    async def ask(session):
        told = await asyncio.gather(*(asyncio.to_thread(session.line, f"{number}+x") for number in range(1, 50)))
        return [it.text for it in told] == [f"{number}+x" for number in range(1, 50)]

    with ThreadPoolExecutor(1) as pool:
        session = pool.submit(poincare.Session).result()
    held = asyncio.run(ask(session))
    with ThreadPoolExecutor(4) as pool:
        list(pool.map(lambda _: session.close(), range(4)))
        late = [pool.submit(raised_by, session.line, "1").result() for _ in range(3)]
    return held and session.closed and late == [ValueError] * 3


def check_dropped():
    """A session that is dropped on another thread gives its memory back, on its own thread, and a ResourceWarning tells of it."""

    def use():
        held = [poincare.Session()]
        held[0].line("1/3→y")
        thread = threading.Thread(target=held.clear)
        with warnings.catch_warnings(record=True) as told:
            warnings.simplefilter("always")
            thread.start()
            thread.join()
            gc.collect()
        return [it.category for it in told]

    before = threading.active_count()
    (told, ended), threads = noted_calls(lambda: (use(), until(lambda: threading.active_count() == before)))
    asked = list(threads.values())
    # Opening, a line, its text, and closing.
    return told == [ResourceWarning] and ended and [len(it) for it in asked] == [4] and len(set(asked[0])) == 1


def until(holds, seconds=20):
    """Waits until something holds; whether it does."""
    end = time.monotonic() + seconds
    while not holds() and time.monotonic() < end:
        time.sleep(0.01)
    return holds()


@contextlib.contextmanager
def alarm(handler, seconds):
    """Has a signal's handler called after so many seconds, on the main thread."""
    before = signal.signal(signal.SIGALRM, lambda number, frame: handler())
    signal.setitimer(signal.ITIMER_REAL, seconds)
    try:
        yield
    finally:
        signal.setitimer(signal.ITIMER_REAL, 0)
        signal.signal(signal.SIGALRM, before)


def check_handlers():
    """A stop in a signal's handler on the main thread interrupts the line that runs there, and not the one after it. A handler
    that raises ends the line, too."""

    def interrupt():
        raise KeyboardInterrupt

    with poincare.Session(524280) as session:
        session.line(SLOW[0])
        begun = time.monotonic()
        whole = session.line(SLOW[1])
        seconds = time.monotonic() - begun
        with alarm(session.stop, seconds / 10):
            begun = time.monotonic()
            stopped = session.line(SLOW[1])
            held = [stopped.refusal is poincare.Refusal.INTERRUPTED, time.monotonic() - begun < seconds / 2]
        held += [session.line("1+1").text == "2", session.line("√(2)+√(8)").text == "3×√(2)"]
        with alarm(interrupt, seconds / 10):
            begun = time.monotonic()
            try:
                session.line(SLOW[1])
            except KeyboardInterrupt:
                held += [time.monotonic() - begun < seconds / 2]
        held += [session.line("ans").text == "3×√(2)", session.line("1+1").text == "2"]
        with alarm(lambda: held.append(session.line("1/2+1/3").text == "5/6"), seconds / 10):
            held += [session.line(SLOW[1]) == whole]
    return len(held) == 9 and all(held)


def check_asking_handlers():
    """A handler that asks the session, whenever it comes, and threads that close it at once, leave nobody waiting."""
    told = []
    with poincare.Session() as session:
        before = signal.signal(signal.SIGALRM, lambda number, frame: told.append(session.line("1/2+1/3").text))
        signal.setitimer(signal.ITIMER_REAL, 0.001, 0.001)
        try:
            end = time.monotonic() + 3
            held = [session.line(f"{number}+x").text == f"{number}+x" for number in range(1, 2000) if time.monotonic() < end]
        finally:
            signal.setitimer(signal.ITIMER_REAL, 0)
            signal.signal(signal.SIGALRM, before)
    with ThreadPoolExecutor(8) as pool:
        for _ in range(100):
            session = poincare.Session(64)
            calls = [pool.submit(session.close) for _ in range(4)] + [pool.submit(raised_by, session.line, "1") for _ in range(4)]
            held += [session.closed for it in calls[:4] if it.result() is None]
            held += [it.result() in (None, ValueError) for it in calls[4:]]
    return all(held) and len(told) > 10 and set(told) == {"5/6"}


def check_forks():
    """A process that is forked has no session of its parent's, and says so at once; the parent's goes on."""
    with poincare.Session() as session:
        child = os.fork()
        if child == 0:
            with warnings.catch_warnings():
                warnings.simplefilter("error")
                refused = raised_by(session.line, "1") is RuntimeError
                session.stop()
                del session
                os._exit(0 if refused else 1)
        return os.waitstatus_to_exitcode(os.waitpid(child, 0)[1]) == 0 and session.line("1+1").text == "2"


def check_locales():
    """At the prompt a root is read, shown and taken back whole, whatever the locale is, and also where it is not installed."""
    if not importlib.util.find_spec("readline"):
        raise Lacking("this Python has no readline")
    for name in ("C", "POSIX", "C.UTF-8", "xx_XX.UTF-8", "de_DE.ISO-8859-1"):
        with tempfile.TemporaryDirectory() as home:
            terminal = Terminal(home, LC_ALL=name)
            held = [terminal.wait_for("> ")]
            terminal.type("√(8)\n")
            held += [terminal.wait_for("√(8)"), terminal.wait_for("2×√(2)"), terminal.wait_for("> ")]
            terminal.type("√\x7f17+√(4)→x\n")
            held += [terminal.wait_for("19"), terminal.wait_for("> ")]
            terminal.type("\x04")
            held += [terminal.status() == 0, "17+√(4)→x\n" in (pathlib.Path(home) / ".poincare_history").read_text()]
        if not all(held):
            print("in", name, held)
            return False
    return True


def check_words_of_the_prompt():
    """At a terminal `help` tells of the prompt and `quit` ends it. In parentheses they are names, and in a pipe anyway."""
    with tempfile.TemporaryDirectory() as home:
        terminal = Terminal(home)
        held = [terminal.wait_for("> ")]
        terminal.type("help\n")
        held += [terminal.wait_for("sqrt("), terminal.wait_for("quit or Ctrl-D ends."), terminal.wait_for("> ")]
        terminal.type("(quit)+1\n")
        held += [terminal.wait_for("1+quit"), terminal.wait_for("> ")]
        terminal.type(" quit \n")
        held += [terminal.status() == 0]
    piped = written_by([sys.executable, "-m", "poincare"], "help\nquit\n1+1\n", cwd=PYTHON)
    return all(held) and piped == (0, "help\nquit\n2\n", "")


def check_hints():
    """At a terminal a line with `sin(` gets a note that it is a name, and the answer is as it is; a pipe gets none."""
    note = "note: {} read as {}; there are no functions but the root"
    rows = [
        ("2sin(x+1)", note.format("sin is", "a name")),
        ("ln (2)→y", note.format("ln is", "a name")),
        ("cos(x)^2+Sin(x)^2", note.format("cos and Sin are", "names")),
        (":expand abs(x)×abs(y)+exp(1)", note.format("abs and exp are", "names")),
        ("sqrt(8)+sine(2)+x2sin(3)+sin2(4)+sin", ""),
        ("sin(", ""),
        ("", ""),
    ]
    with tempfile.TemporaryDirectory() as home, poincare.Session() as session:
        terminal = Terminal(home)
        held = [terminal.wait_for("> ")]
        for line, told in rows:
            answer = session.line(line)
            terminal.type(line + "\n")
            ends = terminal.wait_for("\n> ")
            shown = terminal.before.replace("\r", "").split("\n")[1:]
            held.append(ends and shown == [it for it in (answer.text, told) if it])
            if not held[-1]:
                print("in", line, shown, answer.text, told)
        terminal.type("quit\n")
        held.append(terminal.status() == 0)
        lines = "".join(f"{line}\n" for line, _ in rows)
        piped = written_by([sys.executable, "-m", "poincare"], lines, cwd=PYTHON)[1]
    return all(held) and piped == poincare.answers(lines) and "note" not in piped


CHECKS = [check_types, check_commands, check_copies, check_answers_once, check_threads, check_tasks, check_dropped, check_handlers,
          check_asking_handlers, check_forks, check_locales, check_words_of_the_prompt, check_hints]

if __name__ == "__main__":
    sys.exit(run(CHECKS))
