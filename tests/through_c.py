#!/usr/bin/env python3
"""Runs sessions through the library for C, and through the module for Python over it, beside the program.

    tests/through_c.py PROGRAM OTHER

OTHER is tests/c/program.c over the library, as tests/c.sh builds it. The module loads what POINCARE_LIBRARY names, or
what `make -C c` built.
"""
import contextlib
import doctest
import gc
import importlib
import importlib.util
import os
import pathlib
import re
import resource
import shutil
import sys
import tempfile
import threading
import time

from asked import TOP, Lacking, every, run, written_by as written
from program_rows import BYTES, REFUSED, USAGE, tables
from terminal import Terminal

PYTHON = TOP / "python"
sys.path[:0] = [str(PYTHON), str(TOP / "bench")]
poincare = importlib.import_module("poincare")
generated = importlib.import_module("session").lines

PROGRAM, OTHER = [pathlib.Path(word).resolve() for word in sys.argv[1:3]]
# Lines of which the second takes half a second in the greatest pool: fifty powers of a sum of eight roots.
SLOW = ["+".join(f"√({prime})" for prime in (2, 3, 5, 7, 11, 13, 17, 19)) + "→t", "+".join(["t^12"] * 50)]
GENERATED = [0, 1, 2, 7, 100, 65536, 65537, 123456, 4294967294, 4294967295]


def prompt(*words, **how):
    return [sys.executable, "-m", "poincare", *words], {"cwd": PYTHON, **how}


def rows():
    """The worked rows: those of the gate, and those that take a process. In the program `:after` may interrupt two
    lines, and in the library any number."""
    for words, lines, output in tables():
        yield words, lines, output.replace("no breaker", "after 0") if "no breaker" in output else output
    for given, output in BYTES:
        yield [], given, output
    lines, answers = [(TOP / "tests" / f"hundred-{name}.txt").read_text() for name in ("lines", "answers")]
    yield [], lines, answers


def check_rows():
    """The worked rows are answered by the library, line by line, as the program answers them."""
    return every(lambda words, lines, output: written([OTHER, *words], lines) == (0, output, ""), rows())


def check_words():
    """The program over the library refuses the words that the program refuses."""
    return every(lambda *words: written([OTHER, *words], "1\n") == (2, "", USAGE), REFUSED)


def is_whole(words):
    return not any(word.startswith(("--draw", "--interrupt", "--gen")) for word in words)


def check_whole():
    """So are the rows that are answered by one call, with exactly the room for the answers: as the program answers them."""
    cases = [(words, lines) for words, lines, _ in rows() if is_whole(words)]
    return len(cases) > 40 and every(
        lambda words, lines: written([OTHER, "--whole", *words], lines) == written([PROGRAM, *words], lines), cases)


def check_generated():
    """Ten generated sessions have the same bytes through both calls as in the program, and the same summaries."""

    def is_same(number):
        lines = "".join(f"{line}\n" for line in generated(2000, number))
        wanted = written([PROGRAM], lines)
        summary = written([PROGRAM, f"--gen={number}"], "")
        return (wanted[0] == 0 and wanted[1].count("\n") == 2000
                and written([OTHER], lines) == written([OTHER, "--whole"], lines) == wanted
                and written([OTHER, f"--gen={number}"], "") == summary)

    return every(is_same, [(number,) for number in GENERATED])


def check_prompt_rows():
    """The worked rows are answered by `python -m poincare` as the program answers them."""

    def is_same(words, lines, output):
        command, how = prompt(*words)
        return written(command, lines, **how) == (0, output, "")

    cases = [row for row in rows() if not any(word.startswith(("--interrupt", "--gen")) for word in row[0])]
    return len(cases) > 40 and every(is_same, cases)


def check_answers():
    """The module's `answers` writes what the program writes, also where that is much."""
    lines = "".join(f"{line}\n" for line in generated(2000)) + ":dump\n" * 200
    return (poincare.answers(lines) == written([PROGRAM], lines)[1]
            and all(poincare.answers(lines.encode(), 64) == written([PROGRAM, "--pool=64"], lines)[1] for lines in ["", "1+1", "1\n2+"]))


def check_values():
    """A session of the module answers with kinds, texts and refusals, draws, and tells of its pool."""
    kind, refusal = poincare.Kind, poincare.Refusal
    rows = [
        ("1/3+1/6", kind.SHOWN, "1/2", None), (":pool", kind.REPORT, "pool 40/32768 nodes 3 trees 1", None),
        ("x+1→y\r\n", kind.STORED, "1+x", None), ("1/0", kind.UNDEFINED, "undef", None),
        ("", kind.BLANK, "", None), (":draw", kind.DRAW, "", None),
        ("2^127", kind.REFUSED, "! overflow 2^127", refusal.OVERFLOW), (b"\xff", kind.REFUSED, "! character 1", refusal.CHARACTER),
        ("1" * 1025, kind.REFUSED, "! long", refusal.LONG), (":solve x", kind.REFUSED, "! command", refusal.COMMAND),
    ]
    with poincare.Session() as session:
        held = [session.line(line) == poincare.Answer(*answer) for line, *answer in rows]
        session.line("1/2")
        held.append(session.picture() == "1\n-\n2\n")
        held.append(session.line("1+2+3", 3).refusal == refusal.INTERRUPTED)
        held.append(str(session.line("1+2+3", checks=4)) == "6")
        held.append(len(session.line(":dump").text) > 100 and sum(session.pool) == 32768)
        held.append(session.line("+".join("abcdefghijklmnopqrstuvwxyz" * 8)).kind == kind.SHOWN)
    numbers = {it.value for it in refusal}
    return all(held) and numbers == {*range(1, 18)} - {13}


def raises(error, call, *words):
    with contextlib.suppress(error):
        call(*words)
        return False
    return True


def check_errors():
    """Sizes of pools, sessions that are closed and pictures without room are refused by errors."""
    sizes = [0, 63, 65, 524281, 524288, -8, 1 << 40]
    full = poincare.Session(200)
    full.line("a+b+c+d+e")
    session = poincare.Session(524280)
    held = [raises(ValueError, poincare.Session, size) and raises(ValueError, poincare.answers, "1", size) for size in sizes]
    held += [raises(poincare.PoolFull, full.picture), full.line("ans").text == "a+b+c+d+e"]
    held += [raises(ValueError, session.line, "1", -1), raises(ValueError, session.line, "1", 1 << 64)]
    held += [str(session.line("1")) == "1", not session.closed]
    session.close()
    session.close()
    session.stop()
    session.clear()
    held += [session.closed, raises(ValueError, session.line, "1"), raises(ValueError, session.picture)]
    held += [raises(ValueError, session.__enter__), raises(ValueError, lambda: session.pool)]
    return all(held)


def until_stopped(session, line, thread):
    """Asks a line again and again until it is not shown, or began after the thread's end: its answer, and the bytes of
    the pool before that."""
    while True:
        before = session.line(":dump").text
        last = not thread.is_alive()
        answer = session.line(line)
        if last or answer.kind is not poincare.Kind.SHOWN:
            return answer, before


def check_stops():
    """Another thread stops a line; the session is as it was, and the next line is answered."""
    line = "+".join(["1/(√(2)+√(3))"] * 50)
    with poincare.Session() as session:
        for number in range(20):
            thread = threading.Thread(target=lambda: (time.sleep(0.0002 * number), session.stop()))
            thread.start()
            answer, before = until_stopped(session, line, thread)
            thread.join()
            if (answer.refusal is not poincare.Refusal.INTERRUPTED or session.line(":dump").text != before
                    or session.line("ans").kind is not poincare.Kind.SHOWN):
                return False
        session.stop()
        session.clear()
        return session.line("1+1").text == "2"


def check_slow_stops():
    """A line that takes long is stopped while it runs, when the node that is being reduced is ended."""
    with poincare.Session(524280) as session:
        session.line(SLOW[0])
        begun = time.monotonic()
        session.line(SLOW[1])
        whole = time.monotonic() - begun
        stopped = []
        for part in (0.1, 0.3, 0.5):
            thread = threading.Thread(target=lambda: (time.sleep(part * whole), stopped.append(time.monotonic()), session.stop()))
            thread.start()
            answer, _ = until_stopped(session, SLOW[1], thread)
            late = time.monotonic() - stopped[-1]
            thread.join()
            if answer.refusal is not poincare.Refusal.INTERRUPTED or late > whole / 2:
                return False
        return session.line("1+1").text == "2"


def check_memory():
    """Sessions that are opened and closed, or dropped, leave no memory behind."""

    def open_and_drop(times):
        for number in range(times):
            session = poincare.Session()
            session.line("1/3→y")
            if number % 2:
                session.close()
        gc.collect()
        return resource.getrusage(resource.RUSAGE_SELF).ru_maxrss

    return open_and_drop(500) + 1024 >= open_and_drop(4000)


def check_examples():
    """The examples in the module's texts give what they say."""
    return doctest.testmod(poincare)[0] == 0 and doctest.testmod(poincare)[1] > 0


def check_calls():
    """The module knows the calls of the header and its codes, and no others."""
    header = (TOP / "c" / "poincare.h").read_text()
    calls = set(re.findall(r"^\w+ (poincare_\w+)\(", header, re.M))
    codes = {name: int(value) for name, value in re.findall(r"POINCARE_(\w+) = (\d+)", header)}
    refusals = {it.name: 100 + it.value for it in poincare.Refusal}
    kinds = {it.name: it.value for it in poincare.Kind}
    own = {name: getattr(poincare._library, name) for name in ("DONE", "FULL", "NO_ROOM", "BAD_POOL", "NO_MEMORY")}
    told = {**own, **kinds, **refusals}
    return (calls == set(poincare._library.CALLS) and told.items() <= codes.items()
            and codes.keys() - told.keys() == {"NOT_OPENED", "CLOSED", "OPEN"})


def check_missing():
    """Where the library is not built, the module loads, and opening a session or the prompt says what to do."""
    with tempfile.TemporaryDirectory() as folder:
        shutil.copytree(PYTHON / "poincare", pathlib.Path(folder) / "python" / "poincare")
        if importlib.import_module("ctypes.util").find_library("poincare"):
            raise Lacking("a library poincare is installed on this machine")
        plain = {name: value for name, value in os.environ.items() if name != "POINCARE_LIBRARY"}
        command, how = prompt(cwd=pathlib.Path(folder) / "python", env=plain)
        status, out, err = written(command, "1\n", **how)
        unbuilt = (status, out) == (1, "") and "make -C c" in err and "Traceback" not in err
        wrong = {**plain, "POINCARE_LIBRARY": str(TOP / "c" / "poincare.h")}
        status, out, err = written(command, "1\n", **{**how, "env": wrong})
        return unbuilt and (status, out) == (1, "") and "poincare.h" in err and "Traceback" not in err


def check_prompt():
    """The prompt at a terminal answers, keeps a history from one start to the next, and ends at Ctrl-D."""
    if not importlib.util.find_spec("readline"):
        raise Lacking("this Python has no readline")
    up, control_c, control_d = "\x1b[A", "\x03", "\x04"
    with tempfile.TemporaryDirectory() as home:
        first = Terminal(home)
        held = [first.wait_for("> ")]
        first.type("1/3+1/6\n")
        held += [first.wait_for("1/2"), first.wait_for("> ")]
        first.type(control_c)
        held += [first.wait_for("> ")]
        first.type("17+25\n")
        held += [first.wait_for("42"), first.wait_for("> ")]
        first.type(control_d)
        held += [first.status() == 0, "17+25" in (pathlib.Path(home) / ".poincare_history").read_text()]
        second = Terminal(home)
        held += [second.wait_for("> ")]
        second.type(up + "\n")
        held += [second.wait_for("42"), second.wait_for("> ")]
        second.type(control_d)
        held += [second.status() == 0]
    return all(held)


def check_interrupt():
    """Ctrl-C at the prompt interrupts the line that runs, and the next one is answered."""
    with tempfile.TemporaryDirectory() as home:
        terminal = Terminal(home, "--pool=524280")
        held = [terminal.wait_for("> ")]
        terminal.type(SLOW[0] + "\n")
        held += [terminal.wait_for("√(2)+√(3)"), terminal.wait_for("> ")]
        interrupted = False
        # What is typed too early falls on no line that runs, so it is tried again.
        for delay in (0.1, 0.2, 0.3, 0.2, 0.1, 0.4, 0.5, 1.0):
            terminal.type(SLOW[1] + "\n")
            time.sleep(delay)
            terminal.type("\x03")
            time.sleep(0.1)
            terminal.type("17+25\n")
            held.append(terminal.wait_for("42", 30))
            interrupted = "! interrupted" in terminal.before
            held.append(terminal.wait_for("> "))
            if interrupted:
                break
        terminal.type("\x04")
        return all(held) and interrupted and terminal.status() == 0


CHECKS = [check_rows, check_words, check_whole, check_generated, check_prompt_rows, check_answers, check_values, check_errors,
          check_stops, check_slow_stops, check_memory, check_examples, check_calls, check_missing, check_prompt, check_interrupt]

if __name__ == "__main__":
    sys.exit(run(CHECKS))
