"""What the scripts of this folder share: the program that they ask, its answers, and checks run side by side.

The program is the first word of a script; without one it is the launcher of this checkout, which builds it at first. A
script ends with the line 'N passed, M failed', and with status 1 where a check failed. A check that lacks something on
this machine says so, and counts as neither.
"""
import os
import pathlib
import re
import subprocess
import sys
import traceback
from concurrent.futures import ThreadPoolExecutor

TOP = pathlib.Path(__file__).resolve().parent.parent
GREATEST_POOL = "--pool=524280"
# Words of the scripts themselves, which name no program.
OWN_WORDS = {"memory", "table"}
# Seconds within which a run of the program has to end.
LIMIT = 300


class Lacking(Exception):
    """A check cannot be run on this machine; the text says what it lacks."""


def asked_program():
    """The program that the script's first word names, or the launcher, once it has built the program."""
    words = [word for word in sys.argv[1:] if word not in OWN_WORDS]
    program = pathlib.Path(words[0]).resolve() if words else TOP / "poincare"
    how = {"stdin": subprocess.DEVNULL, "stdout": subprocess.DEVNULL, "timeout": LIMIT if words else None}
    try:
        subprocess.run([program], check=True, **how)
    except (OSError, subprocess.SubprocessError) as why:
        print(f"the program {program} is not built, or does not run: {why}\n0 passed, 1 failed")
        raise SystemExit(1) from None
    built = TOP / "crates" / "poincare" / "out" / "poincare"
    return program if words else built


PROGRAM = asked_program()


def written_by(command, text, **how):
    """The status of a command over a text, or over bytes, and what it writes to standard output and to standard error."""
    given = text if isinstance(text, bytes) else text.encode()
    done = subprocess.run(command, input=given, capture_output=True, timeout=LIMIT, **how)
    return done.returncode, done.stdout.decode(), done.stderr.decode()


def answers(lines, *words):
    """What the program writes, line by line."""
    text = "".join(line + "\n" for line in lines)
    done = subprocess.run([PROGRAM, *words], input=text.encode(), stdout=subprocess.PIPE, check=True, timeout=LIMIT)
    return done.stdout.decode().splitlines()


def sessions(table):
    """The sessions of a table of this folder: their lines, and the answers wanted."""
    for block in (TOP / "tests" / table).read_text().strip().split("\n\n"):
        rows = block.split("\n")
        yield rows[0::2], [row.strip() for row in rows[1::2]]


def each(call, cases):
    """What the call gives for each case, in their order; as many cases at once as there are processors."""
    with ThreadPoolExecutor(len(os.sched_getaffinity(0))) as pool:
        yield from pool.map(lambda case: call(*case), cases)


def every(test, cases):
    """Whether a test holds in each case, of which there is one at least; the first one where it does not is told."""
    cases = list(cases)
    for case, holds in zip(cases, each(test, cases)):
        if not holds:
            print("in", *case)
            return False
    return bool(cases)


def are_answered(table, *words):
    """Whether each session of a table is answered as it says."""
    return every(lambda lines, wanted: answers(lines, *words) == wanted, sessions(table))


def pool_and_bytes(lines, *words):
    """What `:pool` and `:dump` write behind the lines; what the lines themselves write is left out."""
    return answers([*lines, ":pool", ":dump"], *words)[len(lines):]


def answer_and_change(before, line, *words):
    """What a line is answered behind others, and whether it leaves pool and bytes as they are."""
    told = answers([*before, ":pool", ":dump", line, ":pool", ":dump"], *words)[len(before):]
    second = next(at for at in range(1, len(told)) if told[at].startswith("pool "))
    return told[second - 1], told[: second - 1] == told[second:]


def least_of(sizes, line):
    """The least of these pools in which a line is answered as in the default one. None where it is not Full in each smaller
    one and answered so in each greater one, or where some pool is not as it was."""
    wanted = answers([line])[0]
    told = list(each(lambda size: answer_and_change([], line, f"--pool={size}"), [(size,) for size in sizes]))
    held = [given == wanted for given, _ in told]
    least = held.index(True) if True in held else len(held)
    full = all(given.startswith("! full needed ") for given, _ in told[:least])
    return sizes[least] if True in held and full and all(held[least:]) and all(stays for _, stays in told) else None


def is_interrupted_at_each_of(checks, line, before=()):
    """Whether a line is interrupted by each of so many checks, with the pool as it was, and answered where none is left."""
    wanted = answers([*before, line])[-1]

    def interrupts(after):
        given, stays = answer_and_change([*before, f":after {after}"], line)
        return (given, stays) == ("! interrupted", True) if after < checks else given == wanted

    return every(interrupts, [(after,) for after in range(checks + 1)])


def run(checks):
    """Runs the checks and tells how they ended; the status of the script."""
    passed, failed = 0, 0
    for check in checks:
        try:
            holds = check()
        except Lacking as lack:
            print(f"not run: {check.__name__}: {lack}")
            continue
        except Exception:
            traceback.print_exc(file=sys.stdout)
            holds = False
        passed, failed = passed + bool(holds), failed + (not holds)
        if not holds:
            print(f"failed: {check.__name__}: {check.__doc__}")
    print(f"{passed} passed, {failed} failed")
    return 1 if failed else 0


def sympy():
    """Python's sympy, where it is installed."""
    try:
        import sympy as module
    except ImportError:
        raise Lacking("Python's sympy is not installed") from None
    return module


def tokens(text):
    return re.findall(r"[0-9]+(?:\.[0-9]+)?|[A-Za-z][A-Za-z0-9]*|\*\*|\S", text)


def names_in(text):
    return {token for token in tokens(text) if token[0].isalpha()}


def as_python(text):
    """A text as sympy reads it: factors side by side are a product of their own."""
    given = tokens(text.replace("×", "*").replace("^", "**"))
    words = []
    for before, token in zip([""] + given, given):
        beside = before and (before[-1].isalnum() or before == ")")
        if beside and (token[0].isalpha() or token == "("):
            words.append("*")
        words.append(token)
    return " ".join(words)


def parsed(text, symbols):
    """A text as sympy has it, with these symbols for its names."""
    return sympy().sympify(as_python(text), locals=symbols, rational=True)
