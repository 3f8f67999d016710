"""Instructions a line, counted by valgrind's callgrind: the same number in each run of one program, whatever else the
machine does. What a process takes that answers nothing is left out.
"""
import re
import shutil
import subprocess

from expansions import LINES, with_signs
from session import COUNT, KINDS
from timed import Row, as_input

TIMES = 100


def counted(program, words, text):
    """The instructions of one run."""
    command = ["valgrind", "--tool=callgrind", "--callgrind-out-file=/dev/null", program, *words]
    told = subprocess.run(command, stdin=as_input(text), stdout=subprocess.DEVNULL, stderr=subprocess.PIPE, text=True)
    if told.returncode != 0:
        raise SystemExit(f"{program} ended with {told.returncode}")
    return int(re.search(r"Collected : (\d+)", told.stderr)[1])


def rows(program, runs):
    """A line of the session on average, one line of each of its kinds, and all expansions together."""
    if not shutil.which("valgrind"):
        yield Row("instructions", None, "", note="valgrind is not installed")
        return
    bare = counted(program, [], "")
    yield Row("a line of the session", (counted(program, ["--gen", "1"], "") - bare) / COUNT, "instructions")
    for line in ["1+1", *(kind.format(a=23, b=31) for kind in KINDS.values())]:
        yield Row(f"`{line}`", (counted(program, [], f"{line}\n" * TIMES) - bare) / TIMES, "instructions")
    expansions = "".join(f":expand {with_signs(line)}\n" for line in LINES)
    yield Row("34 expansions", (counted(program, ["--pool", "65536"], expansions) - bare) / 1e6, "million instructions")
