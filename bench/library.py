"""A line through the library for C beside one through the program, in instructions, as callgrind counts them.

The lines are those of the session. The program over the library is tests/c/program.c, built from what `make -C c` makes;
what either takes that answers nothing is left out.
"""
import pathlib
import shutil
import subprocess
import tempfile

from instructions import counted
from session import COUNT, lines
from timed import TOP, Row


def built_over_library(folder):
    """The program once more, in C."""
    subprocess.run(["make", "-s", "-C", TOP / "c"], check=True)
    program = pathlib.Path(folder) / "program"
    sources = [TOP / "tests" / "c" / "program.c", TOP / "c" / "out" / "libpoincare.a"]
    subprocess.run(["cc", "-std=c11", "-O2", "-I", TOP / "c", "-o", program, *sources], check=True)
    return program


def a_line(program, text):
    return (counted(program, [], text) - counted(program, [], "")) / text.count("\n")


def rows(program, runs):
    """A line of the session, of which the program writes the answer, and a short one."""
    lacking = [it for it in ("valgrind", "make", "cc") if not shutil.which(it)]
    if lacking:
        yield Row("library", None, "", note=f"{', '.join(lacking)} is not installed")
        return
    with tempfile.TemporaryDirectory() as folder:
        other = built_over_library(folder)
        for name, text in [
            ("a line of the session, read and written", "".join(f"{line}\n" for line in lines(COUNT))),
            ("`1+1`, read and written", "1+1\n" * COUNT),
        ]:
            here = a_line(program, text)
            yield Row(name, here, "instructions", {"library": a_line(other, text) / here})
