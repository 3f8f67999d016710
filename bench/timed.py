"""What the measures share: a row of the table, and the times of a process over lines.

Each process reads all its lines from its standard input, and its answers go nowhere. Times are the least of a number of
runs: processor times of the process and of what it starts, with starting up included unless a measure says otherwise.
"""
import os
import pathlib
import resource
import subprocess
import tempfile
import time
from dataclasses import asdict, dataclass, field

TOP = pathlib.Path(__file__).resolve().parent.parent


@dataclass
class Row:
    """What was measured: its name, the number with its unit, and each peer's number over ours."""

    name: str
    value: float | None
    unit: str
    ratios: dict[str, float] = field(default_factory=dict)
    note: str = ""

    def as_json(self):
        return {key: value for key, value in asdict(self).items() if value not in ({}, "")}


def built():
    """The program, proved and built where it was not."""
    subprocess.run([TOP / "poincare"], stdin=subprocess.DEVNULL, stdout=subprocess.DEVNULL, check=True)
    return str(TOP / "crates" / "poincare" / "out" / "poincare")


def plain(line):
    """A line with the signs that other programs read."""
    return line.replace("√", "sqrt").replace("×", "*")


def as_input(text):
    source = tempfile.TemporaryFile()
    source.write(text.encode())
    source.seek(0)
    return source


def run(command, text, limit=None):
    """The processor time and the wall time of one run; nothing where it takes more than `limit` seconds."""
    before, begun = resource.getrusage(resource.RUSAGE_CHILDREN), time.monotonic()
    how = {"stdin": as_input(text), "stdout": subprocess.DEVNULL, "stderr": subprocess.DEVNULL}
    try:
        done = subprocess.run(command, timeout=limit, **how)
    except subprocess.TimeoutExpired:
        return None
    if done.returncode:
        raise SystemExit(f"{command[0]} ended with {done.returncode}")
    after, wall = resource.getrusage(resource.RUSAGE_CHILDREN), time.monotonic() - begun
    return after.ru_utime - before.ru_utime + after.ru_stime - before.ru_stime, wall


def least(command, text, runs, limit=None):
    """The least processor time of some runs, or nothing where one takes too long."""
    times = []
    for _ in range(runs):
        found = run(command, text, limit)
        if found is None:
            return None
        times.append(found[0])
    return min(times)


def least_wall(command, text, runs):
    return min(run(command, text)[1] for _ in range(runs))


def resident_kilobytes(command, text):
    """The greatest resident size, read again and again until the process has ended."""
    how = {"stdin": as_input(text), "stdout": subprocess.DEVNULL, "stderr": subprocess.DEVNULL}
    process, most = subprocess.Popen(command, **how), 0
    while process.poll() is None:
        try:
            sizes = [line.split()[1] for line in open(f"/proc/{process.pid}/status") if line.startswith("VmHWM")]
        except OSError:
            break
        most = max([most, *map(int, sizes)])
    process.wait()
    return most
