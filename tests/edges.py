#!/usr/bin/env python3
"""Tries the edges of the program: words, standard input and output that fail, and memory that is refused.

    tests/edges.py [PROGRAM] [memory]

The built program is run. With the word `memory` its sources are run, too, by `rt try`, one refused request a run,
which takes half an hour.
"""
import os
import shutil
import subprocess
import sys
import tempfile
import time

from asked import PROGRAM, TOP, Lacking
from asked import run as run_checks

USAGE = b"usage: poincare"
MOST_REQUESTS = 128


def run(words=(), given=b"1+1\n", **edges):
    """The status, the output and the errors of the program, where its standard output is not given."""
    if "stdin" not in edges:
        edges["input"] = given
    edges.setdefault("stdout", subprocess.PIPE)
    return subprocess.run([PROGRAM, *words], stderr=subprocess.PIPE, timeout=120, **edges)


def closed(number):
    """What closes a standard stream in the program's process before it begins."""
    return lambda: os.close(number)


def is_silent(done, status):
    """The status is as wanted, nothing was written, and no signal ended the program."""
    return done.returncode == status and not done.stdout and not done.stderr


# ---- standard output

def output_closed():
    return is_silent(run(stdout=None, preexec_fn=closed(1)), 4)


def output_full():
    with open("/dev/full", "wb") as full:
        return is_silent(run(stdout=full), 4)


def reader_gone():
    """A pipe whose reader is gone is a write that fails: status 4, and no death by a signal."""
    reader, writer = os.pipe()
    os.close(reader)
    with os.fdopen(writer, "wb") as pipe:
        return is_silent(run(stdout=pipe), 4)


def reader_goes():
    """The reader goes after the first answer."""
    child = subprocess.Popen([PROGRAM], stdin=subprocess.PIPE, stdout=subprocess.PIPE, stderr=subprocess.PIPE)
    os.set_blocking(child.stdout.fileno(), False)
    child.stdin.write(b"1+1\n")
    child.stdin.flush()
    first = text_within(child.stdout, 10)
    child.stdout.close()
    _, errors = child.communicate(b"2+2\n", timeout=60)
    return first == b"2\n" and child.returncode == 4 and not errors


# ---- standard input

def input_closed():
    return is_silent(run(stdin=None, preexec_fn=closed(0)), 3)


def input_folder():
    folder = os.open("/", os.O_RDONLY)
    try:
        return is_silent(run(stdin=folder), 3)
    finally:
        os.close(folder)


def input_in_bytes():
    """A line that comes byte by byte is answered as soon as its newline is there, and not before."""
    child = subprocess.Popen([PROGRAM], stdin=subprocess.PIPE, stdout=subprocess.PIPE)
    os.set_blocking(child.stdout.fileno(), False)
    good = True
    for line, answer in ("1/3+1/6", "1/2"), ("√(8)+√(18)", "5×√(2)"), ("x+x", "2×x"):
        for byte in line.encode():
            child.stdin.write(bytes([byte]))
            child.stdin.flush()
            time.sleep(0.01)
        good = good and child.stdout.read() is None
        child.stdin.write(b"\n")
        child.stdin.flush()
        good = good and text_within(child.stdout, 10) == (answer + "\n").encode()
    child.stdin.close()
    return child.wait(timeout=60) == 0 and good


def text_within(stream, seconds):
    """What a stream that does not block has to say, up to its first newline."""
    text = b""
    end = time.monotonic() + seconds
    while not text.endswith(b"\n") and time.monotonic() < end:
        text += stream.read() or b""
        time.sleep(0.005)
    return text


# ---- words

def words_no_text():
    return all(is_silent(run([b"--pool", word]), 7) for word in (b"\xff", b"64\x80", b"\xed\xa0\x80"))


def words_refused():
    """Nothing is read: the place in the file stays."""
    with tempfile.TemporaryFile() as lines:
        lines.write(b"1+1\n")
        for words in ["--help"], ["--version"], ["-h"], ["--draw=1"], ["--"], ["--pool"], ["--pool", ""], ["--po", "64"]:
            lines.seek(0)
            done = run(words, stdin=lines)
            if done.returncode != 2 or done.stdout or not done.stderr.startswith(USAGE) or lines.seek(0, os.SEEK_CUR):
                return False
    return True


# ---- memory

ANSWERED = "run=ended status=0 "


def refused_memory(words, ends=ANSWERED):
    """From the first request on, one refused request a run: status 5, until a run makes no such request and ends as ever."""
    if not shutil.which("rt"):
        raise Lacking("the kit's command rt is missing")
    for request in range(1, MOST_REQUESTS):
        done = subprocess.run(
            ["rt", "try", "--fail-alloc", str(request), "--", *words],
            cwd=TOP / "crates" / "poincare", input=b"", capture_output=True, timeout=900)
        last = (done.stdout + done.stderr).decode(errors="replace").strip().splitlines()[-1]
        if not last.startswith("run=ended status=5 "):
            return request > 4 and last.startswith(ends)
    return False


def memory_refused_at_opening():
    return refused_memory([])


def memory_refused_at_words():
    return refused_memory(["--pool=64", "--interrupt", "7"])


def memory_refused_in_generated_session():
    """Where nothing is refused, it may take longer than `rt try` waits."""
    return refused_memory(["--pool", "64", "--gen", "1"], (ANSWERED, "run=no-answer"))


CHECKS = [
    output_closed, output_full, reader_gone, reader_goes, input_closed, input_folder, input_in_bytes, words_no_text,
    words_refused,
]
MEMORY = [memory_refused_at_opening, memory_refused_at_words, memory_refused_in_generated_session]


if __name__ == "__main__":
    sys.exit(run_checks(CHECKS + (MEMORY if "memory" in sys.argv[1:] else [])))
