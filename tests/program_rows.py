#!/usr/bin/env python3
"""Runs the program on rows: its words, its input and its whole output, or the words that it refuses.

    tests/program_rows.py [PROGRAM]

The rows that the gate runs stand in `crates/acceptance/src/tests/program_rows` and are read from there. Below are those for
which it takes a process: bytes that are no rows of a text, words that are refused, and a hundred lines of all kinds.
"""
import re
import sys

from asked import PROGRAM, TOP, every, run, written_by

TABLES = TOP / "crates" / "acceptance" / "src" / "tests" / "program_rows"
USAGE = "usage: poincare [--pool N] [--interrupt K] [--draw] [--gen N]\n"
MINUS = "-"

# The input and the output, in bytes.
BYTES = [
    ("1+2+3", "6\n"),
    ("1+1\r\n\n007", "2\n7\n"),
    ("", ""),
    (" \t\n", ""),
    ("2\u00d73\n", "6\n"),
    (" \t:\n", "! command\n"),
    (f"1\n{MINUS * 63}1\n{MINUS * 64}1\n", "1\n-1\n! deep\n"),
    (f"{'1' * 1024}\n{'1' * 1025}\n", "! number 1\n! long\n"),
    (f"{' ' * 1024}\n{' ' * 1025}\n", "! long\n"),
    (f"{MINUS * 1023}1\n{MINUS * 1022}1+\n", "! deep\n! syntax\n"),
    (f"{'(' * 511}1{')' * 511}\n{'(' * 1023}1\n{'(' * 500}1{')' * 501}\n", "1\n! syntax\n! syntax\n"),
    ("1\r2\n", "! character 2\n"),
    (b"\xe2\x88\n1+\xff\nx\xc2\n", "! character 1\n! character 3\n! character 2\n"),
]

REFUSED = [
    ["--pool", "65"], ["--pool", "56"], ["--pool", "524288"], ["--pool"], ["--pool="], ["--pool", "+64"], ["--pool", "-64"],
    ["--pool=18446744073709551616"], ["--pool", "000000000000000000064"], ["--pool", "64", "--pool", "64"],
    ["--pool=64", "--pool=64"], ["--pool", "64", "x"], ["--interrupt"], ["--interrupt=18446744073709551616"],
    ["--interrupt", "1", "--interrupt=1"], ["--interrupt", "--pool", "64"], ["--draw", "--draw"], ["--draw=1"],
    ["--gen", "4294967296"], ["--gen", "1", "--pool", "65"], ["--"], [""], ["x"],
]


def tables():
    """The rows of the gate: each session's words, input and output."""
    for file in sorted(TABLES.glob("*.rt")):
        for text in re.findall(r'&str = "\\\n(.*?)\n";', file.read_text(), re.DOTALL):
            for block in text.replace("\\\\", "\\").strip("\n").split("\n\n"):
                yield session_of(block.split("\n"))


def session_of(rows):
    """A row that begins with `$` has the words. Another is a line, with its answer behind an equals sign where it has
    one; a row that begins with `|` is one more row of the output."""
    words, lines, output = [], "", ""
    for row in rows:
        line, equals, answer = row.partition(" = ")
        if row.startswith("$ "):
            words = row[2:].split(" ")
        elif row.startswith("| "):
            output += row[2:] + "\n"
        else:
            lines += line + "\n"
            output += answer + "\n" if equals else ""
    return words, lines, output


def written(words, text):
    return written_by([PROGRAM, *words], text)


def check_tables():
    """The rows of the gate are answered by the built program, too."""
    rows = list(tables())
    return len(rows) > 30 and every(lambda words, lines, output: written(words, lines) == (0, output, ""), rows)


def check_bytes():
    """Bytes that are no rows of a text are read as they stand."""
    return every(lambda given, output: written([], given) == (0, output, ""), BYTES)


def check_refused():
    """Words that are no form of the command line: nothing is read, and the usage line is written to standard error."""
    return every(lambda *words: written(words, "1\n") == (2, "", USAGE), REFUSED)


def check_hundred():
    """A hundred lines of all kinds are answered as by a model apart from this code."""
    lines, answers = [(TOP / "tests" / f"hundred-{name}.txt").read_text() for name in ("lines", "answers")]
    return written([], lines) == (0, answers, "")


CHECKS = [check_tables, check_bytes, check_refused, check_hundred]

if __name__ == "__main__":
    sys.exit(run(CHECKS))
