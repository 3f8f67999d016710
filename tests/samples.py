#!/usr/bin/env python3
"""Runs the program on the samples of README.md and docs/LANGUAGE.md: a transcript, sessions with their answers, lines
that read alike, lines that are none, and pictures. With the word `table` it writes them as the rows that the gate runs.

    tests/samples.py [PROGRAM]
    tests/samples.py table

The last line says how many samples passed and failed; the status is 1 where one failed.
"""

import itertools
import pathlib
import re
import sys

from asked import PROGRAM, written_by

TOP = pathlib.Path(__file__).resolve().parent.parent


def cells_of(row):
    return [cell.strip() for cell in row.strip().strip("|").split("|")]


def rows_under(text, head):
    """The rows of all tables whose first row has these cells; there is one at least."""
    lines = text.splitlines()
    heads = [at for at, line in enumerate(lines) if line.startswith("|") and cells_of(line) == head]
    if not heads:
        raise ValueError(f"no table {head}")
    for at in heads:
        for line in itertools.takewhile(lambda it: it.startswith("|"), lines[at + 2:]):
            yield cells_of(line)


def sessions_of(text):
    """Words, lines and answers of the rows of the tables `Lines | Answers`."""
    for lines, answers in rows_under(text, ["Lines", "Answers"]):
        words = re.search(r"with `([^`]*)`", lines)
        said = re.match(r"`([^`]*)`", answers)[1].split(" ; ")
        asked = re.match(r"`([^`]*)`", lines)[1].split(" ; ")
        for remark, times in ("twice", 2), ("three times", 3):
            if remark in answers:
                said = said * times
        yield words[1].split() if words else [], asked, said


def alike_of(text):
    """Lines of the table of precedence, each with what it reads as."""
    for lines, reading, _ in rows_under(text, ["Line", "reads as", "Why"]):
        readings = reading.replace(" x", "×x").replace(") y", ")×y")
        for line, other in zip(re.findall(r"`([^`]*)`", lines), readings.split(", ")):
            if "one product" not in other:
                yield line, other


def refused_of(text):
    """Lines of the table of what is often typed that are none, each with its refusal."""
    for typed, here in rows_under(text, ["Typed", "Here"]):
        for line in re.findall(r"`([^`]*)`", typed):
            if here.startswith("no line"):
                yield line, "! syntax"
            elif here.startswith(("a character", "the same")):
                at = next(i for i, byte in enumerate(line.encode()) if byte not in b"0123456789x")
                yield line, f"! character {at + 1}"


def pictures_of(text):
    """Lines and pictures of the blocks of the section on pictures."""
    section = text.split("## Pictures")[1].split("\n## ")[0]
    for block in re.split(r"\n\n", section):
        if block.startswith("    "):
            rows = [row[4:] for row in block.splitlines()]
            yield rows[0], rows[1:]


def transcripts_of(text):
    """Lines and all that is printed of each transcript, in which what is typed follows `> `."""
    for block in re.findall(r"(?s)<!-- session -->(.*?)<!-- end -->", text):
        rows = [row[4:] for row in block.splitlines() if row.startswith("    ")]
        yield [row[2:] for row in rows if row.startswith("> ")], [row for row in rows if not row.startswith("> ")]


def written(words, lines):
    status, output, _ = written_by([PROGRAM, *words], "".join(line + "\n" for line in lines))
    return status, output.splitlines()


def samples():
    readme = (TOP / "README.md").read_text()
    language = (TOP / "docs" / "LANGUAGE.md").read_text()
    yield from sessions_of(language)
    for lines, printed in transcripts_of(readme):
        yield [], lines, printed
    for line, picture in pictures_of(language):
        yield ["--draw"], [line], [line, *picture]
    for line, refusal in refused_of(language):
        yield [], [line], [refusal]
    for line, other in alike_of(language):
        status, answers = written([], [other])
        is_read = status == 0 and len(answers) == 1 and not answers[0].startswith("!")
        yield [], [line], answers if is_read else [f"what {other} is answered"]


def table():
    for words, lines, answers in samples():
        if words:
            print("$ " + " ".join(words))
        for line in lines:
            print(line)
        for answer in answers:
            print("| " + answer.replace("\\", "\\\\"))
        print()


def main():
    if sys.argv[1:] == ["table"]:
        table()
        return 0
    failed = 0
    passed = 0
    for words, lines, answers in samples():
        status, found = written(words, lines)
        if status == 0 and found == answers:
            passed += 1
        else:
            failed += 1
            print("failed:", words, lines, "wanted", answers, "found", found)
    print(f"{passed} passed, {failed} failed")
    return 1 if failed else 0


sys.exit(main())
