#!/usr/bin/env python3
"""Runs the samples of docs/EMBEDDING.md.

    tests/embedding.py

A block of code is a file, whose name stands before it, or else stands in the example for C. Commands are run at the top of
a folder that has the files, and the block of text behind a program is what it prints. The archive of poincare_c has to be
built, or another one named by ARCHIVE.
"""
import os
import pathlib
import re
import shutil
import subprocess
import sys
import tempfile

TOP = pathlib.Path(__file__).resolve().parent.parent
PAGE = TOP / "docs" / "EMBEDDING.md"
BLOCK = re.compile(r"^```(\w+)\n(.*?)^```$", re.M | re.S)
NAMED = re.compile(r"`([\w/.]+\.(?:c|rt))`[^`]*\Z")
# Seconds within which each command has to end.
LIMIT = 600


def blocks():
    """Each block: its language, what stands in it, and the file that is named last before it in its paragraph."""
    text = PAGE.read_text()
    end = 0
    for found in BLOCK.finditer(text):
        named = NAMED.search(text[end : found.start()])
        yield found[1], found[2], named and named[1]
        end = found.end()


def printed(command, folder, **how):
    """Whether a command ends with status 0, and what it prints."""
    try:
        done = subprocess.run(command, cwd=folder, stdout=subprocess.PIPE, stderr=subprocess.STDOUT, text=True, timeout=LIMIT, **how)
    except subprocess.TimeoutExpired:
        return False, f"no end within {LIMIT} seconds"
    return done.returncode == 0, done.stdout


class Samples:
    """The blocks, run one after another; a fault for each that does not give what the page says."""

    def __init__(self, folder):
        self.folder = folder
        self.results = []
        self.wanted = ""

    def note(self, what, holds, shown=""):
        self.results.append(bool(holds))
        if not holds:
            print(f"failed: {what}\n{shown}")

    def run_c(self, commands, wanted):
        ended, shown = printed(["sh", "-e", "-c", commands], self.folder)
        self.note(commands, ended and shown.endswith(wanted), shown)

    def run_rattle(self, program, line, wanted):
        """In a copy of the sources with one more crate, without its proof."""
        if not shutil.which("rt"):
            print("not run: the sample in Rattle: rt is not there")
            return
        copy = self.folder / "copy"
        shutil.copytree(TOP / "crates", copy / "crates", ignore=shutil.ignore_patterns("out", "proofs", "must-fail"))
        shutil.copy(TOP / "HANDLES", copy)
        (copy / "crates.txt").write_text((TOP / "crates.txt").read_text() + "\n" + line)
        crate = copy / "crates" / line.split(":")[0]
        (crate / "src").mkdir(parents=True)
        (crate / "src" / "main.rt").write_text(program)
        ended, shown = printed(["rt", "try"], crate, stdin=subprocess.DEVNULL)
        self.note("the sample in Rattle", ended and wanted in shown, shown[-2000:])

    def run(self):
        found = list(blocks())
        texts = {at: body for at, (language, body, _) in enumerate(found) if language == "text"}

        def wanted_behind(at):
            return texts[min(it for it in texts if it > at)]

        example = (TOP / "c" / "example.c").read_text()
        printed_by_c = ""
        for at, (language, body, name) in enumerate(found):
            if language == "rust":
                line = next(body for language, body, _ in found[at:] if language == "crates")
                self.run_rattle(body, line, wanted_behind(at))
            elif language == "c" and name:
                (self.folder / name).write_text(body)
            elif language == "c":
                self.note("a piece of c/example.c", body in example, body)
            elif language == "python":
                command = [sys.executable, "-c", body]
                ended, shown = printed(command, TOP / "python")
                self.note("the sample in Python", ended and shown == wanted_behind(at), shown)
            elif language == "sh":
                if found[at + 1 : at + 2] and found[at + 1][0] == "text":
                    printed_by_c = found[at + 1][1]
                self.run_c(body, printed_by_c)


def main():
    with tempfile.TemporaryDirectory() as name:
        folder = pathlib.Path(name)
        # A copy is built: nothing is left in the checkout, and two runs at once are not in each other's way.
        shutil.copytree(TOP / "c", folder / "c", ignore=shutil.ignore_patterns("out"))
        shutil.copy(TOP / "VERSION", folder)
        os.symlink(TOP / "python", folder / "python")
        os.environ.setdefault("ARCHIVE", str(TOP / "crates" / "poincare_c" / "out" / "libpoincare_c.a"))
        os.environ.setdefault("POINCARE_LIBRARY", str(folder / "c" / "out" / "libpoincare.so"))
        samples = Samples(folder)
        samples.run()
    failed = samples.results.count(False)
    print(f"{len(samples.results) - failed} passed, {failed} failed")
    return 0 if samples.results and not failed else 1


if __name__ == "__main__":
    sys.exit(main())
