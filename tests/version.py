#!/usr/bin/env python3
"""Whether all that tell a version tell that of the file VERSION, and whether nothing else tells one.

    tests/version.py [PROGRAM]

PROGRAM is not asked; it is there so that each script takes it. The last line is 'N passed, M failed'.
"""
import re
import sys
from pathlib import Path

TOP = Path(__file__).resolve().parent.parent
VERSION = (TOP / "VERSION").read_text().strip()
FIRST, SECOND, THIRD = VERSION.split(".")

# Each file that has the version, and how it is written there.
WRITTEN = {
    "c/poincare.h": [f'#define POINCARE_VERSION "{VERSION}"', f"#define POINCARE_VERSION_NUMBER {FIRST}{SECOND:>02}{THIRD:>02}"],
    "python/poincare/__init__.py": [f'__version__ = "{VERSION}"'],
    "docs/poincare.1": [f'.TH POINCARE 1 "" "poincare {VERSION}" "User Commands"'],
    "debian/changelog": [f"poincare ({VERSION}) unstable; urgency=medium"],
}
# Those that take it from the file.
TAKEN = {
    "c/Makefile": "VERSION := $(shell cat ../VERSION)",
    "c/poincare.pc.in": "Version: @VERSION@",
    "python/pyproject.toml": 'version = { attr = "poincare.__version__" }',
}


def has_lines(file, wanted):
    lines = (TOP / file).read_text().splitlines()
    return all(lines.count(it) == 1 for it in wanted)


def tells_no_other(file):
    """Whether each text of three numbers in a file is the version."""
    return set(re.findall(r"(?<![\d.])\d+\.\d+\.\d+(?![\d.])", (TOP / file).read_text())) <= {VERSION}


def main():
    held = {"VERSION is three numbers": re.fullmatch(r"\d+\.\d+\.\d+", VERSION) is not None}
    held.update({f"{file} has the version": has_lines(file, wanted) for file, wanted in WRITTEN.items()})
    held.update({f"{file} takes the version": has_lines(file, [wanted]) for file, wanted in TAKEN.items()})
    held.update({f"{file} has no other": tells_no_other(file) for file in [*WRITTEN, *TAKEN]})
    for what, holds in held.items():
        if not holds:
            print(f"failed: {what}")
    failed = list(held.values()).count(False)
    print(f"{len(held) - failed} passed, {failed} failed")
    return 1 if failed else 0


if __name__ == "__main__":
    sys.exit(main())
