"""Proves and builds the archive of the library for C, over the libraries that the launcher proved for the program.

usage: archive.py ROOT [SYSTEM]

The archive is crates/poincare_c/out/libpoincare_c.a. SYSTEM is the name by which Debian calls another system, as
aarch64-linux-gnu; it then stands in the name of the archive, too. What is proved here is kept with the launcher's libraries.
"""

import os
import shutil
import sys
import tempfile
from pathlib import Path

from build import PROGRAM, TARGET, Build, Kit, alone, find_kit, say

CRATE = "poincare_c"
# What Rattle calls a system that has another name in Debian.
TARGETS = {"x86_64-linux-gnu": TARGET, "aarch64-linux-gnu": "aarch64-unknown-linux-gnu"}


def build(root, kit, system):
    """Proves and builds the archive; whether it is there then."""
    built = root / "crates" / PROGRAM / "out" / "libraries"
    built.mkdir(parents=True, exist_ok=True)
    to = root / "crates" / CRATE / "out" / f"lib{CRATE}{'-' + system if system else ''}.a"
    log = Path(tempfile.gettempdir()) / f"poincare-archive.{os.getpid()}.log"
    made = Build(root, Kit(kit, built, TARGETS[system] if system else TARGET), None, log, CRATE)
    say(f"the archive is proved and built: {len(made.left)} of {len(made.crates)} crates are left; the log is {log}")
    made.stop_at_signals()
    if not made.run():
        say(f"not proved: {' '.join(made.failed)}; see {log}")
        return False
    to.parent.mkdir(exist_ok=True)
    shutil.copyfile(made.kit.archive(made.crates[CRATE]), to)
    return True


def main(root, system=None):
    if system and system not in TARGETS:
        say(f"no archive is made for {system}, but for {' and '.join(TARGETS)}")
        return 2
    root, kit = Path(root).resolve(), find_kit()
    if not kit:
        return 1
    with alone(root / "crates" / PROGRAM / "out"):
        return 0 if build(root, kit, system) else 1


if __name__ == "__main__":
    sys.exit(main(*sys.argv[1:]))
