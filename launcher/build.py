"""Proves and builds the program, with crates side by side, and then runs it.

A crate is begun once the libraries that it stands on are ready; of those that are, the one with the most work waiting
for it comes first. The kit's `rattle` proves it and writes its library, with its statements alone, so that no proof is
read again above. Each library is kept beside the program with a sum of all that it was made of: the next run, after a
change or an interruption, proves what has changed and what stands on it.

usage: build.py ROOT WORD..
"""

import contextlib
import fcntl
import hashlib
import math
import os
import re
import shlex
import shutil
import signal
import subprocess
import sys
import tempfile
import threading
import time
from pathlib import Path

PROGRAM = "poincare"
TARGET = "x86_64-unknown-linux-gnu"
SOURCES = ("src", "specs", "proofs")
# The most memory that a proof takes, in bytes.
LANE_BYTES = 3_000_000_000
# More processes than this share no proof's searches any faster.
MOST_JOBS = 4
# What it takes to load the libraries that a crate stands on, in lines of code that are proved meanwhile.
LOADING = 130
# A crate is late where the work that waits for it, shared by nobody, is so many times all that is left, shared by all processors.
LATE = 1.5


def say(words):
    print(f"poincare: {words}", file=sys.stderr, flush=True)


class Crate:
    """A crate, the crates of the repository that it names, and those of the kit."""

    def __init__(self, root, name, named, crates, is_archive=False):
        self.folder, self.name, self.is_archive = root / "crates" / name, name, is_archive
        self.below = [it for it in named if it in crates]
        self.of_kit = ["std", *[it for it in named if it not in crates]]
        self.is_program = (self.folder / "src" / "main.rt").is_file()

    def files(self):
        return sorted(it for part in SOURCES for it in (self.folder / part).rglob("*") if it.is_file())

    def work(self):
        """What its proof takes, in lines of code: what is paid for is what the code owes, and lemmas take next to nothing."""
        return LOADING + sum(it.read_bytes().count(b"\n") for it in (self.folder / "src").rglob("*.rt"))

    def sum_over(self, sums):
        """A sum of the crate's files and of all that it stands on."""
        made = hashlib.sha256(repr((self.of_kit, [sums[it] for it in self.below])).encode())
        for it in self.files():
            made.update(f"{it.relative_to(self.folder)} {it.stat().st_size}\n".encode())
            made.update(it.read_bytes())
        return made.hexdigest()


def read_crates(root, goal=PROGRAM):
    """The crates that the goal stands on, itself included, each after those that it names."""
    named, archives = {}, set()
    for line in (root / "crates.txt").read_text().splitlines():
        found = re.match(r"([a-z0-9_]+)( staticlib)?:(.*)", line)
        if found:
            named[found[1]] = found[3].split()
            archives.update([found[1]] if found[2] else [])
    crates = {}

    def visit(name):
        if name not in crates:
            crate = Crate(root, name, named[name], named, name in archives)
            for it in crate.below:
                visit(it)
            crates[name] = crate

    visit(goal)
    return crates


def work_waiting(crates):
    """For each crate the work of the longest chain that begins with it."""
    found = {}
    for name in reversed(crates):
        above = [found[it.name] for it in crates.values() if name in it.below]
        found[name] = crates[name].work() + max(above, default=0)
    return found


def count_lanes():
    free = int(re.search(r"MemAvailable:\s+(\d+)", Path("/proc/meminfo").read_text())[1]) * 1024
    return max(1, min(len(os.sched_getaffinity(0)), free // LANE_BYTES))


class Kit:
    """The kit's prover and its linker, and what they made of this checkout."""

    def __init__(self, kit, built, target=TARGET):
        self.folder, self.built, self.target = kit, built, target
        self.version = (kit / "KIT-ID").read_text() if (kit / "KIT-ID").is_file() else ""

    def library(self, name):
        return self.built / f"{name}.rlib"

    def archive(self, crate):
        return self.built / f"lib{crate.name}.a"

    def words(self, crate, jobs):
        root = "src/main.rt" if crate.is_program else "src/lib.rt"
        words = ["--crate-name", crate.name, root, "-L", f"dependency={self.folder}/rlibs", "-L", f"dependency={self.built}"]
        for it in crate.of_kit:
            words += ["--extern", f"{it}={self.folder}/rlibs/{it}.rlib"]
        for it in crate.below:
            words += ["--extern", f"{it}={self.library(it)}"]
        words += ["--antt-project", f"{self.folder}/rattle/logic/antt-project.json", "--logic-built", f"{self.folder}/logic_built"]
        return [*words, "--jobs", str(jobs)]

    def build(self, crate, jobs, called):
        """Proves a crate, and writes its library, its archive or, of the program, what `link` takes."""
        to = ["--statements", "-o", self.library(crate.name)]
        if crate.is_program:
            to = ["--toolchain", f"{self.folder}/toolchain", "-o", self.built / "main.o"]
        if crate.is_archive:
            to = ["--toolchain", f"{self.folder}/toolchain", "--crate-type", "staticlib", "--target", self.target, "-o", self.archive(crate)]
        return called([self.folder / "bin" / "rattle", "build", *self.words(crate, jobs), *to], crate.folder)

    def link(self, program, called):
        words = ["--target", TARGET, "--toolchain", self.folder / "toolchain", "-o", program, self.built / "main.o"]
        words += [self.folder / "c" / it for it in ("libos_c.a", "liblibc_c.a")]
        return called([self.folder / "bin" / "rattle-link", *words], program.parent)


class Build:
    """What is left to prove, what is under way and what is ready, shared by the lanes."""

    def __init__(self, root, kit, program, log, goal=PROGRAM):
        self.kit, self.program, self.log = kit, program, log
        self.crates, self.lanes = read_crates(root, goal), count_lanes()
        self.waiting, self.work_of = work_waiting(self.crates), {name: it.work() for name, it in self.crates.items()}
        self.sums, self.ready, self.under_way, self.failed = {}, set(), {}, []
        for it in self.crates.values():
            self.sums[it.name] = hashlib.sha256((kit.version + it.sum_over(self.sums)).encode()).hexdigest()
            if self.ready.issuperset(it.below) and self.is_kept(it):
                self.ready.add(it.name)
        left = [it for it in self.crates.values() if it.name not in self.ready]
        self.left = sorted(left, key=lambda it: -self.waiting[it.name])
        self.called, self.changed, self.begun = set(), threading.Condition(), time.monotonic()

    def call(self, words, folder):
        """Calls a command of the kit in a folder; its words go to the log."""
        with open(self.log, "ab") as log:
            how = {"cwd": folder, "stdin": subprocess.DEVNULL, "stdout": log, "stderr": log, "start_new_session": True}
            called = subprocess.Popen([str(it) for it in words], **how)
        self.called.add(called)
        status = called.wait()
        self.called.discard(called)
        return status

    def stop(self, number, _):
        """Ends what was called, with what it started, and then this process."""
        for it in list(self.called):
            with contextlib.suppress(ProcessLookupError):
                os.killpg(it.pid, signal.SIGKILL)
        os._exit(128 + number)

    def stop_at_signals(self):
        for it in (signal.SIGTERM, signal.SIGINT, signal.SIGHUP):
            signal.signal(it, self.stop)

    def is_kept(self, crate):
        kept = self.kit.built / f"{crate.name}.sum"
        return kept.is_file() and kept.read_text() == self.sums[crate.name]

    def prove(self, crate, jobs):
        """Proves a crate; its status."""
        (self.kit.built / f"{crate.name}.sum").unlink(missing_ok=True)
        status = self.kit.build(crate, jobs, self.call)
        if status == -signal.SIGKILL and jobs > 1:
            # most likely for want of memory
            status = self.kit.build(crate, 1, self.call)
        if crate.is_program and not status:
            status = self.kit.link(self.program, self.call)
        if not status and not crate.is_program and not crate.is_archive:
            (self.kit.built / f"{crate.name}.sum").write_text(self.sums[crate.name])
        return status

    def can_begin(self):
        return [it for it in self.left if self.ready.issuperset(it.below)]

    def is_late(self, crate):
        left = sum(work for name, work in self.work_of.items() if name not in self.ready)
        return self.waiting[crate.name] * self.lanes > LATE * left

    def jobs_for(self, found):
        """The processes that the first of these crates gets, none where it has to wait. One that is late gets at least two, also where
        no processor is free; then no other is begun until one is."""
        free = self.lanes - sum(self.under_way.values())
        jobs = math.ceil(free / len(found))
        if free >= 0 and self.lanes > 1 and self.is_late(found[0]):
            jobs = max(jobs, 2)
        return min(max(jobs, 0), MOST_JOBS)

    def take(self):
        """Waits for a crate that can be begun, and gives it with the processes that are left to it; None when no more come."""
        with self.changed:
            while self.left and not self.failed:
                found = self.can_begin()
                if found and (jobs := self.jobs_for(found)):
                    self.left.remove(found[0])
                    self.under_way[found[0].name] = jobs
                    return found[0], jobs
                self.changed.wait()
            return None

    def note(self, crate, status):
        """Notes how a crate's proof ended, and tells it."""
        del self.under_way[crate.name]
        if status:
            self.failed.append(crate.name)
            return
        self.ready.add(crate.name)
        minutes = (time.monotonic() - self.begun) / 60
        say(f"{crate.name}: {len(self.ready)} of {len(self.crates)}, {minutes:.0f} min")

    def work(self):
        while taken := self.take():
            try:
                status = self.prove(*taken)
            except OSError as error:
                say(f"{taken[0].name}: {error}")
                status = 1
            with self.changed:
                self.note(taken[0], status)
                self.changed.notify_all()

    def run(self):
        """Builds the libraries and the program; whether all is proved."""
        threads = [threading.Thread(target=self.work) for _ in range(self.lanes + 1)]
        for it in threads:
            it.start()
        for it in threads:
            it.join()
        return not self.failed


def note_sources(root, crates, noted):
    """Notes the files that the program is built of, as words of a function of the script at the top."""
    files = [it for crate in crates.values() for it in sorted((crate.folder / "src").rglob("*.rt"))]
    names = ["crates.txt", *(str(it.relative_to(root)) for it in files)]
    fresh = noted.with_suffix(".new")
    fresh.write_text(f"set -- {shlex.join(names)}\n")
    # A start that reads it meanwhile finds the one before whole.
    fresh.replace(noted)


def is_built(root, program, noted):
    """Whether the program is at least as new as all that it was built of, as the script asks."""
    if not program.is_file() or not noted.is_file():
        return False
    built, names = program.stat().st_mtime_ns, shlex.split(noted.read_text())[2:]
    return all((root / it).stat().st_mtime_ns <= built for it in names if (root / it).exists())


def build(root, program, noted, kit):
    """Proves and builds the program; whether it stands then."""
    begun = time.time_ns()
    log = Path(tempfile.gettempdir()) / f"poincare-build.{os.getpid()}.log"
    built = program.parent / "libraries"
    built.mkdir(exist_ok=True)
    say(f"the program is proved and built, which takes about a quarter of an hour on four processors; the log is {log}")
    made = Build(root, Kit(kit, built), program, log)
    note_sources(root, made.crates, noted)
    made.stop_at_signals()
    if not made.run():
        say(f"not proved: {' '.join(made.failed)}; see {log}")
        return False
    # What was changed meanwhile is newer than the program.
    os.utime(program, ns=(begun, begun))
    return True


def find_kit():
    """Where the kit is, or None."""
    rt = shutil.which("rt")
    if not rt:
        say("the command rt is missing, which proves and builds the program; it is part of Rattle's kit")
        return None
    return Path(rt).resolve().parent.parent


@contextlib.contextmanager
def alone(folder):
    """Waits until no other start proves and builds in this folder, and holds others off."""
    folder.mkdir(parents=True, exist_ok=True)
    with open(folder / "lock", "w") as lock:
        try:
            fcntl.flock(lock, fcntl.LOCK_EX | fcntl.LOCK_NB)
        except BlockingIOError:
            say("another start in this folder proves and builds the program; waiting for it")
            fcntl.flock(lock, fcntl.LOCK_EX)
        yield


def main(root, *words):
    root = Path(root).resolve()
    program = root / "crates" / PROGRAM / "out" / PROGRAM
    noted = program.parent / "sources"
    kit = find_kit()
    if not kit:
        return 1
    with alone(program.parent):
        if not is_built(root, program, noted) and not build(root, program, noted, kit):
            return 1
    os.execv(program, [str(program), *words])


if __name__ == "__main__":
    sys.exit(main(*sys.argv[1:]))
