#!/usr/bin/env python3
"""What the launcher says and does, tried in a small checkout of five crates with a kit of this test's own.

usage: tests/launcher.py
The last line is 'N passed, M failed'.
"""

import os
import re
import shutil
import signal
import subprocess
import sys
import tempfile
import time
from pathlib import Path

HERE = Path(__file__).resolve().parent.parent
CRATES = {"low": "", "left": "low", "right": "low", "poincare": "left right", "beside": "low"}

# Proves and builds what it is asked for, as the kit's prover does: a crate only over libraries that are whole. It fails on a
# crate that holds a file `wrong`, and waits while there is a file `held`, but no longer than some half a minute.
RATTLE = r"""#!/bin/sh
for word; do
    case $last in
        --crate-name) name=$word ;;
        --extern) case $word in *=*/out/libraries/*) [ "$(cat "${word#*=}")" = whole ] || exit 2 ;; esac ;;
        --target) target=" for $word" ;;
        -o) to=$word ;;
    esac
    last=$word
done
echo "build $name$target" >>"$CALLS"
echo part >"$to"
if [ -e src/wrong ]; then
    echo "$name is wrong"
    exit 1
fi
left=300
while [ -e held ] && [ "$left" -gt 0 ]; do
    sleep 0.1
    left=$((left - 1))
done
echo whole >"$to"
echo "built $name" >>"$CALLS"
"""

# Links the program.
LINK = r"""#!/bin/sh
for word; do
    [ "$last" = -o ] && to=$word
    last=$word
done
printf '#!/bin/sh\necho "answered $*"\ncat\n' >"$to" && chmod +x "$to"
echo "linked" >>"$CALLS"
"""


class Lacking(Exception):
    """A test cannot be run on this machine; the text says what it lacks."""


def wait_until(holds, what):
    """Waits until something holds, and fails where it does not come to that."""
    end = time.monotonic() + 20
    while not holds():
        assert time.monotonic() < end, f"it does not come to: {what}"
        time.sleep(0.05)


class Checkout:
    """A checkout of the small crates, with the launcher of this repository."""

    def __init__(self, folder):
        self.folder, self.calls, self.begun = folder / "checkout", folder / "calls", []
        for name in CRATES:
            (self.folder / "crates" / name / "src").mkdir(parents=True)
            self.source(name).write_text("//\n")
        lines = [f"{name}: {below}\n" for name, below in CRATES.items()]
        (self.folder / "crates.txt").write_text("".join(lines))
        shutil.copytree(HERE / "launcher", self.folder / "launcher", ignore=shutil.ignore_patterns("__pycache__"))
        shutil.copy2(HERE / "poincare", self.folder / "poincare")
        self.bin = folder / "kit" / "bin"
        self.bin.mkdir(parents=True)
        for name, text in {"rt": "#!/bin/sh\n", "rattle": RATTLE, "rattle-link": LINK}.items():
            (self.bin / name).write_text(text)
            (self.bin / name).chmod(0o755)
        self.words = {**os.environ, "CALLS": str(self.calls), "TMPDIR": str(folder)}
        self.words["PATH"] = f"{self.bin}:{os.environ['PATH']}"

    def begin(self, *words, program=None, cwd=None, stderr=subprocess.PIPE):
        program = program or self.folder / "poincare"
        how = {"stdin": subprocess.PIPE, "stdout": subprocess.PIPE, "stderr": stderr, "text": True}
        self.begun.append(subprocess.Popen([str(program), *words], env=self.words, cwd=cwd or self.folder, **how))
        return self.begun[-1]

    def end(self):
        """Ends the starts that still run."""
        for begun in self.begun:
            if begun.poll() is None:
                begun.terminate()
                try:
                    begun.wait(timeout=10)
                except subprocess.TimeoutExpired:
                    begun.kill()
                    begun.wait()

    def start(self, *words, **how):
        """Starts the launcher and gives its status and what it wrote."""
        begun = self.begin(*words, **how)
        out, err = begun.communicate("1+1\n", timeout=60)
        return begun.returncode, out, err

    def called(self):
        return self.calls.read_text().splitlines() if self.calls.exists() else []

    def wait_for(self, call):
        wait_until(lambda: call in self.called(), call)

    def held(self, name):
        return self.folder / "crates" / name / "held"

    def source(self, name, file=None):
        return self.folder / "crates" / name / "src" / (file or ("main.rt" if name == "poincare" else "lib.rt"))


def first_start_builds(at):
    status, out, err = at.start("--pool", "64")
    called = at.called()
    assert (status, out) == (0, "answered --pool 64\n1+1\n"), (status, out, err)
    assert "poincare: low: 1 of 4, 0 min" in err and "poincare: poincare: 4 of 4, 0 min" in err, err
    assert called.index("built low") < min(called.index("build left"), called.index("build right")), called
    assert called[-3:] == ["build poincare", "built poincare", "linked"], called


def second_start_only_runs(at):
    at.start()
    before = at.called()
    assert at.start() == (0, "answered \n1+1\n", ""), at.start()
    assert at.called() == before


def crates_stand_side_by_side(at):
    free = int(re.search(r"MemAvailable:\s+(\d+)", Path("/proc/meminfo").read_text())[1]) * 1024
    if len(os.sched_getaffinity(0)) < 2 or free < 6_500_000_000:
        raise Lacking("it takes two processors, and 3 GB of free memory for each")
    for name in ("left", "right"):
        at.held(name).touch()
    begun = at.begin()
    at.wait_for("build left")
    at.wait_for("build right")
    assert not {"built left", "built right"} & set(at.called()), at.called()
    for name in ("left", "right"):
        at.held(name).unlink()
    assert begun.communicate("1+1\n", timeout=60)[0] == "answered \n1+1\n"


def missing_kit_is_named(at):
    (at.bin / "rt").unlink()
    at.words["PATH"] = ":".join(it for it in at.words["PATH"].split(":") if not (Path(it) / "rt").exists())
    python = at.bin / "python3"
    python.symlink_to(sys.executable)
    at.words["PATH"] = f"{at.bin}:{at.words['PATH']}"
    status, out, err = at.start()
    assert (status, out) == (1, "") and "the command rt is missing" in err, (status, out, err)


def missing_prover_is_named(at):
    (at.bin / "rattle").unlink()
    status, out, err = at.start()
    assert (status, out) == (1, "") and "poincare: low: " in err and "poincare: not proved: low; see " in err, (status, out, err)


def failed_proof_is_named(at):
    at.source("left", "wrong").write_text("")
    status, out, err = at.start()
    assert (status, out) == (1, "") and "poincare: not proved: left; see " in err, (status, out, err)
    assert "left is wrong" in Path(err.rpartition("see ")[2].strip()).read_text(), err
    assert "build poincare" not in at.called()
    at.source("left", "wrong").unlink()
    assert at.start()[0] == 0


def changed_source_is_built_anew(at):
    at.start()
    before = len(at.called())
    time.sleep(0.01)
    at.source("right").write_text("// changed\n")
    status, _, err = at.start()
    assert status == 0 and "proved and built" in err, (status, err)
    assert [it for it in at.called()[before:] if it.startswith("build ")] == ["build right", "build poincare"], at.called()


def added_source_is_built_anew(at):
    at.start()
    before = len(at.called())
    time.sleep(0.01)
    at.source("right", "more.rt").write_text("//\n")
    at.source("right").write_text("mod more;\n")
    assert at.start()[0] == 0
    between = len(at.called())
    assert [it for it in at.called()[before:] if it.startswith("build ")] == ["build right", "build poincare"], at.called()
    time.sleep(0.01)
    at.source("right", "more.rt").write_text("// changed\n")
    assert at.start()[0] == 0
    assert [it for it in at.called()[between:] if it.startswith("build ")] == ["build right", "build poincare"], at.called()


def source_beside_the_program_builds_nothing(at):
    at.start()
    before = at.called()
    time.sleep(0.01)
    at.source("beside").write_text("// changed\n")
    assert at.start() == (0, "answered \n1+1\n", ""), at.start()
    assert at.called() == before and "build beside" not in before, before


def changed_proof_alone_builds_nothing(at):
    (at.folder / "crates" / "low" / "proofs").mkdir()
    at.start()
    before = at.called()
    (at.folder / "crates" / "low" / "proofs" / "Lib.antt").write_text("-- new\n")
    assert at.start() == (0, "answered \n1+1\n", ""), at.start()
    assert at.called() == before, at.called()


def changed_proof_below_is_proved_with_all_above(at):
    (at.folder / "crates" / "low" / "proofs").mkdir()
    (at.folder / "crates" / "low" / "proofs" / "Lib.antt").write_text("-- changed\n")
    at.start()
    before = len(at.called())
    (at.folder / "crates" / "low" / "proofs" / "Lib.antt").write_text("-- changed again\n")
    time.sleep(0.01)
    at.source("poincare").write_text("// changed\n")
    assert at.start()[0] == 0
    begun = [it for it in at.called()[before:] if it.startswith("build ")]
    assert sorted(begun) == ["build left", "build low", "build poincare", "build right"], begun


def symbolic_link_is_followed(at):
    link, folder = at.folder.parent / "link", at.folder.parent / "elsewhere"
    folder.mkdir()
    link.symlink_to("checkout/poincare")
    (folder / "second").symlink_to("../link")
    (folder / "third").symlink_to(folder / "second")
    assert at.start(program=folder / "second", cwd="/")[:2] == (0, "answered \n1+1\n")
    assert at.start("x", program=link, cwd=folder) == (0, "answered x\n1+1\n", "")
    assert at.start("y", program="./third", cwd=folder) == (0, "answered y\n1+1\n", "")


def other_folder_serves(at):
    assert at.start(cwd="/")[:2] == (0, "answered \n1+1\n")
    assert at.start(program="../checkout/poincare", cwd=at.folder.parent / "kit") == (0, "answered \n1+1\n", "")


def two_starts_build_once(at):
    at.held("low").touch()
    first = at.begin()
    at.wait_for("build low")
    told = at.folder.parent / "told"
    with told.open("w") as stderr:
        second = at.begin(stderr=stderr)
    wait_until(lambda: "another start in this folder" in told.read_text(), "the second start waits, and says so")
    at.held("low").unlink()
    said = [it.communicate("1+1\n", timeout=60) for it in (first, second)]
    assert [it[0] for it in said] == ["answered \n1+1\n"] * 2, said
    assert at.called().count("build low") == 1 and at.called().count("build poincare") == 1, at.called()


def interrupted_start_is_carried_on(at):
    at.held("right").touch()
    begun = at.begin()
    at.wait_for("built left")
    at.wait_for("build right")
    begun.send_signal(signal.SIGTERM)
    begun.communicate(timeout=10)
    assert begun.returncode == 143, begun.returncode
    at.held("right").unlink()
    # A proof that were still under way would end now.
    time.sleep(0.5)
    assert not {"built right", "build poincare"} & set(at.called()), at.called()
    before = len(at.called())
    assert at.start()[0] == 0
    assert [it for it in at.called()[before:] if it.startswith("build ")] == ["build right", "build poincare"], at.called()


def archive_takes_what_is_proved(at):
    source = at.source("poincare_c")
    source.parent.mkdir(parents=True)
    source.write_text("//\n")
    with (at.folder / "crates.txt").open("a") as crates:
        crates.write("poincare_c staticlib: left beside\n")
    at.start()
    for system, target in {"": "x86_64-unknown-linux-gnu", "aarch64-linux-gnu": "aarch64-unknown-linux-gnu"}.items():
        before = len(at.called())
        words = [sys.executable, str(at.folder / "launcher" / "archive.py"), str(at.folder), *([system] if system else [])]
        done = subprocess.run(words, env=at.words, capture_output=True, text=True, timeout=60)
        made = source.parent.parent / "out" / f"libpoincare_c{system and '-' + system}.a"
        assert done.returncode == 0 and made.read_text() == "whole\n", done
        begun = [it for it in at.called()[before:] if it.startswith("build ")]
        # What the program stands on is proved, and `beside` once for both.
        assert begun == [*([] if system else ["build beside"]), f"build poincare_c for {target}"], begun


def archive_for_another_system_is_refused(at):
    words = [sys.executable, str(at.folder / "launcher" / "archive.py"), str(at.folder), "sparc"]
    done = subprocess.run(words, env=at.words, capture_output=True, text=True, timeout=60)
    assert done.returncode == 2 and "no archive is made for sparc" in done.stderr and not at.called(), done


TESTS = [
    first_start_builds,
    second_start_only_runs,
    crates_stand_side_by_side,
    missing_kit_is_named,
    missing_prover_is_named,
    failed_proof_is_named,
    changed_source_is_built_anew,
    added_source_is_built_anew,
    source_beside_the_program_builds_nothing,
    changed_proof_alone_builds_nothing,
    changed_proof_below_is_proved_with_all_above,
    symbolic_link_is_followed,
    other_folder_serves,
    two_starts_build_once,
    interrupted_start_is_carried_on,
    archive_takes_what_is_proved,
    archive_for_another_system_is_refused,
]


def main():
    passed = failed = 0
    for test in TESTS:
        with tempfile.TemporaryDirectory() as folder:
            at = Checkout(Path(folder))
            try:
                test(at)
                passed += 1
            except Lacking as lack:
                print(f"not run: {test.__name__}: {lack}")
            except Exception as why:
                failed += 1
                print(f"{test.__name__}: {type(why).__name__}: {why}")
            finally:
                at.end()
    print(f"{passed} passed, {failed} failed")
    return 1 if failed else 0


if __name__ == "__main__":
    sys.exit(main())
