"""What the lower crates do in a second, by the program `tree_bench`: nodes placed and removed, trees copied and released,
Numbers added and multiplied, names put in order. It is proved and built by `rt` where it was not.
"""
import subprocess

from timed import TOP, Row

MEASURES = {
    "pool": ["10", "100", "1000", "10000"],
    "handles": ["10", "100", "1000"],
    "numbers": ["1", "2", "8", "32"],
    "sums": ["10", "100", "1000", "10000"],
}


def rows(program, runs):
    """Each line that `tree_bench` prints, as it stands."""
    for what, sizes in MEASURES.items():
        told = subprocess.run(["rt", "run", "--", what, *sizes], cwd=TOP / "crates" / "tree_bench", capture_output=True, text=True)
        if told.returncode != 0:
            raise SystemExit(told.stdout[-4000:] + told.stderr[-4000:])
        for line in told.stdout.splitlines():
            yield Row(f"{what}: {line.strip()}", None, "")
