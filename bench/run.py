#!/usr/bin/env python3
"""Runs the measures and prints one table; `--write` keeps it in bench/results.json and in bench/README.md.

    bench/run.py [--write] [--runs N] [--program PROGRAM] [MEASURE..]

The measures are `instructions`, `session`, `expansions`, `worst`, `rationals`, `trees` and `library`; without a name the first four
are run.
Nothing else should run on the machine meanwhile.
"""
import argparse
import datetime
import importlib
import json
import pathlib
import platform
import re
import subprocess
import sys

HERE = pathlib.Path(__file__).resolve().parent
sys.path.insert(0, str(HERE))

from timed import Row, built  # noqa: E402

MEASURES = ["instructions", "session", "expansions", "worst", "rationals", "trees", "library"]
USUAL = MEASURES[:4]
RESULTS = HERE / "results.json"
TABLE = re.compile(r"(<!-- table -->\n).*(<!-- end -->)", re.DOTALL)


def version_of(command, pattern):
    try:
        told = subprocess.run(command, capture_output=True, text=True, stdin=subprocess.DEVNULL)
    except OSError:
        return None
    found = re.search(pattern, told.stdout + told.stderr)
    return found and found[1]


def circumstances():
    """The machine, the versions of the peers, and the date."""
    processor = re.search(r"model name\s*: (.*)", pathlib.Path("/proc/cpuinfo").read_text())
    versions = {
        "kit": version_of(["rt", "version"], r"(\S+)"),
        # It tells its version to a terminal alone, so the package is asked.
        "ginsh": version_of(["dpkg-query", "-W", "-f", "${Version}", "ginac-tools"], r"(\d+\.\d+\.\d+)"),
        "maxima": version_of(["maxima", "--version"], r"(\d+\.\d+\.\d+)"),
        "sympy": version_of([sys.executable, "-c", "import sympy; print(sympy.__version__)"], r"(\S+)"),
        "valgrind": version_of(["valgrind", "--version"], r"valgrind-(\S+)"),
    }
    return {
        "date": datetime.date.today().isoformat(),
        "machine": f"{processor[1] if processor else platform.machine()}, {len(__import__('os').sched_getaffinity(0))} processors",
        "versions": {name: version for name, version in versions.items() if version},
    }


def number(value):
    if value is None:
        return ""
    return f"{value:,.0f}" if value >= 1000 or value == int(value) else f"{value:.3g}"


def line_of(row):
    ratios = ", ".join(f"{name} {ratio:.2f}" for name, ratio in row.get("ratios", {}).items())
    return f"| {row['name']} | {number(row['value'])} {row.get('unit', '')} | {ratios or row.get('note', '')} |"


def table_of(results):
    """The table as Markdown: each measure with its rows, and in the last column each peer's number over ours."""
    versions = ", ".join(f"{name} {version}" for name, version in results["versions"].items())
    lines = [f"{results['date']}, {results['machine']}; {versions}.", ""]
    for measure, rows in results["measures"].items():
        lines += [f"| {measure} | here | others, as multiples of it |", "|---|---|---|", *map(line_of, rows), ""]
    return "\n".join(lines)


def main():
    words = argparse.ArgumentParser(description=__doc__, formatter_class=argparse.RawDescriptionHelpFormatter)
    words.add_argument("--write", action="store_true")
    words.add_argument("--runs", type=int, default=3)
    words.add_argument("--program")
    words.add_argument("measures", nargs="*", choices=[[], *MEASURES], metavar="MEASURE")
    given = words.parse_args()
    program = given.program or built()
    results = {**circumstances(), "measures": {}}
    for measure in given.measures or USUAL:
        found = results["measures"][measure] = []
        for row in importlib.import_module(measure).rows(program, given.runs):
            found.append(row.as_json())
            print(line_of(found[-1]), flush=True)
    if given.write:
        RESULTS.write_text(json.dumps(results, indent=1, ensure_ascii=False) + "\n")
        readme = HERE / "README.md"
        readme.write_text(TABLE.sub(lambda it: f"{it[1]}{table_of(results)}\n{it[2]}", readme.read_text()))


if __name__ == "__main__":
    main()
