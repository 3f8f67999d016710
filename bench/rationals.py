"""Sums, products and square parts of random operands by processor time: the crates rational128 and square_parts, C with
unsigned __int128 where gcc is there, and Python's fractions.

A small repository is made in a temporary folder, of copies of the crates and of the program that program.txt holds, and run with rt.
Each number is the best of three runs, but Python's, which is of one.
"""
import os
import shutil
import subprocess
import tempfile
import time
from fractions import Fraction

from timed import Row

HERE = os.path.join(os.path.dirname(os.path.abspath(__file__)), "rationals_beside")
CRATES = os.path.join(HERE, "..", "..", "crates")
CRATES_LIST = os.path.join(CRATES, "..", "crates.txt")
NEEDED = ("calc_terms", "calc_algebra", "rational128", "square_parts")
PAIRS = 100 * 64 * 64
SPLITS = {10: 200000, 20: 100000, 40: 5000, 64: 5000, 120: 2000, 127: 2000}


def build(folder):
    """Proves and builds the program, and gives its path."""
    for name in NEEDED:
        target = os.path.join(folder, "crates", name)
        shutil.copytree(os.path.join(CRATES, name), target, ignore=shutil.ignore_patterns("out", "must-fail"))
    program = os.path.join(folder, "crates", "numbers_bench")
    os.makedirs(os.path.join(program, "src"))
    shutil.copy(os.path.join(HERE, "program.txt"), os.path.join(program, "src", "main.rt"))
    with open(CRATES_LIST) as listed, open(os.path.join(folder, "crates.txt"), "w") as file:
        file.writelines(line for line in listed if line.partition(":")[0] in NEEDED)
        file.write("numbers_bench: calc_terms rational128 square_parts\n")
    done = subprocess.run(["rt", "run"], cwd=program, capture_output=True, text=True)
    if done.returncode != 0:
        raise SystemExit(done.stdout[-4000:] + done.stderr[-4000:])
    return os.path.join(program, "out", "numbers_bench")


def best(command):
    """The least time of each line of three runs."""
    times = {}
    for _ in range(3):
        for line in subprocess.run(command, capture_output=True, text=True, check=True).stdout.splitlines():
            name, bits, micros, _ = line.split()
            key = (name, int(bits))
            times[key] = min(times.get(key, float("inf")), float(micros))
    return times


def next_state(state):
    mask = 2**64 - 1
    a = state ^ (state << 13 & mask)
    b = a ^ a >> 7
    return b ^ (b << 17 & mask)


def python_times():
    """One round of the same operands with Python's fractions, counted as a hundred."""
    times = {}
    for bits in (8, 32, 64, 100, 126):
        state, operands = 88172645463325252, []
        for _ in range(64):
            draws = []
            for _ in range(4):
                state = next_state(state)
                draws.append(state)
            num, den = ((draws[i] << 64 | draws[i + 1]) >> 1 >> 127 - bits for i in (0, 2))
            operands.append(Fraction(num, den) if den else Fraction(1))
        for name, operation in (("sum", Fraction.__add__), ("product", Fraction.__mul__)):
            start = time.process_time()
            for a in operands:
                for b in operands:
                    operation(a, b)
            times[name, bits] = (time.process_time() - start) * 1e6 * 100
    return times


def rows(program, runs):
    """Sums, products and square parts a second, for operands of each length in bits."""
    with tempfile.TemporaryDirectory() as folder:
        ours, in_c = best([build(folder)]), {}
        if shutil.which("gcc"):
            binary = os.path.join(folder, "rationals")
            subprocess.run(["gcc", "-O2", "-o", binary, os.path.join(HERE, "numbers.c")], check=True)
            in_c = best([binary])
    in_python = python_times()
    for (name, bits), micros in ours.items():
        count = SPLITS[bits] if name == "split" else PAIRS
        others = {peer: times[name, bits] / micros for peer, times in (("C", in_c), ("Python", in_python)) if times.get((name, bits)) and micros}
        yield Row(f"{name}, {bits} bits", count / micros if micros else None, "million a second", others)
