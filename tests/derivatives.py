#!/usr/bin/env python3
"""Runs `:diff`: answers of a model, pools of every size, interruptions at every check, and slopes against sympy.

    tests/derivatives.py [PROGRAM]

`tests/derivatives.txt` has sessions as `tests/sessions.txt` has them; their answers come from a model apart from this
code. 200 random lines are differentiated by `sympy`, too, and both are compared at random rationals.
"""
import random
import sys

from asked import answers, are_answered, is_interrupted_at_each_of, least_of, parsed, run, sympy as installed_sympy

TABLE = "derivatives.txt"
POOL_LINES = [":diff x x^3", ":diff x 1/x", ":diff x √(x)×y", ":diff x (x+1)^2×(x-y)", ":diff y y^2/(1+y)", ":diff z 2+x"]
# Each with the nodes of its derivative, as the rules make it and before it is reduced.
CHECKED_LINES = {":diff x x^3": 6, ":diff x √(x)": 6, ":diff x (x+1)^2": 10, ":diff x x×y/(1-x)": 21}


def check_answers():
    """The answers are those of the model."""
    return are_answered(TABLE)


def check_pools():
    """In pools of every size a line is answered as in a large one, or is Full; the pool is as it was."""
    for line in POOL_LINES:
        if least_of(range(64, 1400, 8), line) is None:
            print(line)
            return False
    return True


def check_interruptions():
    """A line has one check for each node of its derivative. It is interrupted by each, with the pool as it was, and answered
    where none is left."""
    return all(is_interrupted_at_each_of(nodes, line) for line, nodes in CHECKED_LINES.items())


def random_line(random_source, depth):
    """A line in x and y whose powers have whole exponents, and whose divisors are above 0."""
    if depth == 0:
        return random_source.choice(["x", "x", "y", "2", "3", "1/2"])
    form = random_source.randrange(6)
    first = random_line(random_source, depth - 1)
    second = random_line(random_source, depth - 1)
    if form == 0:
        return f"({first}+{second})"
    if form == 1:
        return f"({first}-{second})"
    if form in (2, 3):
        return f"({first}×{second})"
    if form == 4:
        return f"({first}/(1+({second})^2))"
    return f"({first})^{random_source.choice([2, 3, 4])}"


def check_slopes():
    """The slopes of 200 random lines are those of sympy."""
    sympy = installed_sympy()
    x, y = sympy.symbols("x y")
    names = {"x": x, "y": y}
    source = random.Random(19)
    lines = [random_line(source, 3) for _ in range(200)]
    compared = 0
    for line, given in zip(lines, answers([f":diff x {line}" for line in lines])):
        if given.startswith("! overflow") or given.startswith("! full"):
            continue
        slope = sympy.diff(parsed(line, names), x)
        answer = parsed(given, names)
        for _ in range(3):
            point = {name: sympy.Rational(source.randint(-9, 9), source.randint(1, 7)) for name in (x, y)}
            left, right = slope.subs(point), answer.subs(point)
            if sympy.simplify(left - right) != 0:
                print(f"{line}: {given} is not {slope} at {point}")
                return False
        compared += 1
    return compared > 150


CHECKS = [check_answers, check_pools, check_interruptions, check_slopes]


if __name__ == "__main__":
    sys.exit(run(CHECKS))
