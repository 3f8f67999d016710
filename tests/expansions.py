#!/usr/bin/env python3
"""Runs `:expand`: answers of a model, expansions against sympy, pools of every size, and interruptions at every check.

    tests/expansions.py [PROGRAM]

`tests/expansions.txt` has sessions as `tests/sessions.txt` has them; their answers come from a model apart from this
code. Those of a single line are compared with what `sympy` expands, too.
"""
import sys

from asked import GREATEST_POOL, answer_and_change, answers, are_answered, each, is_interrupted_at_each_of, names_in, parsed
from asked import pool_and_bytes, run, sessions, sympy as installed_sympy

TABLE = "expansions.txt"
COMMAND = ":expand "

# Each with its nodes, and the bytes within which it is expanded: 512 for each node, each name and one more, and each term
# that its largest part may have.
LINES = {
    "x": (1, 1_024),
    "(x+1)^2": (5, 20_480),
    "(x+y)×(x-y)": (7, 43_008),
    "x^2+x×y/2": (9, 27_648),
    "(x+1)-(x+1)": (7, 28_672),
    "-(a-b)/3": (6, 18_432),
    "(a+b-c)^2": (7, 129_024),
    "2×x×3×y": (5, 7_680),
    "(x/2+1/3)^3": (9, 73_728),
    "x×y-y×x+z": (9, 55_296),
    "(1+x)^5": (5, 163_840),
    "(a+b)×(c-d)": (7, 71_680),
}

# Lines of one polynomial each, behind what it is answered.
ALIKE = {
    "1+2×x+x^2": ["(x+1)^2", "1+2x+x^2", "x^2+x+x+1", "(1+x)×(x+1)", "(-x-1)^2", "(x+1)^3-x×(x+1)^2"],
    "x×y": ["x×y", "y×x", "x×y×2/2", "((x+y)^2-(x-y)^2)/4"],
    "0": ["0", "x-x", "0×y", "(a-b)×(a+b)-a^2+b^2"],
    "a/2+b/3": ["a/2+b/3", "(3a+2b)/6", "b/3+a/2", "-(a/-2+b/(-3))"],
}


def check_answers():
    """The answers are those of the model, with as much room as there can be."""
    return are_answered(TABLE, GREATEST_POOL)


def check_meanings():
    """Lines and answers are alike when sympy expands them."""
    sympy = installed_sympy()
    compared = 0
    for lines, _ in sessions(TABLE):
        given = answers(lines, GREATEST_POOL)[0]
        if len(lines) > 1 or given.startswith("!"):
            continue
        line = lines[0][len(COMMAND):]
        known = {name: sympy.Symbol(name) for name in names_in(line)}
        if sympy.expand(parsed(line, known) - parsed(given, known)) != 0:
            print(f"{line}: {given}")
            return False
        compared += 1
    return compared >= 80


def check_forms():
    """Lines of one polynomial are answered with the same bytes."""
    return all(answers([COMMAND + line for line in lines]) == [wanted] * len(lines) for wanted, lines in ALIKE.items())


def check_overflows():
    """An operation that does not fit is named, and the pool is as it was."""
    line = COMMAND + "(2^32)^4×x"
    return answers([line])[0].startswith("! overflow ") and pool_and_bytes([line]) == pool_and_bytes([])


def check_pools():
    """In pools of every size a line is answered as in a large one, or is Full; the pool is as it was. It is answered where
    its room is free."""
    for line, (_, room) in LINES.items():
        asked = COMMAND + line
        wanted = answers([asked])
        least = least_pool(asked, wanted[0], room + 16)
        told = each(lambda size: answer_and_change([], asked, f"--pool={size}"), [(size,) for size in range(64, least + 160, 8)])
        for size, (given, stays) in zip(range(64, least + 160, 8), told):
            if not stays or (given != wanted[0] if size >= least else not given.startswith("! full needed ")):
                print(f"{line} in {size} bytes: {given}")
                return False
        if answers([asked], f"--pool={room + 16}") != wanted:
            print(f"{line}: within {room} bytes")
            return False
    return True


def least_pool(line, wanted, enough):
    """The least pool in which a line is answered, by halves."""
    low, high = 64, enough // 8 * 8
    while low < high:
        middle = (low + high) // 16 * 8
        low, high = (low, middle) if answers([line], f"--pool={middle}")[0] == wanted else (middle + 8, high)
    return low


def check_interruptions():
    """A line has one check for each node, and is interrupted by each."""
    return all(is_interrupted_at_each_of(nodes, COMMAND + line) for line, (nodes, _) in LINES.items())


CHECKS = [check_answers, check_meanings, check_forms, check_overflows, check_pools, check_interruptions]


if __name__ == "__main__":
    sys.exit(run(CHECKS))
