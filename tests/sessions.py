#!/usr/bin/env python3
"""Runs the program on sessions: their answers, pools of every size, and interruptions at every check.

    tests/sessions.py [PROGRAM]

`tests/sessions.txt` has sessions, parted by a blank line: a line, and its answer behind two blanks; `tests/deep-lines.txt`
has lines that are deep and wide at once, in the same form. The answers come from a model apart from this code.
"""
import sys

from asked import (
    GREATEST_POOL, answer_and_change, answers, are_answered, every, is_interrupted_at_each_of, run, sessions,
)

STORES = ["x+1→y", "5→x", "y", "√(8)→r", "r×z", "ans/r→y", "(x+√(2))^2→x", "z→x", "x+y+r"]
# Each with the nodes of its tree.
LINES = {
    "1": 1, "-x": 2, "1+2+3": 4, "2^10": 3, "1/3+1/6": 7, "√(8)+√(18)": 5, "1/(√(2)+√(3))": 7, "x+√(2)×x": 6,
    "(x×y)^2/x": 7, "x^2×x^-2": 8, "(1+√(2))^3": 6, "x^(1/2)": 5, "4^(3/2)": 5, "1/0": 3, "√(-1)": 3, "(x+1)-(x+1)": 7,
    "2x(x+1)-2x^2": 12, "ans+1→k": 3, "√(√(x))": 3, "-a-b": 4,
}


def check_answers():
    """The sessions of tests/sessions.txt are answered as the model answers them."""
    return are_answered("sessions.txt")


def check_pools():
    """Each line of a session is answered, or is Full and leaves the pool as it was; the last pool answers all."""
    wanted = answers(STORES)

    def is_held(size):
        for at, line in enumerate(STORES):
            given, stays = answer_and_change(STORES[:at], line, f"--pool={size}")
            if given != wanted[at]:
                return given.startswith("! full needed ") and stays
        return True

    return every(is_held, [(size,) for size in range(64, 1400, 8)]) and answers(STORES, "--pool=1392") == wanted


def check_interruptions():
    """A line has one check for each node. It is interrupted by each, with the pool as it was, and answered where none is left."""
    return all(is_interrupted_at_each_of(nodes, line, ["3→x"]) for line, nodes in LINES.items())


def check_many_names():
    """64 names are stored and not one more; a name that is stored again keeps its place among them."""
    lines = [f"{n}→a{n}" for n in range(64)] + ["1→b", "7→a0", "a0+a63"]
    return answers(lines) == [str(n) for n in range(64)] + ["! names full", "7", "70"]


def check_many_uses():
    """A name that is used 40 times, and one whose tree holds another name that is stored later."""
    lines = ["1/2→h", "+".join(["h"] * 40), "u+v→w", "2→u", "3→v", "w", "w→w", "u→u"]
    return answers(lines) == ["1/2", "20", "u+v", "2", "3", "5", "5", "2"]


def check_depths():
    """A tree of forty roots is stored and may be used, but not under thirty more."""
    lines = ["√(" * 40 + "x" + ")" * 40 + "→y", "√(" * 20 + "y" + ")" * 20, "√(" * 30 + "y" + ")" * 30]
    first, second, third = answers(lines)
    return first == "√(" * 40 + "x" + ")" * 40 and second == "√(" * 60 + "x" + ")" * 60 and third == "! deep"


def check_deep_lines():
    """A line that is deep and wide at once is answered in the greatest pool, and answered or Full in the default one."""

    def is_answer(given, wanted):
        overflow = "! overflow "  # which operation it names is open
        return given == wanted or (given.startswith(overflow) and wanted.startswith(overflow))

    def is_answered(lines, wanted):
        given, stays = answer_and_change([], lines[0])
        is_full = given.startswith("! full needed ") and stays
        return is_answer(answers(lines, GREATEST_POOL)[0], wanted[0]) and (is_full or is_answer(given, wanted[0]))

    return every(is_answered, sessions("deep-lines.txt"))


def check_whole_trees():
    """The reduced tree stands in the pool: where it finds no room, a face that would fit is not shown."""
    return answers(["-a-b"], "--pool=88")[0].startswith("! full needed ") and answers(["-a-b"]) == ["-a-b"]


def check_generated():
    """Generated sessions are answered as the model answers them, and take nothing from the input."""
    summary = "lines 2000 shown 1750 stored 250 undef 0 refused 0 bytes {}"
    wanted = {0: 27002, 1: 27383, 2: 27244, 7: 27171, 100: 27377, 65536: 29250, 65537: 27002, 123456: 27295,
              4294967294: 29250, 4294967295: 27002}
    return every(lambda n, size: answers(["1+1"], f"--gen={n}") == [summary.format(size)], wanted.items())


CHECKS = [check_answers, check_pools, check_interruptions, check_many_names, check_many_uses, check_depths,
          check_deep_lines, check_whole_trees, check_generated]

if __name__ == "__main__":
    sys.exit(run(CHECKS))
