#!/usr/bin/env python3
"""Runs `:solve`: answers of a model, solution sets against sympy, pools of every size, and interruptions at every check.

    tests/solutions.py [PROGRAM]

`tests/solutions.txt` has sessions as `tests/sessions.txt` has them; their answers come from a model apart from this
code. The first 100 end with a system whose answer is compared as a set of solutions with that of `sympy`, too.
"""
import sys

from asked import answers, are_answered, is_interrupted_at_each_of, least_of, names_in, parsed, run, sessions, tokens
from asked import sympy as installed_sympy

TABLE = "solutions.txt"
SYSTEMS = 100
COMMAND = ":solve "

# With six names and long rationals, with six multipliers, with the sum of a system of one equation, and without names.
LONG = "170141183460469231731687303715884105727"
POOL_LINES = [
    ":solve x=1", ":solve x+y=3;x-y=1", ":solve x=1;x=2", ":solve 1=1", ":solve a+b/3-c/7+d/9=e×5-f+1/11",
    f":solve a=b/{LONG}+c/3+d/5+e/7+f/9+1/2", ":solve a=1;b=2;c=3;d=4;e=5;f=6",
    ":solve a=1;b=2;c=3;d=4;e=5;e=7/3", ":solve x+y=1;x×y=1",
]
MOST_NEEDED = 2048

# Each with its nodes and its names.
CHECKED_LINES = {":solve x=1": 3, ":solve x+y=3;x-y=1": 10, ":solve 1=2;0=-1/2": 7, ":solve 3(x-1)/2+y=z;z=2×z": 17}


def check_answers():
    """The answers are those of the model."""
    return are_answered(TABLE)


# ---- sets of solutions

def filled(text, stored):
    """A text with the stored texts in place of their names, the oldest first."""
    for name, tree in stored:
        text = " ".join(f"({tree})" if token == name else token for token in tokens(text))
    return text


def is_none(differences, symbols, given):
    """The printed rationals bring left minus right to 1, and sympy finds no solution."""
    sympy = installed_sympy()
    multipliers = [sympy.Rational(word) for word in given.split(",")]
    brought = sympy.expand(sum(m * d for m, d in zip(multipliers, differences)))
    solutions = sympy.linsolve(differences, symbols) if symbols else sympy.EmptySet
    return len(multipliers) == len(differences) and brought == 1 and solutions == sympy.EmptySet


def is_all(differences, symbols, given):
    """The printed forms solve the equations, and are as many as the rank, which sympy tells."""
    sympy = installed_sympy()
    forms = {}
    free = []
    for symbol, told in zip(symbols, given.split(",")):
        if told == f"{symbol} free":
            free.append(symbol)
        elif told.startswith(f"{symbol}="):
            forms[symbol] = parsed(told.partition("=")[2], {s.name: s for s in symbols})
        else:
            return False
    later = all(s.name > symbol.name for symbol, form in forms.items() for s in form.free_symbols)
    matrix, _ = sympy.linear_eq_to_matrix(differences, symbols)
    return (later and len(forms) + len(free) == len(symbols) and all(f.free_symbols <= set(free) for f in forms.values())
            and all(sympy.expand(d.subs(forms)) == 0 for d in differences) and matrix.rank() == len(forms))


def is_solution(equations, given):
    """An answer is right for equations, in which no name is stored."""
    sympy = installed_sympy()
    symbols = [sympy.Symbol(name) for name in sorted(names_in(equations))]
    known = {symbol.name: symbol for symbol in symbols}
    sides = [piece.split("=") for piece in equations.split(";")]
    differences = [parsed(left, known) - parsed(right, known) for left, right in sides]
    if given.startswith("none "):
        return is_none(differences, symbols, given[len("none "):])
    if not symbols:
        return given == "true" and all(d == 0 for d in differences)
    return is_all(differences, symbols, given)


def check_sets():
    """The sets of solutions are those of sympy."""
    for lines, _ in list(sessions(TABLE))[:SYSTEMS]:
        given = answers(lines)
        stored = [(line.partition("→")[2], tree) for line, tree in zip(lines[:-1], given)]
        if not is_solution(filled(lines[-1][len(COMMAND):], stored), given[-1]):
            print(f"{lines}: {given[-1]}")
            return False
    return True


# ---- pools and checks

def check_pools():
    """In pools of every size a line is answered as in a large one, or is Full; the pool is as it was. Where 2,048 bytes are
    free, besides the sixteen of an empty `ans`, it is answered."""
    for line in POOL_LINES:
        least = least_of(range(64, MOST_NEEDED + 256, 8), line)
        if least is None or least - 16 > MOST_NEEDED:
            print(line, "in a pool of", least)
            return False
    return True


def check_interruptions():
    """A line has so many checks as its sides have nodes, and one for each name, and is interrupted by each."""
    return all(is_interrupted_at_each_of(checks, line) for line, checks in CHECKED_LINES.items())


CHECKS = [check_answers, check_sets, check_pools, check_interruptions]


if __name__ == "__main__":
    sys.exit(run(CHECKS))
