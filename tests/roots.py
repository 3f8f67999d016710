#!/usr/bin/env python3
"""Runs `:roots`: answers of a model, equations made of known roots, `sympy`, pools of every size, and interruptions.

    tests/roots.py [PROGRAM]

`tests/roots.txt` has 2,000 equations as `tests/sessions.txt` has its lines; their answers come from a model apart from
this code. The first 600 are also given to `sympy`: its real roots are those that are told, each as often as it is a root,
and where the answer is `! degree`, what its rational roots leave has degree 3 at least. In 1,000 more the roots are known
before the equation is.
"""
import random
import sys
from fractions import Fraction

from asked import GREATEST_POOL, answers, are_answered, is_interrupted_at_each_of, least_of, names_in, parsed, run, sessions
from asked import sympy as installed_sympy

TABLE = "roots.txt"
COMPARED = 600
MADE = 1000
# The magnitudes of numerators and denominators within which rational roots are sought.
TRIED = 1000

POOL_LINES = [
    ":roots x x=1", ":roots x x^2=2", ":roots x x^2=x+1", ":roots x 3x^2+6x=1", ":roots x (x-1)^3=0", ":roots x x^5=x^3", ":roots x x=x",
    ":roots x 170141183460469231731687303715884105727×x^2=1", ":roots x x^2+1=0", ":roots x x^3=2", ":roots x x=y",
]
MOST_NEEDED = 1024

# Each with its nodes: those of both sides, and one for their difference.
CHECKED_LINES = {":roots x x=1": 3, ":roots x x^2=x+1": 7, ":roots x 0=0": 3, ":roots x 2×x^2-x=0": 9, ":roots x x^3=2": 5}


def check_answers():
    """The answers are those of the model."""
    return are_answered(TABLE, GREATEST_POOL)


# ---- equations made of their roots

def fraction(source, most, greatest_denominator):
    return Fraction(source.randint(-most, most), source.randint(1, greatest_denominator))


def rational_roots(source):
    """Rational roots in rising order, some of them more than once."""
    roots = [fraction(source, 30, 12) for _ in range(source.randint(0, 4))]
    return sorted(roots + [root for root in roots if source.random() < 0.2][:1])


def last_pair(source):
    """The middle, the distance and the radicand of two irrational roots."""
    distance = abs(fraction(source, 9, 6)) or Fraction(1)
    return fraction(source, 9, 6), distance, source.choice([2, 3, 5, 6, 7, 10, 11, 13, 105, 10**6 + 3])


def times(left, right):
    """The product of two polynomials, each the list of its coefficients from that of the power 0 on."""
    product = [Fraction(0)] * (len(left) + len(right) - 1)
    for i, a in enumerate(left):
        for j, b in enumerate(right):
            product[i + j] += a * b
    return product


def polynomial_of(source, rational, pair):
    """A polynomial with these roots and no others."""
    product = [fraction(source, 9, 5) or Fraction(1)]
    for root in rational:
        product = times(product, [-root, Fraction(1)])
    if pair:
        middle, distance, radicand = pair
        product = times(product, [middle**2 - distance**2 * radicand, -2 * middle, Fraction(1)])
    elif source.random() < 0.3:
        half = fraction(source, 9, 4)
        product = times(product, [half**2 + source.randint(1, 9), 2 * half, Fraction(1)])
    return product


def typed(coefficients):
    return "+".join(f"({c.numerator}/{c.denominator})×x^{k}" if k else f"({c.numerator}/{c.denominator})" for k, c in enumerate(coefficients))


def equation_of(source, polynomial):
    """An equation whose sides differ by the polynomial."""
    right = [fraction(source, 9, 3) if source.random() < 0.5 else Fraction(0) for _ in polynomial]
    left = [a + b for a, b in zip(polynomial, right)]
    return f"{typed(left)}={typed(right)}"


def numbers_of(rational, pair):
    """The roots as lines of their own, in the order in which they are told."""
    lines = [f"{root.numerator}/{root.denominator}" for root in rational]
    if pair:
        middle, distance, radicand = pair
        lines += [f"{middle}{sign}({distance})×√({radicand})" for sign in "-+"]
    return lines


def check_made():
    """Of equations that are made of known roots these roots are told, and no others."""
    source = random.Random(80)
    made = [(rational_roots(source), last_pair(source) if source.random() < 0.4 else None) for _ in range(MADE)]
    asked = [f":roots x {equation_of(source, polynomial_of(source, *roots))}" for roots in made]
    texts = iter(answers([line for roots in made for line in numbers_of(*roots)], GREATEST_POOL))
    wanted = [";".join(f"x={next(texts)}" for _ in numbers_of(*roots)) or "none" for roots in made]
    told = 0
    for line, want, given in zip(asked, wanted, answers(asked, GREATEST_POOL)):
        if given.startswith("! overflow"):
            continue
        if given != want:
            print(f"{line}: {given} is not {want}")
            return False
        told += 1
    return told > MADE * 9 // 10


# ---- sympy

def leaves_much(polynomial):
    """Whether degree 3 or more is left once the rational roots within the bound are divided out."""
    left = polynomial.degree()
    for factor, times_it_divides in polynomial.factor_list()[1]:
        if factor.degree() == 1:
            root = -factor.nth(0) / factor.nth(1)
            left -= times_it_divides if max(abs(root.p), root.q) <= TRIED else 0
    return left > 2


def number_in(text):
    """A told root as sympy has it."""
    return installed_sympy().sympify(text.replace("×", "*").replace("√", "sqrt"), rational=True)


def is_right(name, equation, given):
    """Whether an answer is what sympy finds. It has nothing to say where the line is refused otherwise."""
    sympy = installed_sympy()
    symbol = sympy.Symbol(name)
    left, right = (parsed(side, {name: symbol}) for side in equation.split("="))
    polynomial = sympy.Poly(left - right, symbol)
    if given == "! degree":
        return polynomial.degree() > 32 or leaves_much(polynomial)
    if given == f"{name} free" or polynomial.is_zero:
        return given == f"{name} free" and polynomial.is_zero
    found = sympy.real_roots(polynomial) if polynomial.degree() > 0 else []
    told = [number_in(piece.partition("=")[2]) for piece in given.split(";")] if given != "none" else []
    return len(told) == len(found) and all(sympy.expand(a - b) == 0 for a, b in zip(sorted(told), sorted(found)))


def check_sympy():
    """The roots are those of sympy."""
    lines = [line for table, _ in sessions(TABLE) for line in table][:COMPARED]
    compared = 0
    for line, given in zip(lines, answers(lines, GREATEST_POOL)):
        name, equation = line.split(None, 2)[1:]
        if name == "ans" or (given.startswith("!") and given != "! degree") or names_in(equation) - {name}:
            continue
        if not is_right(name, equation, given):
            print(f"{line}: {given}")
            return False
        compared += 1
    return compared > COMPARED * 3 // 4


# ---- pools and checks

def check_pools():
    """In pools of every size an equation is answered as in a large one, or is Full; the pool is as it was."""
    for line in POOL_LINES:
        if least_of(range(64, MOST_NEEDED, 8), line) is None:
            print(line)
            return False
    return True


def check_interruptions():
    """An equation has one check for each node of its sides, and one more. It is interrupted by each, with the pool as it
    was, and answered where none is left."""
    return all(is_interrupted_at_each_of(checks, line) for line, checks in CHECKED_LINES.items())


CHECKS = [check_answers, check_made, check_sympy, check_pools, check_interruptions]

if __name__ == "__main__":
    sys.exit(run(CHECKS))
