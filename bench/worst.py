"""Long lines of single kinds, each in a process of its own: its processor time, and the session's in the same run over it.

A run that takes more than 30 seconds is broken off.
"""
import itertools
import string

from timed import Row, least

LIMIT = 30

LONGEST = 1024

GREATEST_POOL = ["--pool", "524280"]

PRIMES = [2503, 2521, 2531, 2539, 2543, 2549, 2551, 2557, 2579, 2591, 2593]

LARGER_PRIMES = [10007, 10009, 10037, 10039, 10061, 10067, 10069, 10079]


def names(count):
    """Distinct names of two letters, in no order of their letters."""
    pairs = itertools.product(string.ascii_lowercase, repeat=2)
    return [second + first for first, second in itertools.islice(pairs, count)]


def product(factors):
    return "*".join(factors)


def roots(radicands):
    return "+".join(f"√({radicand})" for radicand in radicands)


def equal_behind_others(distinct, others, middle=()):
    return product(names(distinct) + list(middle) + others)


def tower(length):
    """A name to the power of a name, and so on."""
    return "^".join(["x", "y"] + ["z"] * (length - 2))


def single_lines():
    yield "200 names, 200 times x", [], equal_behind_others(200, ["x"] * 200)
    yield "163 names, a tower, 230 times w", [], equal_behind_others(163, ["w"] * 230, [tower(36)])
    yield "8 roots ^12", [], f"({roots(LARGER_PRIMES)})^12"
    yield "11 roots ^12, greatest pool", GREATEST_POOL, f"({roots(PRIMES)})^12"
    for count in range(4, 12):
        yield f"{count} roots ^4", [], f"({roots(PRIMES[:count])})^4"


def series():
    """Each kind with its sizes and the line of a size."""
    yield "n names multiplied", (40, 80, 160, 320), lambda n: product(names(n))
    yield "n times one name", (64, 128, 256, 512), lambda n: product(["x"] * n)
    yield "n names, n times one", (25, 50, 100, 200), lambda n: equal_behind_others(n, ["x"] * n)
    yield "each of n names twice", (20, 40, 80, 160), lambda n: product(names(n) * 2)
    yield "n names divided", (15, 30, 60), lambda n: "/".join(names(n))
    yield "n sums multiplied", (16, 32, 64, 128), lambda n: product(f"({a}+{b})" for a, b in zip(names(2 * n)[::2], names(2 * n)[1::2]))
    yield "n names added", (40, 80, 160, 320), lambda n: "+".join(names(n))
    yield "n times one name added", (64, 128, 256, 512), lambda n: "+".join(["x"] * n)
    yield "n roots added", (16, 32, 64, 113), lambda n: roots(range(2, n + 2))


def rows(program, runs):
    """The time of each line: of single ones, and then of each kind by its sizes."""
    session = least([program, "--gen", "1"], "", runs)
    yield Row("generated session", session * 1000, "ms")
    found = list(single_lines())
    for kind, sizes, line_of in series():
        found += [(f"{kind}, n = {size}", [], line_of(size)) for size in sizes]
    for name, words, line in found:
        assert len(line.encode()) <= LONGEST, name
        seconds = least([program, *words], line + "\n", runs, LIMIT)
        if seconds is None:
            yield Row(name, None, "ms", note=f"more than {LIMIT} s")
        else:
            yield Row(name, seconds * 1000, "ms", {"session": session / seconds})
