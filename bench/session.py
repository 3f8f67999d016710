"""The generated session of 2,000 lines, and the 1,750 of them that store nothing beside other programs.

Each of the others is asked for a normal form, as far as it is installed: GiNaC's `ginsh` by `normal`, which leaves roots in
divisors; `maxima` by `ratsimp` and Python's `sympy` by `radsimp`, which clear them.
"""
import shutil
import sys

from timed import Row, least, least_wall, plain, resident_kilobytes

# The lines of each eight, by their place from 1 on. The seventh is a store.
KINDS = {
    1: "{a}/{b}+{b}/{a}",
    2: "√({a})+√({b})",
    3: "1/(√({a})+√({b}))",
    4: "({a}+√({b}))^3",
    5: "{a}×x+{b}×x-√({a})×x",
    6: "(x+{a})^2/(x+{b})",
    7: "{a}/{b}→y",
    0: "y×√({b})+x",
}

COUNT = 2000

SYMPY = """
import sys
import sympy
names = {name: sympy.Symbol(name) for name in "xy"}
for line in sys.stdin:
    print(sympy.radsimp(sympy.expand(sympy.sympify(line, locals=names))))
"""


def lines(count, number=1):
    """The lines of a generated session: two small numbers, drawn by a linear congruence, in each of the eight forms in turn."""
    state = number % 65537
    for place in range(1, count + 1):
        state = (75 * state + 74) % 65537
        yield KINDS[place % 8].format(a=state % 97 + 1, b=state // 97 % 89 + 1)


def peers():
    """Each other program that is there, with its words and its input."""
    session = [plain(line) for line in lines(COUNT) if "→" not in line]
    if shutil.which("ginsh"):
        yield "ginsh", ["ginsh"], [f"normal({line});" for line in session]
    if shutil.which("maxima"):
        asked = ["algebraic:true$", "display2d:false$"] + [f"ratsimp({line});" for line in session]
        yield "maxima", ["maxima", "--very-quiet"], asked
    try:
        import sympy  # noqa: F401
    except ImportError:
        return
    yield "sympy", [sys.executable, "-c", SYMPY], [line.replace("^", "**") for line in session]


def rows(program, runs):
    """The measures of the session."""
    whole = "".join(f"{line}\n" for line in lines(COUNT))
    yield Row("session made in place, wall time", least_wall([program, "--gen", "1"], "", runs) * 1000, "ms")
    yield Row("session read, wall time", least_wall([program], whole, runs) * 1000, "ms")
    yield Row("session read, processor time", least([program], whole, runs) * 1000, "ms")
    plain_lines = "".join(f"{line}\n" for line in lines(COUNT) if "→" not in line)
    own = least([program], plain_lines, runs)
    ratios, memory = {}, {}
    own_memory = resident_kilobytes([program], plain_lines)
    for name, command, asked in peers():
        text = "".join(f"{line}\n" for line in asked)
        # A program that takes seconds is run once.
        times = [least(command, text, 1)]
        times += [least(command, text, runs)] if times[0] < 1 else []
        ratios[name] = min(times) / own
        memory[name] = resident_kilobytes(command, text) / own_memory
    yield Row("1,750 lines that store nothing, processor time", own * 1000, "ms", ratios)
    yield Row("their resident memory", own_memory / 1000, "MB", memory)
    yield Row("resident for `1+1`", resident_kilobytes([program], "1+1\n" * 2000) / 1000, "MB")
