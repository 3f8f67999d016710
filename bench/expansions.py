"""34 polynomials expanded, one line 100 times by a process of its own, beside GiNaC's `ginsh` and `maxima`.

A time is that of one expansion, starting up left out: the least processor time of the runs less what a process takes that reads
nothing. The pool has 65,536 bytes, which hold each polynomial and its face.
"""
import shutil
import subprocess

from timed import Row, least, plain

TIMES = 100

LINES = [
    "(1+x)^32", "(x+y+z)^12", "(a+b+c+d)^6×(a-b)^3", "(x-1)^31×(x+1)", "(1+x)^16×(1-x)^16", "(1+x+x^2)^16", "(x+1/2)^20",
    "(2x/3-3/5)^12", "(x+y)^32", "(x-y)^24×(x+y)", "(x+2y+3z)^8", "(a+b+c)^10", "(a+b+c+d)^7", "(a+b+c+d+e)^5",
    "(a+b+c+d+e+f)^4", "(a-b)×(b-c)×(c-d)×(d-a)", "((x+1)^2+1)^8", "(((x+1)^2+1)^2+1)^4", "(x+y)^8-(x-y)^8",
    "(a+b+c)^6-(a-b-c)^6", "(x+1)×(x+2)×(x+3)×(x+4)×(x+5)×(x+6)×(x+7)×(x+8)", "(x^2+x×y+y^2)^10", "(x×y+y×z+z×x)^8",
    "(1+x×y×z)^20", "(a×b+c×d)^16", "(x^3-1)^10×(x^3+1)^10", "x×(x+1)^10-(x+1)^11", "(a+1)^5×(b+1)^5×(c+1)^3",
    "(x+y+1)^10", "(x/2+y/3+z/5)^6", "(x+1)^4×(y+1)^4×(z+1)^4", "(x-2)^15+(2-x)^15", "(a+b)^4×(c+d)^4", "3×(x+y)/7-(x-y)/2",
]

SUMS = ["1+x", "x+y", "x+y+z", "a+b+c+d", "a+b+c+d+e"]

GREATEST_EXPONENT = 32


def programs(program):
    """Each program with its words, what it reads first, and how it is asked to expand a line."""
    yield "poincare", [program, "--pool", "65536"], "", ":expand {}\n".format
    if shutil.which("ginsh"):
        yield "ginsh", ["ginsh"], "", lambda line: f"expand({plain(line)});\n"
    if shutil.which("maxima"):
        yield "maxima", ["maxima", "--very-quiet"], "display2d:false$\n", lambda line: f"expand({plain(line)});\n"


def with_signs(line):
    """A factor beside a name has its sign, which the others want."""
    for digit in "0123456789":
        for letter in "xyz":
            line = line.replace(digit + letter, f"{digit}×{letter}")
    return line


def row_of(name, times):
    own, *_ = times.values()
    ratios = {peer: seconds / own for peer, seconds in times.items() if peer != "poincare"}
    return Row(name, own * 1e6, "µs", ratios)


def is_refused(command, line):
    """Whether a line is refused by the program with these words."""
    return subprocess.run(command, input=line.encode(), stdout=subprocess.PIPE, check=True).stdout.startswith(b"!")


def greatest(program, terms):
    """The highest power of a sum that the default pool holds."""
    held = 0
    for exponent in range(1, GREATEST_EXPONENT + 1):
        line = f":expand ({terms})^{exponent}\n"
        if is_refused([program], line):
            break
        held = exponent
    return held


def rows(program, runs):
    """The time of each expansion and of all, the lines at which `ginsh` is faster, and the highest powers."""
    told = list(programs(program))
    bare = {name: least(words, first, runs) for name, words, first, _ in told}
    totals, slower = dict.fromkeys(bare, 0), 0
    for line in map(with_signs, LINES):
        if is_refused(told[0][1], told[0][3](line)):
            raise SystemExit(f"{line} is not expanded")
        times = {}
        for name, words, first, asked in told:
            seconds = least(words, first + asked(line) * TIMES, runs) - bare[name]
            times[name] = max(seconds, 1e-6) / TIMES
            totals[name] += times[name]
        slower += times.get("ginsh", times["poincare"]) < times["poincare"]
        yield row_of(f"`{line}`", times)
    yield row_of("34 expansions", totals)
    if "ginsh" in totals:
        yield Row("expansions at which `ginsh` is faster", slower, "of 34")
    for terms in SUMS:
        yield Row(f"highest power of `{terms}` in the default pool", greatest(program, terms), "")
