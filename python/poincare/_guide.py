"""What the prompt and the notebook tell beyond the answers."""

import re

from . import Answer, Kind, Session

HELP = """\
A line is answered as it stands: 1/(√(2)+√(3)), x+1→y, 0.1+0.2.
For √( and → you may type sqrt( and ->. ans is the last answer.
:draw draws it. :diff x LINE, :solve EQUATIONS, :roots x EQUATION, :expand LINE
and :decimal N LINE calculate.
"""

COMMANDS = (
    ":after", ":decimal", ":diff", ":draw", ":dump", ":expand", ":forget", ":help", ":latex", ":layout", ":names", ":pool", ":roots",
    ":sign", ":solve",
)

# What is a function elsewhere, and here a name like any other.
FUNCTIONS = frozenset(
    "abs acos acosh arccos arcsin arctan asin asinh atan atanh cbrt ceil cos cosh cot csc exp fact floor gcd lcm lg ln log "
    "max min mod round sec sgn sign sin sinh tan tanh".split()
)
NAME_BEFORE_PARENTHESIS = re.compile(r"([A-Za-z][A-Za-z0-9]*)[ \t]*(\(?)")


def help_text(session: Session, word: str = "") -> str:
    """What is told of lines, and of the commands where the library tells of them: of one of them, or of all."""
    commands = session.line(f":help {word}".strip())
    if commands.kind is not Kind.REPORT:
        return HELP
    return f"{commands.text}\n" if word else f"{HELP}{commands.text}\n"


def note_on(line: str, answer: Answer) -> str:
    """A line that says which names are no functions, or nothing. Only a line that is answered has one."""
    if answer.kind in (Kind.REFUSED, Kind.BLANK):
        return ""
    found = NAME_BEFORE_PARENTHESIS.findall(line)
    names = list(dict.fromkeys(name for name, open_ in found if open_ and name.lower() in FUNCTIONS))
    if not names:
        return ""
    told = f"{names[0]} is read as a name" if len(names) == 1 else f"{', '.join(names[:-1])} and {names[-1]} are read as names"
    return f"note: {told}; there are no functions but the root\n"
