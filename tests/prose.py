#!/usr/bin/env python3
"""Whether documents keep to their lengths and are free of phrases that are hard to read.

    tests/prose.py [--list]

A document may have so many words; phrases of a kind may occur in a document so many times. With --list every place is
shown. The last line is 'N passed, M failed'.
"""

import pathlib
import re
import sys

TOP = pathlib.Path(__file__).resolve().parent.parent

# The most words of a document.
WORDS = {"README.md": 1000, "docs/MODEL.md": 4600, "docs/DECISIONS.md": 2400}

# What a plain sentence says otherwise, and how.
HABITS = {
    "stands for being": r"\bstands? (?:in|at|on|behind|before|beside|above|below|there|apart|alone|as)\b|\bstood\b",
    "behind for after": r"\bbehind\b",
    "want for lack": r"\b[Ww]ant of\b|\bwants? (?:a|an|the|no)\b",
    "none either": r"\bnone either\b",
    "of them is known": r"\b[Oo]f (?:them|these|it) is known\b",
    "but for": r"\bbut for\b",
    "that one": r"\bfor none other\b|\bis no longer one\b",
    "wherein": r"\b(?:wherein|whereby|thereof|thereto|therein|whereof)\b",
    "comes of it": r"\bcomes? of it\b|\bwhat becomes of\b",
    "is to be": r"\b(?:is|are) to be\b",
    "no X is": r"\bis no (?:line|token|picture|name|number|text|sum)\b",
}

DOCUMENTS = ["README.md", "docs/MODEL.md", "docs/DECISIONS.md", "docs/CHANGELOG.md", "tests/README.md"]


def prose_of(text):
    """The text without code: blocks and words in code marks tell what is typed and printed."""
    text = re.sub(r"(?m)^ {4}.*$", "", text)
    text = re.sub(r"(?s)```.*?```", "", text)
    return re.sub(r"`[^`]*`", "`", text)


def places_of(name, text):
    for number, line in enumerate(prose_of(text).splitlines(), 1):
        for habit, phrase in HABITS.items():
            for found in re.finditer(phrase, line):
                yield f"{name}:{number}: {habit}: {found[0]}"


def main():
    passed, failed = 0, 0
    for name in DOCUMENTS:
        file = TOP / name
        if not file.exists():
            print(f"{name} is missing")
            failed += 1
            continue
        text = file.read_text()
        count = len(text.split())
        if count > WORDS.get(name, count):
            print(f"{name} has {count} words, and may have {WORDS[name]}")
            failed += 1
        else:
            passed += 1
        places = list(places_of(name, text))
        print(*places, sep="\n", end="\n" if places else "")
        failed += bool(places)
        passed += not places
    print(f"{passed} passed, {failed} failed")
    return 1 if failed else 0


sys.exit(main())
