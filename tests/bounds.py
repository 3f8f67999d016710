#!/usr/bin/env python3
"""Runs lines in pools of exactly their room, and lines of few bits: none of them is refused for bytes or for an overflow.

    tests/bounds.py [PROGRAM]

`tests/bounds.txt` has a line, its room in bytes and its bits in a row, parted by tabs; both come from a model apart from
this code.
"""
import sys

from asked import GREATEST_POOL, TOP, answer_and_change, answers, every, run

TABLE = TOP / "tests" / "bounds.txt"
GREATEST_SIZE = 524280
FEW_BITS = 124
# Each with its answer and its room: 1,024 bytes for each node, times 2 for each root.
SMALL_POOLS = [("7", "7", 1024), ("1/3+1/6", "1/2", 7168), ("1/(√(2)+√(3))", "-√(2)+√(3)", 28672), ("(√(2)+√(3))^4", "49+20×√(6)", 28672)]
BEYOND = [
    ("x", "x", "--pool=200"),
    ("√(2)+√(3)+√(5)+√(7)+√(11)+√(13)+√(17)", "√(2)+√(3)+√(5)+√(7)+√(11)+√(13)+√(17)"),
    ("2^(x+1)", "2^(1+x)"),
    ("2^62", "4611686018427387904"),
    ("x^y×x^z", "x^(y+z)"),
]


def rows():
    for row in TABLE.read_text().splitlines():
        line, room, bits = row.split("\t")
        yield line, int(room), int(bits)


def pool_of(room):
    """The least pool in which so many bytes are free: an empty `ans` takes sixteen, and a pool has whole eights."""
    return (room + 16 + 7) // 8 * 8


def check_rooms():
    """No line is Full in a pool of its room."""
    tried = [(line, pool_of(room)) for line, room, _ in rows() if pool_of(room) <= GREATEST_SIZE]
    return len(tried) > 300 and every(lambda line, pool: not answers([line], f"--pool={pool}")[0].startswith("! full"), tried)


def check_bits():
    """No line of few bits overflows, in the greatest pool."""
    tried = [(line,) for line, _, bits in rows() if bits <= FEW_BITS]
    return len(tried) > 300 and every(lambda line: not answers([line], GREATEST_POOL)[0].startswith("! overflow"), tried)


def check_both():
    """A line that has its room and few bits, and is not too deep, is answered by a text."""

    def is_answered(line, pool):
        given = answers([line], f"--pool={pool}")[0]
        return not given.startswith("!") or given == "! deep"

    tried = [(line, pool_of(room)) for line, room, bits in rows() if bits <= FEW_BITS and pool_of(room) <= GREATEST_SIZE]
    return len(tried) > 200 and every(is_answered, tried)


def check_small_pools():
    """In pools of every size up to its room, a line is answered or is Full, with all bytes as at opening; with its room free it
    is answered."""

    def is_held(line, wanted, room, size):
        given, stays = answer_and_change([], line, f"--pool={size}")
        return given == wanted or size < pool_of(room) and given.startswith("! full needed ") and stays

    return all(every(is_held, [(*row, size) for size in range(64, pool_of(row[2]) + 8, 8)]) for row in SMALL_POOLS)


def check_beyond():
    """Lines may be answered below their room, too."""
    return all(answers([line], *words) == [wanted] for line, wanted, *words in BEYOND)


CHECKS = [check_rooms, check_bits, check_both, check_small_pools, check_beyond]

if __name__ == "__main__":
    sys.exit(run(CHECKS))
