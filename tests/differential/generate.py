#!/usr/bin/env python3
"""generate.py SEED COUNT [sets]: case lines, the same for the same seed: tables drawn at random, and units drawn for each; or parameter sets alone, which need none."""
import pathlib
import random
import sys

sys.path.insert(0, str(pathlib.Path(__file__).resolve().parent.parent))

from rules import table_of  # noqa: E402
from sets import drawn_table  # noqa: E402
from units import drawn_set, drawn_unit  # noqa: E402

UNITS_OF_A_TABLE = 40


def lines(seed, count):
    """The case lines of a seed, without their newlines."""
    r = random.Random(seed)
    while count > 0:
        words = drawn_table(r)
        table, front = table_of(words), " ".join(words) + " "
        for _ in range(min(count, UNITS_OF_A_TABLE)):
            yield front + (drawn_unit(r, table).hex() or "-")
        count -= UNITS_OF_A_TABLE


def sets(seed, count):
    """Case lines of parameter sets."""
    r = random.Random(f"sets {seed}")
    for _ in range(count):
        yield drawn_set(r).hex() or "-"


if __name__ == "__main__":
    for line in (sets if sys.argv[3:] else lines)(int(sys.argv[1]), int(sys.argv[2])):
        print(line)
