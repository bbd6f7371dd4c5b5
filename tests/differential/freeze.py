#!/usr/bin/env python3
"""freeze.py ORACLE [--keep]: writes tests/frozen/cases.txt and answers.txt, the Rust's answers to chosen cases.

First the cases of named.txt, then of the seeds' cases each that shows something of which there are few so far: an answer, a field's
value, a list's length, a pair of slice type and unit type. A chosen case keeps only the sets that its reading looks up.
--keep: the chosen cases stay those of cases.txt; new cases of named.txt join them, and the answers are asked anew.
"""
import collections
import itertools
import pathlib
import random
import sys
import tempfile

HERE = pathlib.Path(__file__).resolve().parent
sys.path.insert(0, str(HERE.parent))

import generate  # noqa: E402
from compare import Sides  # noqa: E402
from rules import answer, table_of  # noqa: E402

SEEDS = range(9001, 9007)
TRIED = 40_000  # cases of each seed
ENOUGH = 2  # of each thing shown
LONGEST = 400  # characters of a line, but for lists and weights


class Looked(dict):
    """A table that notes which sets are looked up."""

    def __init__(self, table):
        super().__init__(table)
        self.seen = set()

    def get(self, key):
        self.seen.add(key)
        return super().get(key)


def reduced(line):
    """The case with only the sets that reading looks up, as they stand at the end; and its answer by the model."""
    *words, unit = line.split()
    table = Looked(table_of(words))
    said = answer(table, b"" if unit == "-" else bytes.fromhex(unit))
    return " ".join([table[key].word() for key in sorted(table.seen, reverse=True) if key in table] + [unit]), said


def size(value):
    """A number by its digits, a list by its length."""
    if value.lstrip("-").isdigit():
        v = int(value)
        return value if -9 <= v <= 9 else f"{'-' if v < 0 else ''}2^{abs(v).bit_length()}"
    return str(value.count(",")) + value[:1]


def shown(line, said):
    """What a case shows."""
    words = said.split()
    first = line.rpartition(" ")[2][:2].strip("-")
    kind = str(int(first, 16) & 31) if first else "nothing"
    if words[0] == "refused":
        length = len(line.rpartition(" ")[2]) // 2
        return {f"refused {words[1]} of {kind}", f"{words[1]} {size(words[2][6:])}", f"{words[1]} in {min(length, 40)} bytes"}
    if words[0] == "other":
        return {said}
    out = {f"{name}={size(value)}" for name, _, value in (w.partition("=") for w in words[1:])}
    return out | {f"{kind} {w}" for w in words if w.startswith(("slice_type", "ext"))}


def chosen():
    seen, r = collections.Counter(), random.Random(0)
    for seed in SEEDS:
        for whole in generate.lines(seed, TRIED):
            line, said = reduced(whole)
            if r.random() < 0.02 and len(whole) < LONGEST:
                line = whole  # some with every set, those out of range too
            new = [x for x in shown(line, said) if seen[x] < ENOUGH]
            if not new or len(line) > (LONGEST if len(new) < 3 else 4 * LONGEST):
                continue
            seen.update(shown(line, said))
            yield line


def main(oracle, *keep):
    frozen = HERE.parent / "frozen"
    named = [line for line in (frozen / "named.txt").read_text().splitlines() if not line.startswith("#")]
    others = (frozen / "cases.txt").read_text().splitlines() if keep else sorted(chosen())
    cases = list(dict.fromkeys(itertools.chain(named, others)))
    with tempfile.TemporaryDirectory() as folder:
        sides = Sides([sys.executable, str(HERE.parent / "rules.py")], oracle, folder)
        answers = [c.rust for c in sides.compared(cases)]
    (frozen / "cases.txt").write_text("\n".join(cases) + "\n")
    (frozen / "answers.txt").write_text("\n".join(answers) + "\n")
    print(f"{len(cases)} cases, {len(named)} of them named")


main(*sys.argv[1:])
