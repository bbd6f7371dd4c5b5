#!/usr/bin/env python3
"""Parameter sets that are cut, flipped, or as long as they get: each answered as the model in rules.py answers it, and at once.

    tests/sets.py [--cases COMMAND | --model]

Every cut and every flipped bit of each set that stands in demo/ and tests/clips; slice groups of type 6 that name from 1 to 2^32 - 1 ids before bodies of any length; sets of
65,536 bytes. The model is also asked with a byte too little of scratch: 26. COMMAND is asked as `COMMAND cases FILE` (else $TUZ is, else ./tuz), and has 10 seconds for all of them; with --model, rules.py answers, and only the
sums are told. The exit status is 1 where an answer is another.
"""
import argparse
import os
import pathlib
import shlex
import subprocess
import sys
import tempfile
import time

from codes import escaped, packed, se, u, ue
from rules import answer, cases, units

ROOT = pathlib.Path(__file__).resolve().parent.parent
LONG = 65_536
SECONDS = 10


def real():
    """The sets of the clips, each once."""
    found = {}
    for clip in [ROOT / "demo/night.264", *sorted((ROOT / "tests/clips").glob("*.264"))]:
        found.update({unit: None for _, unit in units(clip.read_bytes()) if unit and unit[0] & 31 in (7, 8)})
    return list(found)


def torn(unit):
    yield unit
    for n in range(1, len(unit)):
        yield unit[:n]
    for i in range(8, 8 * len(unit)):
        yield (int.from_bytes(unit, "big") ^ 1 << 8 * len(unit) - 1 - i).to_bytes(len(unit), "big")


def grouped(groups, count, rest):
    """A picture set with slice groups of type 6: so many ids are told, and these bytes follow."""
    return b"\x68" + escaped(packed(ue(0) + ue(0) + "00" + ue(groups) + ue(6) + ue(count)) + rest)


def huge():
    """Counts around each power of two, with too few bytes for them, as many as are needed, and more."""
    for groups in (1, 2, 3, 4, 7):
        width = groups.bit_length()
        for power in range(33):
            for count in (n for n in (2**power - 2, 2**power - 1, 2**power) if 0 <= n < 2**32 - 1):
                needed = (count + 1) * width // 8
                for length in {0, 1, 2, 7, needed - 1, needed, needed + 1, needed + 9}:
                    if 0 <= length <= 4_000:
                        yield grouped(groups, count, b"\xa5" * length)
        for count in (0, 174_000, 2**32 - 2):
            yield grouped(groups, count, b"\xa5" * LONG)[:LONG]


def long_sets():
    """Sets of 65,536 bytes: what follows the last field, a cycle of the widest codes, every scaling list with the widest deltas."""
    front = u(8, 66) + u(8, 0) + u(8, 30) + ue(0) + ue(0)
    end = ue(1) + "0" + ue(10) + ue(8) + "1"
    wide = se(-2_147_483_647)
    lists = "".join("1" + (se(-128) + se(127)) * ((16 if i < 6 else 64) // 2) for i in range(12))
    high = u(8, 244) + u(8, 0) + u(8, 30) + ue(0) + ue(3) + "0" + ue(0) + ue(4_294_967_294) + "0" + "1" + lists + ue(0)
    for bits in (front + ue(2) + end, front + ue(1) + "1" + wide + wide + ue(255) + wide * 255 + end, high + ue(2) + end):
        for fill in (b"\xff", b"\0", b"\0\1", b"\x80"):
            yield (b"\x67" + escaped(packed(bits) + fill * LONG))[:LONG]


def main():
    p = argparse.ArgumentParser(description=__doc__, formatter_class=argparse.RawDescriptionHelpFormatter)
    p.add_argument("--cases", default=os.environ.get("TUZ", str(ROOT / "tuz")))
    p.add_argument("--model", action="store_true")
    args = p.parse_args()
    lines = [unit.hex() for set in real() for unit in torn(set)] + [unit.hex() for unit in (*huge(), *long_sets())]
    with tempfile.NamedTemporaryFile("w", suffix=".cases") as file:
        file.write("".join(line + "\n" for line in lines))
        file.flush()
        wanted = list(cases(file.name))
        start, found = time.monotonic(), wanted
        if not args.model:
            done = subprocess.run([*shlex.split(args.cases), "cases", file.name], stdout=subprocess.PIPE, text=True, timeout=600)
            found = done.stdout.splitlines()
    took = time.monotonic() - start
    short = {unit for unit in map(bytes.fromhex, lines) if unit[0] & 0x9F in (7, 8) and answer({}, unit, scratch=len(unit) - 1) != f"refused 26 value={len(unit)}"}
    if short:
        print(f"sets: {len(short)} sets are read without scratch")
    wrong = [(line, got, want) for line, got, want in zip(lines, found, wanted) if got != want]
    for line, got, want in sorted(wrong, key=lambda w: len(w[0]))[:5]:
        print(f"sets: {line[:200]}\n    {got}\n    wanted: {want}")
    good = sum(line[:3] in ("sps", "pps") for line in wanted)
    print(f"sets: {len(lines):,} parameter sets, {good:,} of them read, {len(wrong)} otherwise than the model has them; {took:.1f} s")
    return bool(wrong or short) or len(found) != len(lines) or took > SECONDS


sys.exit(main())
