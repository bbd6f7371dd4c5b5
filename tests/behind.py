#!/usr/bin/env python3
"""Changes slices behind their headers and checks that the record stays (change request M-109).

    tests/behind.py [--seed S] [--count N] [--cases COMMAND | --model] [CLIP ..]

Each change alters, takes out or puts in bytes after the last raw byte that holds a header bit, most of them right behind it, and often zeros, 03s and end marks.
Half of the changed units are read as they are, half up to the end mark that the change put in, as a walk would. A change that leaves no set bit later than the one
that follows the header promises nothing, and is counted apart. COMMAND is asked as `COMMAND cases FILE` (else $TUZ
is, else ./tuz); with --model, rules.py itself answers. N is the number of changes that promise something; the exit status is 1 where one alters an answer.
"""
import argparse
import os
import pathlib
import random
import shlex
import subprocess
import sys
import tempfile

from rules import END_MARK, cases, sets_in, unescaped, units

ROOT = pathlib.Path(__file__).resolve().parent.parent
ODD = (b"\0", b"\0\0", b"\3", b"\0\0\3", b"\0\0\1", b"\0\0\0", b"\0\3", b"\1", b"\x80", b"\xff")


def start(unit):
    """Where the body begins."""
    return 4 if unit[0] & 31 in (20, 21) else 1


def header_bytes(unit, bits):
    """The raw bytes up to the last that holds one of so many bits of the body: as few as unescape to them all."""
    count = start(unit)
    while 8 * len(unescaped(unit[start(unit) : count])) < bits:
        count += 1
    return count


def more_behind(unit, bits):
    """A set bit stands later than the one that follows the first so many bits of the body."""
    body = unescaped(unit[start(unit) :])
    return int.from_bytes(body, "big") & ((1 << max(8 * len(body) - bits - 1, 0)) - 1) != 0


def change(r, rest):
    """What stands behind a header, changed somewhere."""
    at = r.choice((0, 0, 0, 1, 2, r.randint(0, len(rest))))
    end = at + r.choice((0, 0, 1, 1, 2, 3, len(rest), r.randint(0, len(rest))))
    return rest[:at] + r.choice((b"", r.choice(ODD), r.choice(ODD) + r.choice(ODD), r.randbytes(r.randint(1, 9)))) + rest[end:]


def up_to_mark(unit):
    """The unit that a walk reports where these bytes stand."""
    mark = END_MARK.search(unit)
    return unit[: mark.start()] if mark else unit.rstrip(b"\0")


def answers(command, lines):
    """An answer line for each case line."""
    with tempfile.NamedTemporaryFile("w", suffix=".cases") as file:
        file.write("".join(line + "\n" for line in lines))
        file.flush()
        if not command:
            return list(cases(file.name))
        done = subprocess.run([*command, "cases", file.name], capture_output=True, text=True)
    found = done.stdout.splitlines()
    if len(found) != len(lines):
        raise SystemExit(f"behind: {command[0]}: exit status {done.returncode}, {len(found)} answers for {len(lines)} cases: {done.stderr}")
    return found


def slices(command, clip):
    """The slices of a clip: the words of its sets, the unit, its answer and its header's bits."""
    words = " ".join(sets_in(clip.read_bytes()))
    found = [unit for _, unit in units(clip.read_bytes()) if unit]
    said = answers(command, [f"{words} {unit.hex()}" for unit in found])
    return [(words, unit, line, int(line.rpartition("=")[2])) for unit, line in zip(found, said) if line.startswith("slice")]


def changes(r, known, count):
    """So many case lines that promise the answer beside them, and how many were drawn that do not."""
    lines, idle = [], 0
    while len(lines) < count:
        words, unit, line, bits = r.choice(known)
        border = header_bytes(unit, bits)
        torn = unit[:border] + change(r, unit[border : border + r.choice((4, 40, len(unit)))])
        if r.random() < 0.5:
            torn = up_to_mark(torn)
        if more_behind(torn, bits):
            lines.append((f"{words} {torn.hex()}", line))
        else:
            idle += 1
    return lines, idle


def main():
    p = argparse.ArgumentParser(description=__doc__, formatter_class=argparse.RawDescriptionHelpFormatter)
    p.add_argument("--seed", default="1")
    p.add_argument("--count", type=int, default=100_000)
    p.add_argument("--cases", default=os.environ.get("TUZ", str(ROOT / "tuz")))
    p.add_argument("--model", action="store_true")
    p.add_argument("clips", nargs="*", type=pathlib.Path)
    args = p.parse_args()
    command = [] if args.model else shlex.split(args.cases)
    clips = args.clips or [*sorted((ROOT / "tests/clips").glob("*.264")), ROOT / "demo/night.264"]
    known = [x for clip in clips for x in slices(command, clip)]
    lines, idle = changes(random.Random(args.seed), known, args.count)
    wrong = [(case, want, got) for (case, want), got in zip(lines, answers(command, [case for case, _ in lines])) if want != got]
    for case, want, got in wrong[:5]:
        print(f"behind: {case}\n  must be {want}\n  and is  {got}")
    same = f"NOT the same after {len(wrong):,}" if wrong else "each with the same record"
    print(f"behind: {len(lines):,} changes behind the headers of {len(known)} slices of {len(clips)} clips, {same}; {idle:,} more left no set bit there")
    return 1 if wrong else 0


if __name__ == "__main__":
    sys.exit(main())
