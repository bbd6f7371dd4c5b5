#!/usr/bin/env python3
"""Tears recordings and checks that reports outside the damage stay the same.

    tests/tears.py [--seed S] [--count N] [--list COMMAND | --model] [CLIP ..]

Each tear turns P M S into P N S: cut off, put over (zeros, noise, bytes from elsewhere in the clip), taken out, put in, at
places and with sizes around sectors of 512 bytes, around start codes, around parameter sets, or anywhere. Checked on both listings:
 - units whose end mark lies wholly in P are reported the same, and no others as such;
 - where both walks come to the first start code of S with equal tables, units whose start code begins in S are reported the same, their places counted from the end;
 - the totals are those of the lines;
 - a torn clip's listing is, line by line, the one that rules.py works out.
N counts the tears after which the tables are equal; the others are told apart. Each clip is torn as it is, with no table; then without its parameter sets, where
the walk starts with them. Without CLIPs, those of tests/clips are torn, and all of them joined: sets of one id, and different, in the middle.
COMMAND is asked as `COMMAND list [--table FILE] CLIP` (else $TUZ is, else ./tuz); with --model, rules.py itself lists. A clip torn against the promise is kept, and
the exit status is 1.
"""
import argparse
import os
import pathlib
import random
import shlex
import subprocess
import sys
import tempfile

from rules import listing, sets_in, table_of, units, walk

CLIPS = pathlib.Path(__file__).resolve().parent / "clips"
SECTOR = 512
CODE = b"\0\0\1"
MARKS = (b"\0\0\0", CODE)
SETS = (7, 8)


def reports(lines):
    """Place, length and the rest of each unit line; the totals must be theirs."""
    out = []
    for line in lines[:-1]:
        _, place, length, said = line.split(" ", 3)
        out.append((int(place[6:]), int(length[7:]), said))
    refused = sum(said.startswith("refused") for _, _, said in out)
    if lines[-1] != f"end units={len(out)} refused={refused}":
        raise SystemExit(f"tears: {len(out)} units, {refused} refused, but the last line is {lines[-1]!r}")
    return out


def early(found, recording, border):
    """The reports of units whose end mark lies wholly before the border."""
    return [x for x in found if x[0] + x[1] + 3 <= border and recording[x[0] + x[1] :][:3] in MARKS]


def late(found, recording, border):
    """The reports of units whose start code begins at the border or later, places counted from the end."""
    return [(len(recording) - place, length, said) for place, length, said in found if place - 3 >= border]


def table_at(table, recording, border):
    """The table with which a walk comes to the border."""
    table = dict(table)
    for place, _, _ in walk(table, recording):
        if place > border:
            break
    return table


def without_sets(recording):
    """The units that are no parameter sets, each behind a start code."""
    return b"".join(b"\0" + CODE + unit for _, unit in units(recording) if not unit or unit[0] & 31 not in SETS)


def place_in(r, clip, sets):
    x = r.random()
    if x < 0.3:
        at = SECTOR * r.randrange(len(clip) // SECTOR + 1) + r.choice((0, 0, 0, -1, 1, 2))
    elif x < 0.6:
        at = clip.find(CODE, r.randrange(len(clip))) + r.randint(-2, 6)
    elif x < 0.8 and sets:
        at = r.choice(sets) + r.randint(-6, 30)
    else:
        at = r.randrange(len(clip) + 1)
    return min(max(at, 0), len(clip))


def tear(r, clip, sets):
    """The two borders of the damage, what stands between them now, and a name for it."""
    at = place_in(r, clip, sets)
    size = r.choice((1, 2, 3, 4, SECTOR - 1, SECTOR, SECTOR, SECTOR, SECTOR + 1, 2 * SECTOR, r.randint(1, 5000)))
    end = min(at + size, len(clip))
    what = r.choice(("cut", "zeros", "noise", "elsewhere", "taken out", "put in", "repeated"))
    other = r.choice(sets) - 4 if sets and r.random() < 0.3 else r.randrange(len(clip))
    now = {
        "cut": b"",
        "zeros": bytes(end - at),
        "noise": r.randbytes(end - at),
        "elsewhere": clip[other : other + end - at],
        "taken out": b"",
        "put in": r.choice((bytes(size), r.randbytes(size), CODE * size, clip[other : other + size])),
        "repeated": clip[at:end] * 2,
    }[what]
    end = {"cut": len(clip), "put in": at}.get(what, end)
    return at, end, now, f"{what} at {at}, {end - at} bytes before, {len(now)} now"


class Lister:
    """Lists recordings by a table that the walk starts with."""

    def __init__(self, command, folder, words):
        self.command, self.sets, self.given = command, table_of(words), []
        self.file = pathlib.Path(folder) / "torn.264"
        if words:
            table = pathlib.Path(folder) / "table"
            table.write_text("\n".join(words) + "\n")
            self.given = ["--table", str(table)]

    def of(self, recording):
        if not self.command:
            return list(listing(self.sets, recording))
        self.file.write_bytes(recording)
        done = subprocess.run([*self.command, "list", *self.given, str(self.file)], capture_output=True, text=True)
        if done.returncode == 2 and CODE not in recording:
            return ["end units=0 refused=0"]  # the command says that this is no recording
        if not done.stdout:
            raise SystemExit(f"tears: {self.command[0]}: exit status {done.returncode}: {done.stderr}")
        return done.stdout.splitlines()


def torn_often(r, name, clip, lister, count):
    """Tears a clip until so many tears have left the tables equal; how many broke the promise."""
    sets = [place for place, unit in units(clip) if unit and unit[0] & 31 in SETS]
    whole = reports(lister.of(clip))
    equal = apart = outside = lost = broken = 0
    while equal < count:
        at, end, now, what = tear(r, clip, sets)
        torn = clip[:at] + now + clip[end:]
        lines = lister.of(torn)
        found = reports(lines)
        before, after = early(whole, clip, at), late(whole, clip, end)
        same = before == early(found, torn, at)
        code, moved = clip.find(CODE, end), at + len(now) - end
        if code < 0 or table_at(lister.sets, clip, code) == table_at(lister.sets, torn, code + moved):
            equal += 1
            outside += len(before) + len(after)
            lost += len(whole) - len(before) - len(after)
            same &= after == late(found, torn, at + len(now))
        else:
            apart += 1
        if not same or lines != list(listing(lister.sets, torn)):
            kept = pathlib.Path(tempfile.gettempdir()) / f"torn-{name.partition('.')[0]}-{at}.264"
            kept.write_bytes(torn)
            why = "the listing is not the model's" if same else "reports outside the damage differ"
            print(f"tears: {name}: {what}: {why}; kept as {kept}")
            broken += 1
    same = "all the same" if not broken else f"NOT as promised after {broken} tears"
    touched = f"a tear touches {lost / count:.1f} of {len(whole)} units"
    print(f"tears: {name}: {count} tears, {outside:,} reports outside the damage, {same}; {touched}; {apart} more left another table")
    return broken


def main():
    p = argparse.ArgumentParser(description=__doc__, formatter_class=argparse.RawDescriptionHelpFormatter)
    p.add_argument("--seed", default="1")
    p.add_argument("--count", type=int, default=200)
    p.add_argument("--list", default=os.environ.get("TUZ", str(CLIPS.parent.parent / "tuz")))
    p.add_argument("--model", action="store_true")
    p.add_argument("clips", nargs="*", type=pathlib.Path)
    args = p.parse_args()
    r, faults = random.Random(args.seed), 0
    command = [] if args.model else shlex.split(args.list)
    clips = {path.name: path.read_bytes() for path in args.clips or sorted(CLIPS.glob("*.264"))}
    if not args.clips:
        clips["joined"] = b"".join(clips.values())
    with tempfile.TemporaryDirectory() as folder:
        for name, clip in clips.items():
            faults += torn_often(r, name, clip, Lister(command, folder, []), args.count)
        clips.pop("joined", None)  # no one table would serve it
        for name, clip in clips.items():
            lister = Lister(command, folder, sets_in(clip))
            faults += torn_often(r, f"{name} without sets", without_sets(clip), lister, args.count)
    return 1 if faults else 0


sys.exit(main())
