#!/usr/bin/env python3
"""`tuz kinds` lists what the rules' model in Python works out: on the clips, torn and whole, and on recordings that are made here of units with every first byte; with start codes, and
the same units by length, cut or with a length changed now and then.

    tests/kinds.py [--seed S] [--count N] [--port PROGRAM]

Its JSON and its CSV tell the same units. For a head that is not refused, the type is also the one that `tuz list` tells of a unit of another type, and every refusal of
a head is one of the listing. Exits non-zero and says what differs.
"""
import argparse
import csv
import io
import json
import os
import pathlib
import random
import subprocess
import sys
import tempfile

from framed import behind_lengths, damaged, walk
from rules import kinds, listing, table_of, units

ROOT = pathlib.Path(__file__).resolve().parent.parent
CODE = b"\0\0\1"
FIRST = (0x6E, 0x0E, 0x74, 0x14, 0x75, 0x15, 0x65, 0x41, 0x67, 0x68, 0x09, 0xE5)


def generated(r):
    """Units of up to seven bytes behind start codes of three or four: first bytes of every kind, short extensions, zeros at their ends, units without a byte."""
    out = r.randbytes(r.randrange(3))
    for _ in range(r.randrange(1, 40)):
        first = r.choice(FIRST) if r.random() < 0.6 else r.randrange(256)
        unit = bytes([first]) + bytes(r.choice((0, 1, 3, 0x40, 0x80, 0xC0, r.randrange(256))) for _ in range(r.randrange(7)))
        out += bytes(r.randrange(3)) + CODE + unit[: r.choice((0, 1, 2, 3, 4, 7))]
    return out + bytes(r.randrange(4))


def torn(r, clip):
    at = r.randrange(len(clip))
    return clip[:at] + r.choice((b"", bytes(600), r.randbytes(600), CODE * 5)) + clip[at + r.randrange(700) :]


class Port:
    def __init__(self, program, folder):
        self.program, self.file = program, pathlib.Path(folder) / "clip.264"

    def tell(self, recording, *words, said=""):
        self.file.write_bytes(recording)
        done = subprocess.run([self.program, "kinds", str(self.file), "--force", "-q", *words], capture_output=True, text=True)
        if done.returncode or done.stderr != said:
            sys.exit(f"kinds: exit status {done.returncode}: {done.stderr}")
        return done.stdout


def text(unit):
    """An object of JSON, or a row of CSV, as a line of text."""
    line = f"unit place={unit['place']} length={unit['length']} "
    if unit["answer"] == "refused":
        return line + f"refused {unit['refusal']} value={unit['value']}"
    line += f"type={unit['type']} nal_ref_idc={unit['nal_ref_idc']}"
    return line + (f" ext={unit['ext']} {unit['ext_bytes']}" if unit.get("ext") else "")


def differs(port, recording, wanted, *words, said=""):
    """What differs from these lines in one of the three forms, or nothing. Beside JSON and CSV a broken length is `said` on standard error."""
    found = [line for line in wanted if line.startswith("unit ")]
    if port.tell(recording, *words).splitlines() != wanted:
        return "the lines are not the model's"
    if [text(json.loads(line)) for line in port.tell(recording, *words, "--format", "json", said=said).splitlines()] != found:
        return "JSON tells something else"
    if [text(row) for row in csv.DictReader(io.StringIO(port.tell(recording, *words, "--format", "csv", said=said)))] != found:
        return "CSV tells something else"
    return None


def fault_by_length(port, recording):
    """The same, of a recording framed by length."""
    found, broken = walk(recording)
    why = "fewer bytes are left than it says, or than it has"
    said = "" if broken is None else f"tuz: {port.file}: refused 29: the length at place {broken} is broken: {why}\n"
    return differs(port, recording, list(kinds(found, broken)), "--framing", "length", said=said)


def fault(port, recording):
    """What differs, or nothing."""
    wanted = list(kinds(units(recording)))
    told = differs(port, recording, wanted)
    if told:
        return told
    for kind, unit in zip(wanted, listing(table_of([]), recording)):
        other, refused = " other " in unit, " refused " in kind
        if other and kind.split(" nal_ref_idc")[0] != unit.replace(" other", "") or refused and kind != unit:
            return f"the listing says {unit!r}, and the kinds {kind!r}"
    return None


def main():
    p = argparse.ArgumentParser(description=__doc__, formatter_class=argparse.RawDescriptionHelpFormatter)
    p.add_argument("--seed", default="1")
    p.add_argument("--count", type=int, default=300)
    p.add_argument("--port", default=os.environ.get("TUZ", str(ROOT / "rust/target/release/tuz")))
    args = p.parse_args()
    r, count, seen, broken = random.Random(args.seed), 0, 0, 0
    clips = [c.read_bytes() for c in [ROOT / "demo/torn.264", *sorted((ROOT / "tests/clips").glob("*.264"))]]
    firsts = b"".join(CODE + bytes([b]) + b"\x80\x40\x07\x80" for b in range(256))
    recordings = [*clips, firsts, *(torn(r, r.choice(clips)) for _ in range(args.count // 10)), *(generated(r) for _ in range(args.count))]
    with tempfile.TemporaryDirectory() as folder:
        port = Port(args.port, folder)
        for recording in recordings:
            bodies = behind_lengths(unit for _, unit in units(recording)) or bytes(4)
            framed = (count % 2 and damaged(r, bodies)[0]) or bodies
            told = fault(port, recording) or fault_by_length(port, framed)
            if told:
                kept = pathlib.Path(tempfile.gettempdir()) / f"kinds-{count}.264"
                kept.write_bytes(recording)
                sys.exit(f"kinds: {told}; kept as {kept}, and by length {framed.hex()}")
            count += 1
            seen += sum(1 for _ in units(recording))
            broken += walk(framed)[1] is not None
    print(f"kinds: {seen:,} units of {count} recordings, as the model lists them, in text, JSON and CSV; and by length, where {broken} have a broken one")


main()
