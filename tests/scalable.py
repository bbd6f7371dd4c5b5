#!/usr/bin/env python3
"""Prefix units (type 14): those of a scalable clip that OpenH264 made, and many that are made here from field values.

    tests/scalable.py [--cases COMMAND | --model]

Each prefix unit of tests/clips/scalable.264 must read, and up to a clear additional flag nothing may stand behind what was read but the trailing bits: a one, and zeros
up to the byte's end. OpenH264 stores no base picture, so the same units are made with every extension that matters and every marking: an answer must be the
values that a unit was made from. COMMAND is asked as `COMMAND cases FILE` (else $TUZ is, else ./tuz); with --model, rules.py itself answers.
"""
import argparse
import os
import pathlib
import shlex
import subprocess
import sys
import tempfile

from codes import escaped, packed, ue
from rules import Body, cases, extension_words, prefix_body, unescaped, units

ROOT = pathlib.Path(__file__).resolve().parent.parent
CLIP = ROOT / "tests/clips/scalable.264"
IDR, USE = 0x40, 0x10
LISTS = [[], [(1, 0)], [(2, 7)], [(1, 3), (2, 0), (1, 4_294_967_294)], [(1, 1)] * 66]


def front(ref_idc, idr, use, three=b"\x80\x80\x07"):
    """First byte and extension: those of the clip with these fields."""
    return bytes([ref_idc << 5 | 14, three[0] & ~IDR | IDR * idr, three[1], three[2] & ~USE | USE * use])


def made():
    """A unit for each choice of fields, with the words of its body."""
    for idr, use, store, more, operations in ((i, s, t, m, o) for i in (0, 1) for s in (0, 1) for t in (0, 1) for m in (0, 1) for o in [None, *LISTS]):
        bits, words = str(store), [f"store_ref_base_pic_flag={store}"]
        if idr or not use | store:
            if operations is not None:
                continue
        else:
            adaptive = int(operations is not None)
            bits += str(adaptive)
            words.append(f"adaptive_ref_base_pic_marking_mode_flag={adaptive}")
            if adaptive:
                bits += "".join(ue(code) + ue(operand) for code, operand in operations) + ue(0)
                words.append("base_mmco=" + (",".join(f"{code}:{operand}" for code, operand in operations) or "-"))
        words.append(f"additional_prefix_nal_unit_extension_flag={more}")
        yield front(1 + idr, idr, use) + escaped(packed(bits + str(more) + "1")), words


def answers(command, found):
    """An answer line for each unit."""
    with tempfile.NamedTemporaryFile("w", suffix=".cases") as file:
        file.write("".join(unit.hex() + "\n" for unit in found))
        file.flush()
        if command is None:
            return list(cases(file.name))
        return subprocess.run([*command, "cases", file.name], stdout=subprocess.PIPE, text=True, check=True).stdout.splitlines()


def main():
    p = argparse.ArgumentParser(description=__doc__, formatter_class=argparse.RawDescriptionHelpFormatter)
    p.add_argument("--cases", default=os.environ.get("TUZ", str(ROOT / "tuz")))
    p.add_argument("--model", action="store_true")
    args = p.parse_args()
    command = None if args.model else shlex.split(args.cases)
    faults = []

    real = [unit for _, unit in units(CLIP.read_bytes()) if unit[0] & 31 == 14]
    for unit, said in zip(real, answers(command, real), strict=True):
        if not said.startswith("prefix "):
            faults.append((unit, said, "a prefix"))
        if unit[0] >> 5:
            b = Body(unescaped(unit[4:]))
            prefix_body(b, unit[1:4])
            if b.bits[b.at - 1 :] != "01".ljust(len(b.bits) - b.at + 1, "0"):
                faults.append((unit, b.bits[b.at - 1 :], "a clear flag and trailing bits"))

    own = list(made())
    for (unit, words), said in zip(own, answers(command, [unit for unit, _ in own]), strict=True):
        wanted = " ".join(["prefix", f"nal_ref_idc={unit[0] >> 5}", *extension_words(unit[1:4]), *words])
        if said != wanted:
            faults.append((unit, said, wanted))
    for unit, said, wanted in faults[:5]:
        print(f"scalable: {unit.hex()}\n    {said}\n    wanted: {wanted}")
    kinds = len({(unit[0] >> 5 != 0, unit[1] & IDR, unit[3] & USE) for unit in real})
    print(f"scalable: {len(real)} prefix units of the clip, of {kinds} kinds, and {len(own)} made ones, {len(faults)} otherwise than they are")
    return bool(faults) or not real or not own


sys.exit(main())
