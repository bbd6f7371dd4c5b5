#!/usr/bin/env python3
"""The units that crates/try_unit reads, made here bit by bit from the rules' syntax, and what it must print of them, with no line of the library.

try_unit.py           compares with crates/try_unit/stdout and the units in crates/try_unit/src/cases.rt, and exits non-zero where they differ
try_unit.py --write   writes stdout
"""
import re
import sys

from codes import escaped, packed, se, ue
from model import CRATES, hold

TAIL = "1" * 9  # slice data with set bits, so that something follows the header


def unit(first, header, extension=b""):
    return bytes([first]) + extension + escaped(packed(header + TAIL))


def front(picture_set=0):
    """A P slice (slice_type 5) with the sample sets, frame_num 5, up to the override flag."""
    return ue(0) + ue(5) + ue(picture_set) + "0101"


def p_slice(picture_set=0, override="0", modification="0", qp=0, deblocking=""):
    """All of it, nal_ref_idc 0."""
    return front(picture_set) + override + modification + se(qp) + deblocking


cases = []


def case(name, header, refused=None, first=0x01, extension=b"", active=0, mods=0, idc=0):
    """refused: number, value, and the bits that stand before the refused field."""
    said = f"refused {refused[0]} value={refused[1]} bit={len(refused[2])}" if refused else f"slice bits={len(header)} slice_type=5 active={active} mods={mods} idc={idc}"
    cases.append((unit(first, header, extension), f"{name}: {said}"))


for n in (31, 32):
    case(f"active minus1 {n}", p_slice(override="1" + ue(n)), None if n <= 31 else (21, n, front() + "1"), active=n)
for d in (25, 26, -26, -27):
    case(f"QP delta {d}", p_slice(qp=d), None if 0 <= 26 + d <= 51 else (16, d, front() + "00"))
for n in (0, 1, 6, 7):
    offsets = "" if n == 1 else se(0) + se(0)
    case(f"deblocking idc {n}", p_slice(picture_set=1, deblocking=ue(n) + offsets), None if n <= 6 else (18, n, p_slice(picture_set=1)), idc=n)
for n in (0, 66, 67):
    entries = (ue(0) + ue(0)) * n
    case(f"a list of {n}", p_slice(modification="1" + entries + ue(3)), None if n <= 66 else (14, 0, front() + "01" + entries[: 2 * 66]), mods=n)
view = p_slice(modification="1" + ue(4) + ue(0) + ue(3))
case("modification idc 4", view, (12, 4, front() + "01"))
case("modification idc 4 of a view", view, first=0x14, extension=b"\x40\x00\x01", mods=1)
case("a scalable slice", view, (13, 0, front() + "0"), first=0x14, extension=b"\x80\x00\x00")



def prefix(name, extension, body, refused=None, store=None, adaptive=None, base=0, more=None):
    flags = "".join(f" {n}={v}" if v is not None else "" for n, v in (("store", store), ("adaptive", adaptive)))
    said = f"refused {refused[0]} value={refused[1]} bit={len(refused[2])}" if refused else f"prefix{flags} base={base}" + (f" more={more}" if more is not None else "")
    cases.append((bytes([0x6E]) + extension + escaped(packed(body + TAIL)), f"{name}: {said}"))


SVC, USES, IDR, MVC = b"\x80\x00\x07", b"\x80\x00\x17", b"\xc0\x00\x17", b"\x40\x00\x07"
prefix("a prefix of a view", MVC, "101")
prefix("a prefix that neither stores nor uses", SVC, "01", store=0, more=1)
prefix("a prefix that stores, sliding window", SVC, "101", store=1, adaptive=0, more=1)
prefix("a prefix that uses, sliding window", USES, "001", store=0, adaptive=0, more=1)
prefix("a prefix of an IDR picture", IDR, "10", store=1, more=0)
for n in (0, 66, 67):
    entries = "11" + (ue(1) + ue(0)) * n
    prefix(f"a base marking list of {n}", SVC, entries + ue(0) + "1", None if n <= 66 else (14, 0, entries[: 2 + 4 * 66]), store=1, adaptive=1, base=n, more=1)
prefix("a base marking operation 2", USES, "01" + ue(2) + ue(5) + ue(0) + "0", store=0, adaptive=1, base=1, more=0)
prefix("a base marking operation 3", USES, "01" + ue(3) + ue(5), (23, 3, "01"))


def headed(name, other, whole, said):
    """The body of a unit, read for the head of another."""
    cases.append(((other, whole) if other else whole, f"{name}: {said}"))


first, stores = unit(0x01, p_slice(qp=25)), cases[[line.split(":")[0] for _, line in cases].index("a prefix that stores, sliding window")][0]
headed("a first byte over 127", b"", b"\x81", "refused 2 value=0")
headed("an extension of one byte", b"", b"\x6e\x80", "refused 4 value=0")
for what, other, whole in (
    ("of another type", b"\x05", first),
    ("of another nal_ref_idc", b"\x21", first),
    ("with another extension", b"\x6e" + USES, stores),
    ("for a unit without one", b"\x01", b"\x81"),
):
    headed(f"a head {what}", other, whole, "refused 34 value=0")
headed("its own head", b"\x01", first, f"slice bits={len(p_slice(qp=25))} slice_type=5 active=0 mods=0 idc=0")

source = (CRATES / "try_unit/src/cases.rt").read_text()
literals = [bytes.fromhex(x.replace("\\x", "")) for x in re.findall(r'b"((?:\\x[0-9a-f]{2})+)"', source)]
if literals != [u for given, _ in cases for u in (given if isinstance(given, tuple) else (given,))]:
    print("try_unit: the units in crates/try_unit/src/cases.rt are not those that tests/try_unit.py makes")
    sys.exit(1)
hold("try_unit", [line for _, line in cases])
