#!/usr/bin/env python3
"""Exposures in Python, with no line of the library: a recording's units taken one by one, slices grouped into pictures by 7.4.1.2.4, each picture's exposure and
the counts.

    tests/exposures.py [--seed S] [--count N] [--port PROGRAM [--recordings N]]

Lists of units are made at random, 100,000 of them. The model is held to a second way of working the same out, all at once and by pairs of neighbours, and to what
the proofs say of lists that end alike. Every rule of the comparison must have decided somewhere alone, and every rule of a gap somewhere. With PROGRAM, recordings are
made of such lists, each slice behind the parameter sets that it is read by, and `PROGRAM exposures --format csv` must tell what the model does (boundaries.py has clips).
Exits non-zero and says what differs.
"""
import argparse
import collections
import csv
import itertools
import pathlib
import random
import re
import subprocess
import sys
import tempfile
from typing import NamedTuple

KINDS = ("redundant", "refused", "prefix", "view", "other")


class Slice(NamedTuple):
    """What pictures and exposures go by; what is absent is 0."""

    place: int = 0
    qp: int = 26
    nal_ref_idc: int = 1
    idr: bool = False
    frame_num: int = 0
    pic_parameter_set_id: int = 0
    field_pic_flag: bool = False
    bottom_field_flag: bool = False
    pic_order_cnt_type: int = 0
    pic_order_cnt_lsb: int = 0
    delta_pic_order_cnt_bottom: int = 0
    delta_pic_order_cnt_0: int = 0
    delta_pic_order_cnt_1: int = 0
    idr_pic_id: int = 0
    log2_max_frame_num: int = 4


class Exposure(NamedTuple):
    place: int
    slices: int
    qp_least: int
    qp_greatest: int
    qp_sum: int
    frame_num: int
    gap: bool
    refused_before: int


# ---- the model: a state, and a unit at a time

# 7.4.1.2.4, in the clause's order
RULES = {
    "frame_num": lambda a, b: a.frame_num != b.frame_num,
    "pic_parameter_set_id": lambda a, b: a.pic_parameter_set_id != b.pic_parameter_set_id,
    "field_pic_flag": lambda a, b: a.field_pic_flag != b.field_pic_flag,
    "bottom_field_flag": lambda a, b: a.bottom_field_flag != b.bottom_field_flag,
    "nal_ref_idc": lambda a, b: a.nal_ref_idc != b.nal_ref_idc and 0 in (a.nal_ref_idc, b.nal_ref_idc),
    "pic_order_cnt_lsb": lambda a, b: types(a, b, 0) and a.pic_order_cnt_lsb != b.pic_order_cnt_lsb,
    "delta_pic_order_cnt_bottom": lambda a, b: types(a, b, 0) and a.delta_pic_order_cnt_bottom != b.delta_pic_order_cnt_bottom,
    "delta_pic_order_cnt[0]": lambda a, b: types(a, b, 1) and a.delta_pic_order_cnt_0 != b.delta_pic_order_cnt_0,
    "delta_pic_order_cnt[1]": lambda a, b: types(a, b, 1) and a.delta_pic_order_cnt_1 != b.delta_pic_order_cnt_1,
    "IdrPicFlag": lambda a, b: a.idr != b.idr,
    "idr_pic_id": lambda a, b: a.idr and b.idr and a.idr_pic_id != b.idr_pic_id,
}


def types(a, b, n):
    return a.pic_order_cnt_type == n and b.pic_order_cnt_type == n


def differ(a, b):
    return any(rule(a, b) for rule in RULES.values())


def is_gap(before, s):
    """Before a picture whose first slice is `s`, behind one with the frame_num `before`, or none."""
    if before is None or s.idr:
        return False
    return s.frame_num not in (before, (before + 1) % 2**s.log2_max_frame_num)


class Taker:
    """Takes a slice, or the kind of a unit that is none, and answers the exposure that this closed, or None."""

    def __init__(self):
        self.open = self.last = None
        self.refused = 0
        self.counts = dict.fromkeys(("slices",) + KINDS, 0)

    def take(self, item):
        if not isinstance(item, Slice):
            self.counts[item] += 1
            self.refused += item == "refused"
            return None
        self.counts["slices"] += 1
        closed = None
        if self.open and not differ(self.last, item):
            e = self.open
            self.open = e._replace(
                slices=e.slices + 1, qp_least=min(e.qp_least, item.qp), qp_greatest=max(e.qp_greatest, item.qp), qp_sum=e.qp_sum + item.qp
            )
        else:
            closed = self.open
            gap = is_gap(closed.frame_num if closed else None, item)
            self.open = Exposure(item.place, 1, item.qp, item.qp, item.qp, item.frame_num, gap, self.refused)
            self.refused = 0
        self.last = item
        return closed

    def finish(self):
        return self.open


def exposures(items):
    taker = Taker()
    closed = [taker.take(item) for item in items] + [taker.finish()]
    return [e for e in closed if e], taker.counts


# ---- the same a second time, all at once

ALWAYS = ("frame_num", "pic_parameter_set_id", "field_pic_flag", "bottom_field_flag", "idr")


def key(s):
    """What two slices of a picture have in common, as far as one slice tells."""
    order = {0: ("pic_order_cnt_lsb", "delta_pic_order_cnt_bottom"), 1: ("delta_pic_order_cnt_0", "delta_pic_order_cnt_1")}.get(s.pic_order_cnt_type, ())
    return tuple(getattr(s, f) for f in ALWAYS), s.nal_ref_idc == 0, s.idr_pic_id if s.idr else None, s.pic_order_cnt_type, tuple(getattr(s, f) for f in order)


def alike(a, b):
    """By the keys; slices of two order count types are not compared by either."""
    x, y = key(a), key(b)
    return x[:3] == y[:3] and (x[3] != y[3] or x[4] == y[4])


def all_at_once(items):
    at = [i for i, item in enumerate(items) if isinstance(item, Slice)]
    begins = [n == 0 or not alike(items[at[n - 1]], items[i]) for n, i in enumerate(at)]
    numbers = itertools.accumulate(map(int, begins))
    groups = [[i for i, _ in group] for _, group in itertools.groupby(zip(at, numbers), key=lambda pair: pair[1])]
    out = []
    for n, group in enumerate(groups):
        own = [items[i] for i in group]
        since = items[groups[n - 1][0] : group[0]] if n else items[: group[0]]
        steps = (own[0].frame_num - items[groups[n - 1][0]].frame_num) if n else 0
        modulus = 1 << own[0].log2_max_frame_num
        follows = steps == 0 or (own[0].frame_num < modulus and (steps - 1) % modulus == 0)
        out.append(
            Exposure(
                own[0].place,
                len(own),
                sorted(s.qp for s in own)[0],
                sorted(s.qp for s in own)[-1],
                sum(s.qp for s in own),
                own[0].frame_num,
                n > 0 and not own[0].idr and not follows,
                sum(x == "refused" for x in since),
            )
        )
    counts = collections.Counter("slices" if isinstance(x, Slice) else x for x in items)
    return out, {k: counts[k] for k in ("slices",) + KINDS}


# ---- lists of units

SMALL = {
    "nal_ref_idc": (0, 1, 2, 3),
    "idr": (False, True),
    "frame_num": (0, 1, 2, 14, 15, 16, 17),
    "pic_parameter_set_id": (0, 1, 255),
    "field_pic_flag": (False, True),
    "bottom_field_flag": (False, True),
    "pic_order_cnt_type": (0, 1, 2),
    "pic_order_cnt_lsb": (0, 1, 65535),
    "delta_pic_order_cnt_bottom": (0, 1, -1),
    "delta_pic_order_cnt_0": (0, 1, -1),
    "delta_pic_order_cnt_1": (0, 1, -1),
    "idr_pic_id": (0, 1, 65535),
    "log2_max_frame_num": (4, 5, 16),
}


def generated(r, most=24):
    """Slices that are mostly the one before with at most one field changed, and other units between them."""
    s, place, out = Slice(**{f: r.choice(v) for f, v in SMALL.items()}), 0, []
    for _ in range(r.randrange(most)):
        place += r.randrange(4, 2000)
        if r.random() < 0.3:
            out.append(r.choice(KINDS))
            continue
        chance = r.random()
        fields = () if chance < 0.4 else (r.choice(tuple(SMALL)),) if chance < 0.9 else tuple(SMALL)
        s = s._replace(place=place, qp=r.randrange(-36, 52), **{f: r.choice(SMALL[f]) for f in fields})
        if r.random() < 0.15:  # the next frame, where it is one
            s = s._replace(frame_num=(s.frame_num + 1) % 2**s.log2_max_frame_num)
        out.append(s)
    return out


# ---- what must hold, and what must have come


def slices(items):
    return [x for x in items if isinstance(x, Slice)]


def tally(items, found, seen):
    """Which rules decided alone, which differences were none, and which ways a gap is one or none."""
    own = slices(items)
    for a, b in zip(own, own[1:]):
        told = [name for name, rule in RULES.items() if rule(a, b)]
        if len(told) == 1:
            seen["alone: " + told[0]] += 1
        if not told:
            for f in ("nal_ref_idc", "pic_order_cnt_type", "pic_order_cnt_lsb", "delta_pic_order_cnt_0", "idr_pic_id", "log2_max_frame_num"):
                seen["no matter: " + f] += getattr(a, f) != getattr(b, f)
    before = None
    firsts = {s.place: s for s in own}
    for e in found:
        s = firsts[e.place]
        if before is not None:
            new = (before + 1) % 2**s.log2_max_frame_num
            way = "IDR" if s.idr else "the same" if e.frame_num == before else "around" if e.frame_num == new < before else "next" if e.frame_num == new else "none"
            seen["gap: " + way] += 1
            seen["gap: none, but by another modulus"] += way == "none" and e.frame_num in {(before + 1) % 2**n for n in SMALL["log2_max_frame_num"]}
        seen["refused before"] += e.refused_before > 0
        before = e.frame_num


WANTED = ["alone: " + name for name in RULES] + [
    *("no matter: " + f for f in ("nal_ref_idc", "pic_order_cnt_type", "pic_order_cnt_lsb", "delta_pic_order_cnt_0", "idr_pic_id", "log2_max_frame_num")),
    *("gap: " + way for way in ("IDR", "the same", "around", "next", "none", "none, but by another modulus")),
    "refused before",
    "torn: goes on",
    "torn: begins anew",
    "torn: refused before the second",
]


def torn(items, other, seen):
    """What the proofs say of lists that end in `items`: behind `other` the exposures that begin in them are those of `items` alone. Where the first slice goes on with
    a picture of `other`, the first of `items` alone is missing, and the next may have more refused units before it; else the first may have another gap and more
    refused units before it. No other field of any differs."""
    alone, whole = exposures(items)[0], exposures(other + items)[0]
    begun = whole[len(exposures(other)[0]) :]
    goes_on = bool(slices(other) and slices(items)) and not differ(slices(other)[-1], slices(items)[0])
    rest = alone[goes_on:]
    if goes_on:
        seen["torn: goes on"] += 1
        seen["torn: refused before the second"] += bool(rest) and begun[0] != rest[0]
    elif rest:
        seen["torn: begins anew"] += 1
    like = [e._replace(refused_before=0, gap=goes_on and e.gap) for e in begun[:1] + rest[:1]]
    return begun[1:] == rest[1:] and len(begun) == len(rest) and (not like or like[0] == like[1])


# ---- recordings


class Bits:
    def __init__(self):
        self.text = ""

    def u(self, n, *values):
        self.text += "".join(format(int(v), f"0{n}b") for v in values)

    def ue(self, *values):
        for v in values:
            self.text += "0" * ((v + 1).bit_length() - 1) + format(v + 1, "b")

    def se(self, *values):
        self.ue(*(2 * v - 1 if v > 0 else -2 * v for v in values))

    def unit(self, *head):
        """The unit that begins with these bytes: trailing bits, and bytes escaped."""
        text = self.text + "1"
        text += "0" * (-len(text) % 8)
        body = bytes(int(text[i : i + 8], 2) for i in range(0, len(text), 8))
        return bytes(head) + re.sub(rb"\0\0(?=[\0-\3])", b"\0\0\3", body)


def within(s):
    """A slice that a header can tell: what is absent is 0."""
    frame = not s.field_pic_flag
    return s._replace(
        qp=s.qp % 52,
        nal_ref_idc=max(s.nal_ref_idc, int(s.idr)),
        frame_num=s.frame_num % 2**s.log2_max_frame_num,
        bottom_field_flag=s.bottom_field_flag and not frame,
        pic_order_cnt_lsb=s.pic_order_cnt_lsb % 2**16 * (s.pic_order_cnt_type == 0),
        delta_pic_order_cnt_bottom=s.delta_pic_order_cnt_bottom * (s.pic_order_cnt_type == 0 and frame),
        delta_pic_order_cnt_0=s.delta_pic_order_cnt_0 * (s.pic_order_cnt_type == 1),
        delta_pic_order_cnt_1=s.delta_pic_order_cnt_1 * (s.pic_order_cnt_type == 1 and frame),
        idr_pic_id=s.idr_pic_id * s.idr,
    )


def sets(r, s):
    """The parameter sets of a slice, and the QP that its picture set begins with, less 26. Its sequence set has any id."""
    b, sps, init = Bits(), r.randrange(32), r.randrange(-26, 26)
    b.u(8, 66, 0, 10)
    b.ue(sps, s.log2_max_frame_num - 4, s.pic_order_cnt_type)
    if s.pic_order_cnt_type == 0:
        b.ue(12)
    if s.pic_order_cnt_type == 1:
        b.u(1, 0)
        b.se(0, 0)
        b.ue(0)
    b.ue(1)
    b.u(1, 0)
    b.ue(10, 8)
    b.u(1, 0, 0, 1, 0, 0)
    p = Bits()
    p.ue(s.pic_parameter_set_id, sps)
    p.u(1, 0, 1)
    p.ue(0, 0, 0)
    p.u(1, 0)
    p.u(2, 0)
    p.se(init, 0, 0)
    p.u(1, 0, 0, 1)
    return b.unit(0x67), p.unit(0x68), init


def coded(s, init, redundant=0, view=False, first_mb=0):
    """The unit of an I slice; a view has an extension."""
    b, idr = Bits(), s.idr and not view
    b.ue(first_mb, 7, s.pic_parameter_set_id)
    b.u(s.log2_max_frame_num, s.frame_num)
    b.u(1, s.field_pic_flag)
    if s.field_pic_flag:
        b.u(1, s.bottom_field_flag)
    if idr:
        b.ue(s.idr_pic_id)
    if s.pic_order_cnt_type == 0:
        b.u(16, s.pic_order_cnt_lsb)
        if not s.field_pic_flag:
            b.se(s.delta_pic_order_cnt_bottom)
    if s.pic_order_cnt_type == 1:
        b.se(s.delta_pic_order_cnt_0)
        if not s.field_pic_flag:
            b.se(s.delta_pic_order_cnt_1)
    b.ue(redundant)
    if s.nal_ref_idc:
        b.u(1, *(0, 0) if idr else (0,))
    b.se(s.qp - 26 - init)
    b.u(8, 0xA5)  # of the slice's data
    first = s.nal_ref_idc << 5
    return b.unit(first | 20, 0x40, 0, 7) if view else b.unit(first | (5 if idr else 1))


def recorded(r, items):
    """A recording of these units, and the units that it has: the slices at their places, and sets among the others."""
    out, told, last = bytearray(), [], None

    def put(unit, item):
        out.extend(r.choice((b"\0\0\1", b"\0\0\0\1")))
        told.append(item._replace(place=len(out)) if isinstance(item, Slice) else item)
        out.extend(unit)

    for item in items:
        if isinstance(item, Slice):
            last = within(item)
        if isinstance(item, Slice) or item in ("redundant", "view"):
            s = last or within(Slice())
            sps, pps, init = sets(r, s)
            put(sps, "other")
            put(pps, "other")
            put(coded(s, init, int(item == "redundant"), item == "view"), s if isinstance(item, Slice) else item)
        else:
            units = {"refused": (b"\xe5\x88", b"\x65", b"\x74\x40"), "prefix": (b"\x6e\x80\0\7\xd1\xa0",), "other": (b"\x09\xf0", b"\x06\5\1\xaa\x80")}
            put(r.choice(units[item]), item)
    return bytes(out), told


COLUMNS = ["number", "place", "slices", "qp_least", "qp_mean", "qp_greatest", "frame_num", "gap", "refused_before"]


def command(port, clip):
    """The rows and the totals of `PROGRAM exposures`."""
    done = subprocess.run([port, "exposures", clip, "--format", "csv"], capture_output=True, text=True, check=True)
    rows = list(csv.reader(done.stdout.splitlines()))
    if rows[0] != COLUMNS:
        sys.exit(f"exposures: the columns are {rows[0]}")
    totals = re.search(r": (\d+) exposures, (\d+) gaps, (\d+) refused, (\d+) redundant, (\d+) views$", done.stderr.strip())
    return rows[1:], [int(n) for n in totals.groups()]


def row(n, e):
    return [str(v) for v in (n, e.place, e.slices, e.qp_least, f"{e.qp_sum / e.slices:.2f}", e.qp_greatest, e.frame_num, int(e.gap), e.refused_before)]


def held(port, r, count):
    """Recordings of lists, 40 of them joined in each, read by the command; how many exposures they had."""
    seen, all_found = collections.Counter(), 0
    with tempfile.TemporaryDirectory() as folder:
        clip = pathlib.Path(folder) / "clip.264"
        for n in range(count):
            recording, items = recorded(r, [item for _ in range(40) for item in generated(r)])
            clip.write_bytes(recording)
            found, counts = exposures(items)
            rows, totals = command(port, clip)
            want = [row(k + 1, e) for k, e in enumerate(found)]
            if rows != want:
                at = next((k for k, (a, b) in enumerate(zip(rows, want)) if a != b), min(len(rows), len(want)))
                sys.exit(f"exposures: recording {n}, exposure {at + 1}: the command says {rows[at : at + 1]}, the model {want[at : at + 1]}")
            if totals != [len(found), sum(e.gap for e in found), counts["refused"], counts["redundant"], counts["view"]]:
                sys.exit(f"exposures: recording {n}: the totals are {totals}, the model's {counts}")
            tally(items, found, seen)
            all_found += len(found)
    never = [w for w in WANTED if w.startswith("alone") and not seen[w]]
    if never:
        sys.exit(f"exposures: in no recording: {', '.join(never)}")
    return all_found


def main():
    parser = argparse.ArgumentParser()
    parser.add_argument("--seed", type=int, default=1)
    parser.add_argument("--count", type=int, default=100_000)
    parser.add_argument("--port")
    parser.add_argument("--recordings", type=int, default=100)
    words = parser.parse_args()
    r, seen, other = random.Random(words.seed), collections.Counter(), []
    for n in range(words.count):
        items = generated(r)
        found, counts = exposures(items)
        if (found, counts) != all_at_once(items):
            sys.exit(f"exposures: list {n}: {found, counts} is not {all_at_once(items)}, of {items}")
        if sum(counts.values()) != len(items):
            sys.exit(f"exposures: list {n}: the counts do not add up")
        at = r.randrange(len(items) + 1)
        for front in (items[:at], other):
            if not torn(items[at:], front, seen):
                sys.exit(f"exposures: list {n}: behind another its exposures are not its own: {front} {items[at:]}")
        tally(items, found, seen)
        other = items
    missing = [w for w in WANTED if not seen[w]]
    if missing:
        sys.exit(f"exposures: never came: {', '.join(missing)}")
    print(f"exposures: {words.count} lists of units, both ways; every rule decided alone, the least often {min(seen[w] for w in WANTED)} times")
    if words.port:
        found = held(words.port, r, words.recordings)
        print(f"exposures: {words.recordings} recordings, {found} exposures: the command tells what the model does")


if __name__ == "__main__":
    main()
