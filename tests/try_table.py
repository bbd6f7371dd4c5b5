#!/usr/bin/env python3
"""What crates/try_table must print, worked out from the rules' sizes in plain Python, with no line of the library.

try_table.py           compares with crates/try_table/stdout, and exits non-zero where they differ
try_table.py --write   writes that file
The cases are those of crates/try_table/src, in its order.
"""
from model import hold

lines = []

# The ranges of docs/RULES.md, 'Sizes'.

SEQUENCE = {
    "chroma format": (0, 3),
    "luma depth minus 8": (0, 6),
    "log2 max frame_num": (4, 16),
    "order count type": (0, 2),
    "log2 lsb minus 4": (0, 12),
    "map units": (1, 16777216),
}
PICTURE = {
    "sequence id": (0, 31),
    "default active l0 minus1": (0, 31),
    "default active l1 minus1": (0, 31),
    "bipred idc": (0, 2),
    "change rate": (0, 16777216),
    "init QP minus 26": (-62, 25),
    "init QS minus 26": (-26, 25),
}
TRIED = {"init QP minus 26": [-(2**31), -63, -62, 25, 26, 2**31 - 1], "init QS minus 26": [-27, -26, 25, 26]}


def tried(field, low, high):
    """Both ends of a range and one beyond each; nothing is below 0 in an unsigned field."""
    return TRIED.get(field) or [v for v in [low - 1, low, high, high + 1] if v >= 0]


REFUSED = "refused 24 value=0"


def told(good, there):
    return f"done there {there}" if good else f"{REFUSED} absent"


def sets():
    for field, (low, high) in SEQUENCE.items():
        for v in tried(field, low, high):
            held = {"chroma format": 1, "log2 max frame_num": 4, "map units": 99, field: v}
            there = f"{held['chroma format']}:{held['log2 max frame_num']}:{held['map units']}"
            lines.append(f"{field} {v}: {told(low <= v <= high, there)}")
    for v in [2, 3, 4]:
        lines.append(f"separate planes with chroma format {v}: {told(v == 3, f'{v}:4:99')}")
    for field, (low, high) in PICTURE.items():
        for v in [0, 1, 16777216, 16777217] if field == "change rate" else tried(field, low, high):
            held = {"sequence id": 0, "change rate": 0, field: v}
            there = f"{held['sequence id']}:{held['change rate']}:same:same"
            lines.append(f"{field} {v}: {told(low <= v <= high, there)}")
    for v in [0, 31, 32, 2**32 - 1]:
        lines.append(f"sequence id {v}: {told(v <= 31, '1:4:99')}")
    for v in [0, 255, 256, 2**32 - 1]:
        lines.append(f"picture id {v}: {told(v <= 255, '0:0:same:same')}")
    lines.append("sequences 4, 5, 6: absent there 1:4:99 absent")
    lines.append("pictures 4, 5, 6: absent absent absent")
    lines.append("sequences 4, 5, 6: absent absent absent")
    lines.append("pictures 4, 5, 6: absent there 0:0:same:same absent")
    lines.append(f"refused over a set: {REFUSED}, sequences 4, 5, 6: absent there 1:4:99 absent")
    lines.append("a lent chroma format of 4: absent")
    lines.append("a lent first word of 16: absent")


def least_width(size, rate):
    """The least b with 2^b times the rate no less than size and rate; 0 without a rate."""
    return next(b for b in range(33) if 2**b * rate >= size + rate) if rate else 0


def widths():
    """The picture sets 4, 5 and 6 with their widths: each put's answer, and the three widths after it."""
    sequences, pictures, stored = {}, {}, {}

    def three():
        return " ".join("absent" if stored.get(id, 26) > 25 else str(stored[id]) for id in [4, 5, 6])

    def put_sequence(id, size):
        good = id <= 31 and 1 <= size <= 16777216
        if good:
            sequences[id] = size
            for other, (named, rate) in pictures.items():
                if named == id and stored[other] <= 25:
                    stored[other] = least_width(size, rate)
        lines.append(f"sequence {id} of {size}: {'done' if good else REFUSED}, widths {three()}")

    def put_picture(id, named, rate):
        good = rate <= 16777216
        if good:
            pictures[id] = named, rate
            stored[id] = least_width(sequences[named], rate) if named in sequences else 0
        lines.append(f"picture {id} naming {named} with rate {rate}: {'done' if good else REFUSED}, widths {three()}")

    def lend(width):
        stored[6] = width
        lines.append(f"a lent width of {width}: {three()}")

    put_picture(4, 0, 11)
    put_picture(5, 1, 11)
    put_picture(6, 0, 0)
    put_sequence(0, 99)
    put_sequence(1, 8)
    put_sequence(0, 8)
    put_sequence(0, 16777217)
    put_sequence(32, 99)
    put_picture(6, 1, 1)
    put_picture(6, 1, 16777217)
    put_sequence(1, 16777216)
    lend(0)
    lend(26)
    put_sequence(1, 99)
    lend(25)


sets()
widths()
hold("try_table", lines)
