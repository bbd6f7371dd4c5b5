"""Units of types 7 and 8: parameter sets with all that their syntax has, and what tears them."""
from codes import escaped, packed, se, u, ue
from rules import HIGH_PROFILES

PROFILES = (66, 77, 88, *HIGH_PROFILES)
GREAT = (16_777_215, 16_777_216, 65_535, 2**31 - 1, 2**31, 2**32 - 2)


def near(r, most, beyond):
    """A number from 0 to `most`, often at its ends; now and then one over it."""
    if r.random() < beyond:
        return r.choice((most + 1, most + 2, r.choice(GREAT)))
    return r.choice((0, 0, 1, most, r.randint(0, most)))


def number(r, bits):
    """A number of up to so many bits, small ones more often."""
    return r.getrandbits(r.randint(1, bits))


def signed(r, bits):
    return r.choice((0, 1, -1, number(r, bits), -number(r, bits)))


def scaling_list(r, size, beyond):
    """The deltas of a list: one that ends early, flat, at random, or with one out of its range."""
    last, out = 8, []
    kind = r.random()
    for _ in range(size):
        delta = 0 if kind < 0.2 else r.randint(-20, 20) if kind < 0.6 else r.choice((-128, 127, r.randint(-128, 127)))
        if kind > 0.9 and r.random() < 0.05:
            delta = -last if last <= 128 else 256 - last
        if r.random() < beyond / 30:
            delta = r.choice((128, -129, 256 - last, r.choice(GREAT) // 2))
        out.append(se(delta))
        last = (last + delta) % 256
        if last == 0:
            break
    return out


def scaling_matrix(r, chroma, beyond):
    pieces = []
    for i in range(12 if chroma == 3 else 8):
        there = r.random() < 0.5
        pieces.append(str(int(there)))
        if there:
            pieces += scaling_list(r, 16 if i < 6 else 64, beyond)
    return pieces


def cycle(r, beyond):
    """Order count type 1."""
    count = near(r, 255, beyond) if r.random() < 0.3 else r.randint(0, 5)
    return [str(r.getrandbits(1)), se(signed(r, 31)), se(signed(r, 31)), ue(count), *(se(signed(r, 20)) for _ in range(min(count, 300)))]


def area(r, beyond):
    """Width and height minus 1: most of them those of a picture, some around the greatest product."""
    x = r.random()
    if x < 0.5:
        return r.choice(((10, 8), (44, 35), (119, 67), (0, 0), (511, 271), (r.randint(0, 200), r.randint(0, 200))))
    if x < 0.65:
        width = 2 ** r.randint(0, 24)
        return width - 1 + r.choice((0, 0, -1 if width > 1 else 0, 1)), 2**24 // width - 1 + r.choice((0, 0, 0, -1 if width < 2**24 else 0))
    if r.random() < beyond * 5:
        return r.choice((number(r, 32), 2**32 - 2)), r.choice((0, 1, number(r, 32), 2**32 - 2))
    return number(r, 17), number(r, 8)


def sequence_tail(r, frames_only):
    """What stands behind frame_mbs_only_flag: as the standard has it, or anything."""
    x = r.random()
    if x < 0.1:
        n = r.randint(0, 60)
        return [format(r.getrandbits(n), f"0{n}b") if n else ""]
    pieces = [] if frames_only else [str(r.getrandbits(1))]
    pieces.append("1")  # direct_8x8_inference_flag
    if r.random() < 0.3:
        pieces += ["1", *(ue(r.choice((0, 1, 4, number(r, 20)))) for _ in range(4))]
    else:
        pieces.append("0")
    if r.random() < 0.3:  # vui_parameters( )
        pieces += ["1", "1" + u(8, 1) if r.getrandbits(1) else "0", "0", "0", "0"]
        pieces.append("1" + u(32, r.getrandbits(16)) + u(32, 50) + "1" if r.getrandbits(1) else "0")
        pieces += ["0", "0", "0"]
        pieces.append("1" + "1" + ue(0) + ue(0) + ue(10) + ue(10) + ue(1) + ue(2) if r.getrandbits(1) else "0")
    else:
        pieces.append("0")
    return pieces + (["1"] if r.random() < 0.9 else [r.choice(("", "0", "01", "11", "1" + "0" * 40 + "1"))])


def sequence_pieces(r):
    """The elements of a sequence set; one in three has fields out of their ranges."""
    beyond = 0.12 if r.random() < 0.35 else 0
    profile = r.choice(PROFILES) if r.random() < 0.95 else r.getrandbits(8)
    pieces = [u(8, profile), u(8, r.getrandbits(8)), u(8, r.choice((10, 30, 51, 62, 62, 62, 62, r.getrandbits(8)))), ue(near(r, 31, beyond))]
    if profile in HIGH_PROFILES:
        chroma = near(r, 3, beyond)
        pieces.append(ue(chroma))
        if chroma == 3:
            pieces.append(str(r.getrandbits(1)))
        pieces += [ue(near(r, 6, beyond)), ue(near(r, 6, beyond)), str(r.getrandbits(1))]
        matrix = r.random() < 0.4
        pieces += ["1", *scaling_matrix(r, chroma, beyond)] if matrix else ["0"]
    order = near(r, 2, beyond)
    pieces += [ue(near(r, 12, beyond)), ue(order)]
    if order == 0:
        pieces.append(ue(near(r, 12, beyond)))
    if order == 1:
        pieces += cycle(r, beyond)
    width, height = area(r, beyond)
    frames_only = r.getrandbits(1)
    pieces += [ue(r.choice((0, 1, 4, 16, number(r, 32)))), str(r.getrandbits(1)), ue(width), ue(height), str(frames_only)]
    return pieces + sequence_tail(r, frames_only)


def slice_groups(r, beyond):
    groups = (near(r, 7, beyond) or 1) if r.random() < 0.5 else 0
    pieces = [ue(groups)]
    if not groups:
        return pieces
    kind = near(r, 6, beyond) if r.random() < 0.2 else r.randint(0, 6)
    pieces.append(ue(kind))
    if kind == 0:
        pieces += [ue(number(r, 17)) for _ in range(min(groups, 9) + 1)]
    if kind == 2:
        for _ in range(min(groups, 9)):
            corner = number(r, 16)
            pieces += [ue(corner), ue(corner + r.choice((0, 1, 5, number(r, 8), -1 if corner else 0)))]
    if kind in (3, 4, 5):
        pieces += [str(r.getrandbits(1)), ue(r.choice((0, 1, 98, 139_263, near(r, 16_777_215, beyond))))]
    if kind == 6:
        count = r.choice((0, 1, 2, 7, 98, 98, 500)) if r.random() < 0.8 else r.choice((*GREAT, 139_262, 139_263, number(r, 32)))
        width = groups.bit_length()
        there = min(count + 1, r.choice((2_000, 2_000, 3)))
        pieces += [ue(count), *(u(width, r.getrandbits(width)) for _ in range(there))]
    return pieces


def picture_tail(r):
    """What stands behind redundant_pic_cnt_present_flag."""
    x = r.random()
    if x < 0.6:
        return ["1"]
    if x < 0.8:  # the 8x8 transform part
        return [str(r.getrandbits(1)), "0", se(r.choice((0, 2, -2, 12, -12, 13))), "1"]
    n = r.randint(0, 50)
    return [format(r.getrandbits(n), f"0{n}b") if n else ""]


def picture_pieces(r):
    """The elements of a picture set; one in three has fields out of their ranges."""
    beyond = 0.12 if r.random() < 0.35 else 0
    pieces = [ue(near(r, 255, beyond)), ue(near(r, 31, beyond)), str(r.getrandbits(1)), str(r.getrandbits(1)), *slice_groups(r, beyond)]
    pieces += [ue(near(r, 31, beyond)), ue(near(r, 31, beyond)), str(r.getrandbits(1))]
    pieces.append(u(2, 3 if r.random() < beyond else r.randint(0, 2)))
    qp = r.choice((-62, -63, 25, 26)) if r.random() < beyond else r.choice((0, 0, -26, 25, -62, -27, r.randint(-62, 25)))
    qs = r.choice((-27, 26)) if r.random() < beyond else r.choice((0, 0, -26, 25, r.randint(-26, 25)))
    pieces += [se(qp), se(qs), se(r.choice((0, 0, 2, -2, 12, -12)) if r.random() < 0.9 else signed(r, 31))]
    return pieces + [str(r.getrandbits(1)), str(r.getrandbits(1)), str(r.getrandbits(1)), *picture_tail(r)]


def set_pieces(r):
    """First byte and elements of a set."""
    sequence = r.getrandbits(1)
    return bytes([r.choice((1, 2, 3)) << 5 | (7 if sequence else 8)]), (sequence_pieces if sequence else picture_pieces)(r)


def long_set(r):
    """A set of 65,536 bytes: group ids, or what stands behind the last field."""
    if r.getrandbits(1):
        front = ue(0) + ue(0) + "00" + ue(7) + ue(6) + ue(r.choice((174_000, 174_740, 2**32 - 2)))
        return b"\x68" + escaped(packed(front) + b"\xa5" * 65_000)[:65_535]
    front = "".join(sequence_pieces(r))
    return b"\x67" + escaped(packed(front) + r.choice((b"\xff", b"\0\1")) * 65_535)[:65_535]
