"""Whole units: well formed ones from pieces, and damaged ones."""
from codes import escaped, packed, ue
from headers import OFF, prefix_pieces, slice_pieces
from set_units import long_set, set_pieces

SLICES = (1, 5, 20, 21)


def tail(r):
    """What stands behind the header, as bits: slice data, the last one bit alone, zeros, nothing."""
    x = r.random()
    if x < 0.55:
        n = r.randint(2, 40)
        return format(r.getrandbits(n) | 1, f"0{n}b")
    if x < 0.65:
        return "1" * r.randint(1, 2)
    if x < 0.75:
        return r.choice("01") + "0" * r.randint(0, 40) + "1"
    if x < 0.83:
        return r.choice(("0", "1", "10", "01", "")) + "0" * r.randint(0, 40)
    if x < 0.9:
        return ""
    n = 8 * r.choice((100, 126, 127, 128, 129, 130, 200, 256, 257, 300))
    if x < 0.95:
        return format(r.getrandbits(n) | 1, f"0{n}b")
    return r.choice("01") + "0" * n + r.choice(("", "1", "1"))


def zero_run(r, pieces):
    """One code gives way to a run of zeros around 32 long; often nothing follows."""
    i = r.randrange(len(pieces))
    run = "0" * r.choice((15, 28, 30, 31, 31, 32, 32, 33, 34, 40, 63, 64, 65))
    if r.random() < 0.4:
        run += "1" + format(r.getrandbits(34), "034b")
    keep = pieces[i:] if r.random() < 0.5 else []
    return pieces[:i] + [run] + keep


def torn_pieces(r, pieces):
    i = r.randrange(len(pieces))
    x = r.random()
    if x < 0.25:
        return pieces[:i]
    if x < 0.5:
        return pieces[:i] + pieces[i + 1 :]
    if x < 0.75:
        return pieces[:i] + [pieces[i]] + pieces[i:]
    return pieces[:i] + [ue(r.getrandbits(r.randint(1, 32)))] + pieces[i + 1 :]


def soup(r, pieces):
    """A header's start, then any bits: many ones, so that codes are short, or as many zeros."""
    n = r.randint(20, 300)
    bits = r.getrandbits(n) | r.getrandbits(n) if r.getrandbits(1) else r.getrandbits(n)
    return pieces[: r.randint(min(3, len(pieces)), len(pieces))] + [format(bits, f"0{n}b")]


def damaged(r, unit):
    """Bits flipped, bytes cut off, put in, put over, repeated or added; escapes taken away."""
    unit = bytearray(unit)
    for _ in range(r.choice((1, 1, 1, 2, 3))):
        size = len(unit)
        if not size:
            break
        at = r.randrange(size)
        x = r.random()
        if x < 0.4:
            unit[at] ^= 1 << r.randrange(8)
        elif x < 0.55:
            del unit[max(at, 1) :]
        elif x < 0.65:
            del unit[at : at + r.randint(1, 3)]
        elif x < 0.75:
            unit[at:at] = r.choice((b"\0", b"\0\0\3", b"\0\0\3\1", b"\xff", r.randbytes(3), b"\0\0\1", b"\0\0\2"))
        elif x < 0.85:
            unit += r.choice((b"\0", b"\0\0\0", b"\0\0\3", b"\x80", r.randbytes(4), b"\0" * 130 + b"\1"))
        elif x < 0.93:
            n = r.randint(1, 4)
            unit[at : at + n] = r.choice((b"\0", b"\xff", b"\3")) * n
        else:
            unit = unit.replace(b"\0\0\3", b"\0\0", 1)
    return bytes(unit)


def grown(r, unit):
    """The unit made as long as the domain of comparison goes, 65,536 bytes: noise, or zeros up to a last byte."""
    if r.getrandbits(1):
        return unit + b"\xa5" * (65_536 - len(unit))
    rest = (b"\0\0\3" * 22_000)[: 65_536 - len(unit) - 2]
    return unit + b"\x04" + rest + r.choice((b"\1", b"\x80", b"\3"))


def extension(r):
    """Three bytes: MVC mostly; zeros at its end, which must not count towards an escape."""
    first = r.getrandbits(7) | (0x80 if r.random() < 0.15 else 0)
    return bytes([first]) + r.choice((b"\0\0", b"\0\1", r.randbytes(2), r.randbytes(2)))


def other_unit(r):
    """A unit of another type, one that is too short, or any bytes."""
    x = r.random()
    if x < 0.3:
        return bytes([r.getrandbits(7)]) + r.randbytes(r.randint(0, 5))
    if x < 0.6:
        return bytes([r.getrandbits(2) << 5 | r.choice((14, 20, 21))]) + r.randbytes(r.randint(0, 3))
    if x < 0.65:
        return b""
    return bytes([r.getrandbits(8)]) + r.randbytes(r.randint(0, 12))


def torn(r, pieces):
    """The elements as they are, or damaged."""
    y = r.random()
    if y < 0.06:
        return zero_run(r, pieces)
    if y < 0.12:
        return torn_pieces(r, pieces)
    if y < 0.18:
        return soup(r, pieces)
    return pieces


def drawn_set(r):
    """A unit of type 7 or 8."""
    if r.random() < 0.0002:
        return long_set(r)
    first, pieces = set_pieces(r)
    unit = first + escaped(packed("".join(torn(r, pieces))))
    return damaged(r, unit) if r.random() < 0.2 else unit


def drawn_unit(r, table):
    x = r.random()
    if x < 0.04:
        return other_unit(r)
    if x > 0.94:
        return drawn_set(r)
    ref_idc = r.choice((0, 1, 2, 3))
    off = r.choice(OFF) if r.random() < 0.45 else None
    if x < 0.12:
        kind, ext = 14, extension(r)
        ext = bytes([ext[0] | 0x80]) + ext[1:] if r.random() < 0.8 else ext
        pieces = prefix_pieces(r, ext, off)
    else:
        kind = r.choice((1, 1, 1, 5, 5, 20, 21))
        ext = extension(r) if kind >= 20 else b""
        pieces = slice_pieces(r, table, kind, ref_idc, ext, off)
    unit = bytes([ref_idc << 5 | kind]) + ext + escaped(packed("".join(torn(r, pieces)) + tail(r)))
    z = r.random()
    if z < 0.0001:
        return grown(r, unit)
    return damaged(r, unit) if z < 0.25 else unit
