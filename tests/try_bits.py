#!/usr/bin/env python3
"""The cases that crates/try_bits is given, and what it must print, worked out from the rules and the standard in plain Python, with no line of the library.

try_bits.py           compares with crates/try_bits/stdin and crates/try_bits/stdout, and exits non-zero where they differ
try_bits.py --write   writes these files
"""
from rules import MVC, SVC
from model import hold

LAST = 2**64 - 1
BITS, FLAG, UE, SE, PUT_BITS, PUT_FLAG, PUT_UE, PUT_SE, WIDTH, TYPE, HEADER, EXTENSION, BODY = range(13)  # what is asked, as crates/try_bits/src/cases.rt has it
cases, lines = [], []


def case(name, said, kind, at=0, n=0, v=0, given=b""):
    """A line of the input, with the line that it must be answered by."""
    place = "-0" if at == LAST else at  # counted back from the last place
    cases.append(f"{name}:{kind},{place},{n},{v},{len(given)} {' '.join(str(b) for b in given)}".rstrip())
    lines.append(f"{name}: {said}")


def bits(data):
    return "".join(f"{b:08b}" for b in data)


def refused(number, value=0, at=None):
    """at: the bit where the refused field begins, if it is read."""
    return f"refused {number} value={value}" + ("" if at is None else f" bit={at}")


# ---- reading: a value and the next place, or a refusal


def fixed(data, at, n):
    n = min(n, 32)
    s = bits(data)
    if at + n > len(s):
        return refused(5, at=at)
    return int(s[at : at + n] or "0", 2), at + n


def ue(data, at):
    s = bits(data)[at:]
    if s.startswith("0" * 32):
        return refused(6, at=at)
    zeros = len(s) - len(s.lstrip("0"))
    if zeros == len(s) or len(s) < 2 * zeros + 1:
        return refused(5, at=at)
    return int(s[: 2 * zeros + 1], 2) - 1, at + 2 * zeros + 1


def se(data, at):
    a = ue(data, at)
    if isinstance(a, str):
        return a
    k, e = a
    return ((k + 1) // 2 if k % 2 else -(k // 2)), e


def answer(a):
    return a if isinstance(a, str) else f"{a[0]} next={a[1]}"


def flag(data, at):
    a = fixed(data, at, 1)
    return a if isinstance(a, str) else (["clear", "set"][a[0]], a[1])


def reads():
    s = bytes.fromhex("a5ff00817e")
    for name, at, n, data in [
        ("u(0) at 0", 0, 0, s),
        ("u(0) at the end", 40, 0, s),
        ("u(0) past the end", 41, 0, s),
        ("u(1) at 0", 0, 1, s),
        ("u(31) at 3", 3, 31, s),
        ("u(32) at 8", 8, 32, s),
        ("u(32) at 9", 9, 32, s),
        ("u(33), which counts as 32, at 7", 7, 33, s),
        ("u(1) at the last place", LAST, 1, s),
        ("u(8) of nothing", 0, 8, b""),
    ]:
        case(name, answer(fixed(data, at, n)), BITS, at, n, given=data)
    for name, at in [("flag at 0", 0), ("flag at 1", 1), ("flag at 39", 39), ("flag at the end", 40)]:
        case(name, answer(flag(s, at)), FLAG, at, given=s)
    for name, at, body in [
        ("ue 1", 0, "80"),
        ("ue 00100", 0, "20"),
        ("ue 00100 at 3", 3, "e4"),
        ("ue of 31 zeros and 32 ones", 0, "00000001fffffffe"),
        ("ue of 31 zeros, cut by a byte", 0, "00000001ffffff"),
        ("ue of 31 zeros, from bit 7 on", 7, "0000000003fffffffd"),
        ("ue of 32 zeros", 0, "00000000"),
        ("ue of 32 zeros and a one", 0, "0000000080"),
        ("ue of 31 zeros and the end", 1, "00000000"),
        ("ue of 28 zeros", 0, "0000000fffffff80"),
        ("ue of 29 zeros", 0, "00000007ffffffe0"),
        ("ue at the end", 8, "80"),
        ("ue at the last place", LAST, "80"),
        ("ue of nothing", 0, ""),
    ]:
        case(name, answer(ue(bytes.fromhex(body), at)), UE, at, given=bytes.fromhex(body))
    for name, body in [
        ("se code 0", "80"),
        ("se code 1", "40"),
        ("se code 2", "60"),
        ("se code 4294967293", "00000001fffffffc"),
        ("se code 4294967294", "00000001fffffffe"),
        ("se of 32 zeros", "00000000"),
        ("se cut", "00"),
    ]:
        case(name, answer(se(bytes.fromhex(body), 0)), SE, given=bytes.fromhex(body))


# ---- writing: the next place or a refusal, and the buffer, which held FF everywhere


def put(size, at, code):
    """code: the bits to write, or None where the value has none."""
    old = "1" * (8 * size)
    if code is None:
        said, new = refused(25), old
    elif at + len(code) > len(old):
        said, new = refused(26, -(-(at + len(code)) // 8)), old
    else:
        end = at + len(code)
        said, new = f"next={end}", old
        if code:
            byte = -(-end // 8) * 8
            new = old[:at] + code + "0" * (byte - end) + old[byte:]
    held = " ".join(f"{int(new[i:i + 8], 2):02x}" for i in range(0, len(new), 8))
    return f"{said} buffer {held}"


def fixed_code(n, v):
    n = min(n, 32)
    return None if v >= 2**n else f"{v:0{n}b}" if n else ""


def ue_code(v):
    if v >= 2**32 - 1:
        return None
    digits = f"{v + 1:b}"
    return "0" * (len(digits) - 1) + digits


def se_code(v):
    return ue_code(2 * v - 1 if v > 0 else -2 * v)


def puts():
    for name, at, n, v in [
        ("put u(0)", 3, 0, 0),
        ("put u(0) of 1", 3, 0, 1),
        ("put u(3) of 5 at 2", 2, 3, 5),
        ("put u(3) of 8", 2, 3, 8),
        ("put u(32) at 5", 5, 32, 2863311530),
        ("put u(33), which counts as 32", 0, 33, 4294967295),
        ("put u(32) at 16", 16, 32, 1),
        ("put u(32) at 17", 17, 32, 1),
        ("put u(1) at the last place", LAST, 1, 1),
    ]:
        case(name, put(6, at, fixed_code(n, v)), PUT_BITS, at, n, v)
    for name, at, v in [("put a set flag", 7, 1), ("put a clear flag", 8, 0), ("put a flag at the end", 16, 1)]:
        case(name, put(2, at, str(v)), PUT_FLAG, at, v=v)
    for name, at, v in [
        ("put ue 0", 0, 0),
        ("put ue 3 at 6", 6, 3),
        ("put ue 4294967294 at 1", 1, 4294967294),
        ("put ue 4294967295", 0, 4294967295),
        ("put ue 4294967294 at 10", 10, 4294967294),
    ]:
        case(name, put(9, at, ue_code(v)), PUT_UE, at, v=v)
    for name, at, v in [
        ("put se 0", 0, 0),
        ("put se -1 at 5", 5, -1),
        ("put se 2147483647", 0, 2147483647),
        ("put se -2147483647", 0, -2147483647),
        ("put se -2147483648", 0, -2147483648),
    ]:
        case(name, put(9, at, se_code(v)), PUT_SE, at, v=v)


def width(size, rate):
    b = 0
    while rate and 2**b * rate < size + rate:
        b += 1
    case(f"width of {size} by {rate}", b, WIDTH, n=size, v=rate)


def widths():
    top = 2**32 - 1
    for size, rate in [(99, 11), (99, 12), (100, 11), (7, 1), (8, 1), (1, 5), (0, 5), (5, 0), (2**24, 1), (2**24, 2**24), (top, 1), (top, top)]:
        width(size, rate)


# ---- units


def units():
    for id in [0, 1, 5, 14, 17, 21, 22, 31, 32, 255]:
        case(f"type {id}", id if id < 32 else f"out of range {id}", TYPE, n=id)
    case("no byte", refused(1), HEADER)
    for unit in ["00", "6588", "7f", "80", "ff"]:
        b = int(unit[:2], 16)
        said = refused(2) if b & 0x80 else f"nal_ref_idc={b >> 5} nal_unit_type={b & 31}"
        case(f"first byte {b:02X}", said, HEADER, given=bytes.fromhex(unit))
    case("extension of 3 bytes", refused(4), EXTENSION, given=bytes.fromhex("6e8000"))
    for unit in ["74000000", "747fffff", "74400140", "6e800000", "6effffff", "6ec19a5000"]:
        unit = bytes.fromhex(unit)
        case(f"extension {unit[1:4].hex(' ').upper()}", extension(unit[1:4]), EXTENSION, given=unit)
    for name, unit, start in [
        ("body 00 00 03 00 00 03 01", "6500000300000301", 1),
        ("body 00 00 03 00 03", "650000030003", 1),
        ("body 00 00 00 03", "6500000003", 1),
        ("body 00 00 03 at the end", "65000003", 1),
        ("body 00 03 after a first byte 00", "00000301", 1),
        ("body 03 after an extension of zeros", "740000000301", 4),
        ("body 00 00 04 and 00 00 01", "65000004000001", 1),
        ("body of nothing", "65", 1),
        ("body from past the end", "65", 7),
        ("body of 12 bytes", "650102030405060708090a0b", 1),
        ("body of 13 bytes", "650102030405060708090a0b0c", 1),
    ]:
        case(name, body(bytes.fromhex(unit), start), BODY, start, given=bytes.fromhex(unit))


def extension(three):
    s = bits(three)
    at, words = 1, [{"0": "mvc", "1": "svc"}[s[0]]]
    for name, n in {"0": MVC, "1": SVC}[s[0]]:
        words.append(f"{name}={int(s[at:at + n], 2)}")
        at += n
    return " ".join(words)


def body(unit, start):
    scratch = bytearray(b"\xee" * 12)
    if len(unit) > len(scratch):
        said = refused(26, len(unit))
    else:
        out, zeros = bytearray(), 0
        for b in unit[start:]:
            if zeros >= 2 and b == 3:
                zeros = 0
                continue
            out.append(b)
            zeros = zeros + 1 if b == 0 else 0
        scratch[: len(out)] = out
        said = f"bytes={len(out)}"
    return f"{said} scratch {scratch.hex(' ')}"


reads()
puts()
widths()
units()
hold("try_bits", [str(len(cases))] + cases, "stdin")
hold("try_bits", lines)
