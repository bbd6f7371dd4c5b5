#!/usr/bin/env python3
"""Runs the program `listing` on torn recordings and compares what it prints with the output kept in tests/listings.

listings.py           holds what the program prints on each recording to NAME.txt (NAME.txt.gz where it is long), and that to the rules' model in Python; then
                      a slow pipe, and a read and a write that fail
listings.py --write   writes the files, by the model: look at what changed
NAME.hex is the recording; those over 4,096 bytes are made here each time, from a seed.
The program is crates/listing/out/listing, as `rt ci` leaves it; where it is missing or older than its crates, `rt run` makes it.
"""
import gzip
import os
import random
import subprocess
import sys
import time

import rules
from model import CRATES

ROOT = CRATES.parent
HERE = ROOT / "tests/listings"
MOST = 65536
# recordings up to this many bytes are kept as files
SHORT = 4096

TABLE = rules.table_of(rules.SAMPLE.split())


def listing(s):
    """What the rules say is printed."""
    if len(s) > MOST:
        return "end too long\n"
    return "".join(line + "\n" for line in rules.listing(TABLE, s))


# ---- the recordings

CODE = b"\0\0\1"
SAMPLE = bytes.fromhex("000000016588 84a0 000001 09f0")


def from_bits(text):
    text += "0" * (-len(text) % 8)
    return bytes(int(text[i : i + 8], 2) for i in range(0, len(text), 8))


def ue(v):
    digits = f"{v + 1:b}"
    return "0" * (len(digits) - 1) + digits


def se(v):
    return ue(2 * v - 1 if v > 0 else -2 * v)


def escaped(data):
    out, zeros = bytearray(), 0
    for b in data:
        if zeros >= 2 and b <= 3:
            out.append(3)
            zeros = 0
        out.append(b)
        zeros = zeros + 1 if b == 0 else 0
    return bytes(out)


def p_slice(first_mb, frame_num, qp, data):
    """A P slice, nal_ref_idc 2, with slice data after its header."""
    header = ue(first_mb) + ue(5) + ue(0) + f"{frame_num:04b}" + "0" + "0" + "0" + se(qp)
    return b"\x41" + escaped(from_bits(header + "1") + data)


def i_slice(qp, data):
    return b"\x65" + escaped(from_bits(ue(0) + ue(7) + ue(0) + "0000" + ue(0) + "00" + se(qp) + "1") + data)


def clip(seed, pictures=12, size=60):
    """A clip of one slice a picture: an IDR picture, then P pictures, with delimiters and prefix units between them."""
    r = random.Random(seed)
    out = b"\0" + CODE + bytes.fromhex("09f0")
    for i in range(pictures):
        data = bytes(r.randrange(1, 256) for _ in range(r.randrange(size)))
        if i % 5 == 0:
            out += b"\0" + CODE + i_slice(r.randrange(-26, 26), data)
        else:
            if i % 3 == 0:
                out += CODE + bytes([0x6E, r.choice([0x40, 0xC0]), 0, 7, 0x20])
            out += CODE + p_slice(r.randrange(99), i % 16, r.randrange(-26, 26), data)
    return out


def pps(id, qp, rate=0):
    """A picture set under sequence set 0; a change rate makes two slice groups of type 3."""
    groups = ue(1) + ue(3) + "0" + ue(rate - 1) if rate else ue(0)
    return b"\x68" + escaped(from_bits(ue(id) + ue(0) + "00" + groups + ue(0) + ue(0) + "0" + "00" + se(qp) + se(0) + se(0) + "000" + "1"))


def sps(id, width, frame_num=4):
    """A sequence set of profile 66: order count type 2, one row of map units."""
    return b"\x67" + escaped(from_bits(f"{66:08b}{0:08b}{30:08b}" + ue(id) + ue(frame_num - 4) + ue(2) + ue(1) + "0" + ue(width - 1) + ue(0) + "1" + "1001"))


def torn(s, at, sector):
    return s[:at] + sector + s[at + len(sector) :]


def recordings():
    whole, r = clip(1), random.Random(7)
    middle = len(whole) // 2
    noise = bytes(r.randrange(256) for _ in range(128))
    yield "document", SAMPLE
    yield "nothing", b""
    yield "zeros", bytes(64)
    yield "one_byte", b"\1"
    yield "no_start_code", b"\0\0\2\x65\x88\x84\xa0"
    yield "clip", whole
    yield "cut_in_a_unit", whole[: middle + 3]
    yield "begun_in_a_unit", whole[middle + 3 :]
    yield "sector_of_zeros", torn(whole, middle, bytes(128))
    yield "sector_of_noise", torn(whole, middle, noise)
    yield "sector_of_noise_with_codes", torn(whole, middle, noise[:60] + CODE + noise[60:90] + CODE + noise[90:])
    yield "sector_from_elsewhere", torn(whole, middle, whole[16 : 16 + 128])
    yield "sector_lost", whole[:middle] + whole[middle + 128 :]
    yield "code_in_the_last_three_bytes", b"\x09" + CODE
    yield "code_cut", SAMPLE + b"\0\0"
    yield "empty_units", CODE + CODE + b"\0" + CODE + b"\0\0\0\0" + CODE + b"\x09" + CODE
    yield "zeros_at_the_end", SAMPLE + bytes(9)
    yield "zeros_before_a_code", CODE + b"\x09\xf0" + bytes(5) + CODE + b"\x0b"
    yield "first_bytes", b"".join(CODE + bytes([b]) for b in (0x80, 0xFF, 0x00, 0x09, 0x14, 0x1F, 0x6E, 0x65, 0x01))
    yield "prefix_units", b"".join(CODE + bytes.fromhex(u) for u in ("0e400007", "0ec00007", "6ec00007", "6ec0000720", "6ec00007a0ff", "6ec0000780", "6e4000", "6ec00007b0", "6e80000790", "6e80001710", "6e800007c8", "6e800007d0"))
    yield "views", b"".join(CODE + bytes.fromhex(u) for u in ("744000019aa964ffc0", "748000009aa964ffc0", "740010078884a0", "7540000199a0", "14400001"))
    yield "levels", b"".join(CODE + p_slice(0, 1, q, b"\xff") for q in (25, 26, -26, -27, 0, 2147483647, -2147483647))
    yield "large_values", b"".join(CODE + b"\x01" + escaped(from_bits(t + "1" * 16)) for t in (ue(0) + ue(4294967294), ue(0) + ue(10), ue(0) + ue(5) + ue(256), ue(0) + ue(5) + ue(255), "0" * 31 + "1", "0" * 24))
    yield "nothing_follows", b"".join(CODE + bytes.fromhex(u) for u in ("65888480", "658884c0", "658884a0"))
    yield "escaped", CODE + bytes.fromhex("6500000301") + CODE + bytes.fromhex("41000003000003")
    slices = CODE + i_slice(0, b"\xff" * 5) + CODE + p_slice(3, 5, -2, b"\xff" * 5)
    yield "sets", CODE + sps(0, 99) + CODE + pps(0, 4) + slices
    yield "sets_replaced", slices + CODE + pps(0, -7) + slices + CODE + sps(0, 99, 9) + slices + CODE + pps(0, 4, 11) + slices + CODE + sps(0, 7) + slices
    yield "sets_refused", CODE + pps(0, 4) + CODE + pps(256, 9) + CODE + pps(0, 26) + CODE + sps(32, 9) + CODE + sps(0, 16_777_217) + CODE + pps(0, 9)[:3] + CODE + sps(0, 5)[:4] + slices
    yield "sets_of_other_ids", CODE + pps(255, 4) + CODE + sps(31, 5) + slices + CODE + b"\x67" + CODE + b"\x68" + CODE + b"\x6f\x42\0\x3e" + slices
    for n in (MOST, MOST + 1):
        yield f"bytes_{n}", (clip(3, 3000) + bytes(n))[:n]
    yield "many_units", (CODE + b"\x09") * (MOST // 4)
    yield "long_unit", CODE + b"\x65" + b"\x88" * (MOST - 4)


# ---- the program


def command():
    """The program, as `rt ci` or `rt run` makes it."""
    newest = max(p.stat().st_mtime for c in ("lines", "list_steps", "listing", "walk", "unit") for p in (CRATES / c / "src").glob("*.rt"))
    program = CRATES / "listing/out/listing"
    if not program.exists() or program.stat().st_mtime < newest:
        done = subprocess.run(["rt", "run"], cwd=CRATES / "listing", stdin=subprocess.DEVNULL, capture_output=True, text=True)
        if done.returncode:
            sys.exit(done.stderr[-2000:] + "listings: the program is not proved, so there is none to run")
    return [str(program)]


def slow(program, s):
    """Pieces of a few bytes, with pauses, so that start codes and headers are cut by the reads."""
    p = subprocess.Popen(program, stdin=subprocess.PIPE, stdout=subprocess.PIPE, stderr=subprocess.PIPE)
    for i in range(0, len(s), 5):
        p.stdin.write(s[i : i + 5])
        p.stdin.flush()
        time.sleep(0.01)
    out, err = p.communicate()
    return out, err


def kept(name, s):
    """Where the expected output of a recording is kept."""
    return HERE / (f"{name}.txt" if len(s) <= SHORT else f"{name}.txt.gz")


def write(name, s):
    text = listing(s).encode()
    if len(s) <= SHORT:
        (HERE / f"{name}.hex").write_text(s.hex(" ", 1) + "\n")
        kept(name, s).write_bytes(text)
    else:
        kept(name, s).write_bytes(gzip.compress(text, mtime=0))


def expected(name, s):
    data = kept(name, s).read_bytes()
    return (gzip.decompress(data) if len(s) > SHORT else data).decode()


def main():
    faults, count = [], 0
    cases = dict(recordings())
    if "--write" in sys.argv:
        for name, s in cases.items():
            write(name, s)
        return
    wanted = {name: expected(name, s) for name, s in cases.items()}
    for name, s in cases.items():
        if len(s) <= SHORT and bytes.fromhex((HERE / f"{name}.hex").read_text()) != s:
            faults.append(f"{name}: {name}.hex is not the recording that is made here")
        if wanted[name] != listing(s):
            faults.append(f"{name}: {kept(name, s).name} is not what the model says")
    program = command()

    def compare(name, out, err, want):
        nonlocal count
        count += 1
        if out.decode() != want or err:
            faults.append(f"{name}: the program wrote {out.decode()[:300]!r} and said {err.decode()!r}; expected {want[:300]!r}")

    for name, s in cases.items():
        done = subprocess.run(program, input=s, capture_output=True)
        compare(name, done.stdout, done.stderr, wanted[name])
    for name in ("document", "clip", "nothing"):
        compare(f"{name}, slowly", *slow(program, cases[name]), wanted[name])
    # a folder can be opened and not read: that is no end of input, and no listing is written
    folder = os.open(HERE, os.O_RDONLY)
    done = subprocess.run(program, stdin=folder, capture_output=True)
    count += 1
    if done.stdout or done.returncode != 1 or b"cannot be read" not in done.stderr:
        faults.append(f"a read that fails: the program wrote {done.stdout!r}, said {done.stderr!r} and ended with {done.returncode}")
    # nor is a line that cannot be written taken for written
    with open("/dev/full", "wb") as full:
        done = subprocess.run(program, input=SAMPLE, stdout=full, stderr=subprocess.PIPE)
    count += 1
    if done.returncode != 1 or b"cannot be written" not in done.stderr:
        faults.append(f"a write that fails: the program said {done.stderr!r} and ended with {done.returncode}")
    for fault in faults:
        print("listings:", fault)
    if faults:
        sys.exit(1)
    print(f"listings: {count} runs of the program, each as kept in tests/listings")


main()
