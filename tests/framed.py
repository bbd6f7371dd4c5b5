#!/usr/bin/env python3
"""Recordings framed by length: a model of the walk and of the two converters, and what must hold of it.

    tests/framed.py [--seed S] [--count N] [--archive FILE] [--port PROGRAM]

`step`, `walk`, `to_start_codes` and `to_lengths` say what docs/RULES.md, 'Framed by length', says; `made`, `coded` and `damaged` make recordings. Tried on N small
recordings, half of them damaged: steps chain to the walk, from any place; a unit is carried exactly where it is found again behind start codes; there and back gives
the same units, and from lengths the same bytes; 27, 29, 35, 27 and 26 come in this order, with these values; damage leaves the units before it. Last, the smallest
damage that reaches behind.

With FILE, the static library that tools/archive makes, its steps and its converters answer each of these recordings as the model does, the converters with output that is
just long enough, too long and too short, and leave every other byte of it as it was; and 27 on recordings of the limit's length. With PROGRAM, `PROGRAM convert` takes clips there and back, byte for byte where all start codes have
four bytes; and, where ffmpeg is there, the samples of an MP4 file have the units that its h264_mp4toannexb gives. Exits non-zero and says what differs.
"""
import argparse
import ctypes
import itertools
import json
import pathlib
import random
import re
import shutil
import subprocess
import sys
import tempfile

from rules import units

LIMIT = 268_435_456
CODE = b"\0\0\0\1"
BAD = re.compile(rb"\0\0[\0\1]|\0\Z")


# ---- the model


def step(recording, start, limit=LIMIT):
    """What the walk comes to from any place: (place, unit), None at the end, or a refusal's number and value."""
    if len(recording) > limit:
        return 27, 0
    size, rest = recording[start : start + 4], recording[start + 4 :]
    if start >= len(recording):
        return None
    if len(size) < 4 or int.from_bytes(size, "big") > len(rest):
        return 29, start
    return start + 4, rest[: int.from_bytes(size, "big")]


def walk(recording):
    """All units with their places, and the place of the broken length that ends them, or None."""
    found, at = [], 0
    while at < len(recording):
        size = int.from_bytes(recording[at : at + 4], "big")
        if at + 4 + size > len(recording) or len(recording) - at < 4:
            return found, at
        found.append((at + 4, recording[at + 4 : at + 4 + size]))
        at += 4 + size
    return found, None


def carried(unit):
    return not BAD.search(unit)


def put(result, room, limit):
    if len(result) > limit:
        return 27, 0
    return (26, len(result)) if len(result) > room else result


def behind_lengths(bodies):
    return b"".join(len(unit).to_bytes(4, "big") + unit for unit in bodies)


def to_start_codes(recording, room, limit=LIMIT):
    """The result's bytes, or a refusal's number and value."""
    found, broken = walk(recording)
    if len(recording) > limit:
        return 27, 0
    if broken is not None:
        return 29, broken
    for place, unit in found:
        if not carried(unit):
            return 35, place
    return put(b"".join(CODE + unit for _, unit in found), room, limit)


def to_lengths(recording, room, limit=LIMIT):
    if len(recording) > limit:
        return 27, 0
    return put(behind_lengths(unit for _, unit in units(recording)), room, limit)


# ---- recordings


def body(r):
    """A unit's bytes: few of them, with zeros and ones in every place, and now and then none or many."""
    size = r.choice((0, 1, 1, 2, 3, 4, 5, 8, r.randrange(300)))
    return bytes(r.choice((0, 0, 0, 1, 3, 0x65, r.randrange(256))) for _ in range(size))


def clean(r):
    """The same, of units that are carried."""
    return BAD.sub(b"\x67", BAD.sub(b"\x41\x09", body(r)))


def made(r, unit=body):
    return behind_lengths(unit(r) for _ in range(r.randrange(6)))


def coded(r):
    """Units between start codes of three or four bytes, with other bytes before and zeros between and behind."""
    out = bytes(r.choice((0, 1, 7)) for _ in range(r.randrange(4)))
    for _ in range(r.randrange(6)):
        out += bytes(r.randrange(4)) + b"\0\0\1" + body(r)
    return out + bytes(r.randrange(4))


def damaged(r, recording):
    """The recording with a part of it changed, taken out or put in; and the first place that may differ."""
    at = r.randrange(len(recording) + 1)
    end = min(len(recording), at + r.choice((0, 1, 1, 2, 3, 4, 9)))
    middle = bytes(r.choice((0, 0, 1, 2, 255, r.randrange(256))) for _ in range(r.choice((0, 1, 1, 2, 3, 4, 9))))
    return recording[:at] + middle + recording[end:], at


# ---- what must hold


def expect(held, what, *shown):
    if not held:
        sys.exit(f"framed: {what}: " + "; ".join(x.hex(" ") if isinstance(x, bytes) else repr(x) for x in shown))


def found_again(unit):
    """Whether a unit comes out of start codes as it went in, before another one and at the end."""
    return [u for _, u in units(CODE + unit + CODE + b"\x65")] == [unit, b"\x65"] and [u for _, u in units(CODE + unit)] == [unit]


def check_walk(recording, r):
    found, broken = walk(recording)
    at, seen = 0, []
    while isinstance(came := step(recording, at), tuple) and isinstance(came[1], bytes):
        seen.append(came)
        at = came[0] + len(came[1])
    expect(seen == found and came == (None if broken is None else (29, broken)), "steps are not the walk", recording)
    expect(step(recording, at) == came, "the last step is not the same again", recording)
    place = r.randrange(len(recording) + 3)
    tail = step(recording[place:], 0)
    shifted = tail and ((29, tail[1] + place) if tail[0] == 29 and isinstance(tail[1], int) else (tail[0] + place, tail[1]))
    expect(step(recording, place) == shifted, "a step from a place is not that of what stands there", recording, place)
    expect(step(recording, 0, len(recording) - 1) == (27, 0), "27 is not first", recording)


def check_to_codes(recording):
    found, broken = walk(recording)
    bad = [place for place, unit in found if not found_again(unit)]
    result = to_start_codes(recording, len(recording))
    why = (29, broken) if broken is not None else (35, bad[0]) if bad else None
    expect(to_start_codes(recording, 0, len(recording) - 1) == (27, 0), "27 is not first", recording)
    if why:
        expect(result == why == to_start_codes(recording, 0), "a refusal", recording, result, why)
        return 0
    expect(isinstance(result, bytes) and len(result) == len(recording), "the result's size", recording, result)
    expect([u for _, u in units(result)] == [u for _, u in found], "units lost on the way to start codes", recording)
    expect(to_lengths(result, len(recording)) == recording, "back from start codes", recording)
    if recording:
        expect(to_start_codes(recording, len(recording) - 1) == (26, len(recording)), "26", recording)
    return 1


def check_to_lengths(recording):
    bodies = [u for _, u in units(recording)]
    result = to_lengths(recording, 2 * len(recording))
    expect(isinstance(result, bytes) and all(map(carried, bodies)), "35 from start codes", recording, result)
    found, broken = walk(result)
    expect(broken is None and [u for _, u in found] == bodies, "units lost on the way to lengths", recording)
    back = to_start_codes(result, len(result))
    expect(isinstance(back, bytes) and [u for _, u in units(back)] == bodies, "back from lengths", recording, back)
    if recording == b"".join(CODE + u for u in bodies):
        expect(back == recording, "four-byte start codes there and back", recording)
    if len(result) > len(recording):
        expect(to_lengths(recording, 0, len(result) - 1) == (27, 0), "27 for the result", recording)
    if result:
        expect(to_lengths(recording, len(result) - 1) == (26, len(result)), "26", recording)


def check_damage(recording, torn, at):
    before = [(p, u) for p, u in walk(recording)[0] if p + len(u) <= at]
    expect([(p, u) for p, u in walk(torn)[0] if p + len(u) <= at] == before == walk(recording[:at])[0], "damage that reaches back", recording, torn)


def smallest():
    """The smallest damage that reaches behind: recordings M S and N S, of the fewest bytes, in which the units whose length begins in S differ, places counted from
    the end. Of zeros and ones alone; other bytes only make lengths longer."""
    for total in range(20):
        for sizes in itertools.product(range(4), range(4), range(7)):
            if sum(sizes) + sizes[2] == total:
                for m, n, s in itertools.product(*(map(bytes, itertools.product((0, 1), repeat=size)) for size in sizes)):
                    late = [[(len(x) + len(s) - p, u) for p, u in walk(x + s)[0] if p - 4 >= len(x)] for x in (m, n)]
                    if late[0] != late[1]:
                        return m, n, s


# ---- the compiled library


class Converted(ctypes.Structure):
    """include/tuzmarghil.h, tuz_ConvertedOut."""

    _fields_ = [("number", ctypes.c_uint32), ("value", ctypes.c_int64), ("bytes", ctypes.c_size_t)]


class Step(ctypes.Structure):
    """include/tuzmarghil.h, tuz_StepOut."""

    _fields_ = [("step", ctypes.c_uint32), ("number", ctypes.c_uint32), ("value", ctypes.c_int64), ("place", ctypes.c_size_t), ("length", ctypes.c_size_t), ("next", ctypes.c_size_t)]


class Library:
    """The archive, as a shared library."""

    def __init__(self, archive, folder):
        shared = pathlib.Path(folder) / "converters.so"
        subprocess.run(["cc", "-shared", "-o", shared, "-Wl,--whole-archive", archive, "-Wl,--no-whole-archive"], check=True)
        self.library = ctypes.CDLL(str(shared))
        self.calls = 0

    def call(self, name, recording, size, out, room):
        result = Converted()
        function = getattr(self.library, name)
        function.restype = None
        function(ctypes.byref(result), recording, ctypes.c_size_t(size), out, ctypes.c_size_t(room))
        self.calls += 1
        return result

    def check(self, name, model, recording, room):
        """One call: its answer, and all of the output."""
        before = bytes(range(1, 256)) * (room // 255 + 1)
        out = ctypes.create_string_buffer(before[:room], room)
        got = self.call(name, recording, len(recording), out, room)
        want = model(recording, room)
        if isinstance(want, bytes):
            expect((got.number, got.value, got.bytes) == (0, 0, len(want)), f"{name} answers {got.number, got.value, got.bytes}", recording, want)
            expect(out.raw == want + before[len(want) : room], f"what {name} leaves", recording, out.raw)
        else:
            expect((got.number, got.value, got.bytes) == (*want, 0), f"{name} answers {got.number, got.value, got.bytes}", recording, want)
            expect(out.raw == before[:room], f"{name} is refused, and the output is another", recording)

    def stepped(self, recording, start):
        """One step from a place."""
        got = Step()
        self.library.tuz_next_framed.restype = None
        self.library.tuz_next_framed(ctypes.byref(got), recording, ctypes.c_size_t(len(recording)), ctypes.c_size_t(start))
        self.calls += 1
        came = step(recording, start)
        if came is None:
            want = (0, 0, 0, 0, 0, 0)
        elif isinstance(came[1], bytes):
            want = (1, 0, 0, came[0], len(came[1]), came[0] + len(came[1]))
        else:
            want = (2, *came, 0, 0, 0)
        expect(tuple(getattr(got, name) for name, _ in Step._fields_) == want, f"tuz_next_framed from {start} is not {want}", recording)
        return got.next if got.step == 1 else None

    def held(self, recording, coded_one, r):
        start = 0
        while start is not None:
            start = self.stepped(recording, start)
        self.stepped(recording, r.randrange(len(recording) + 3))
        for name, model, given in ("tuz_to_start_codes", to_start_codes, recording), ("tuz_to_lengths", to_lengths, coded_one):
            result = model(given, 2 * len(given) + 4)
            exact = len(result) if isinstance(result, bytes) else r.randrange(len(given) + 1)
            for room in {exact, max(exact - 1, 0), exact + 1 + r.randrange(9), len(given) // 3 * 4 + 2}:
                self.check(name, model, given, room)

    def limits(self):
        """27 for the recording, before 29; and for the result, before 26. No output is needed for it."""
        zeros = ctypes.create_string_buffer(LIMIT + 1)
        for name, size, want in [
            ("tuz_to_start_codes", LIMIT + 1, (27, 0)),
            ("tuz_to_start_codes", LIMIT - 1, (29, LIMIT - 4)),
            ("tuz_to_start_codes", LIMIT, (26, LIMIT)),
            ("tuz_to_lengths", LIMIT + 1, (27, 0)),
        ]:
            got = self.call(name, zeros, size, None, 0)
            expect((got.number, got.value) == want, f"{name} of {size} zeros is {got.number, got.value}, not {want}")
        codes = b"\0\0\1" * (LIMIT // 3)
        got = self.call("tuz_to_lengths", codes, len(codes), None, 0)
        expect((got.number, got.value) == (27, 0), f"27 for the result is {got.number, got.value}")
        fewer = codes[: LIMIT // 4 * 3]
        got = self.call("tuz_to_lengths", fewer, len(fewer), None, 0)
        expect((got.number, got.value) == (26, LIMIT), f"26 at the limit is {got.number, got.value}")


# ---- the command, on clips

ROOT = pathlib.Path(__file__).resolve().parent.parent
CLIPS = [ROOT / "demo/night.264", *sorted((ROOT / "tests/clips").glob("*.264"))]


def convert(port, given, out, to):
    subprocess.run([port, "convert", given, "-o", out, "--to", to, "-q"], check=True)
    return out.read_bytes()


def there_and_back(port, folder, clip):
    """A clip's units; whether all of its start codes have four bytes, so that it comes back byte for byte."""
    recording = clip.read_bytes()
    bodies = [unit for _, unit in units(recording)]
    framed = convert(port, clip, folder / "framed", "length")
    expect(framed == behind_lengths(bodies), f"{clip.name} by length has other units")
    back = convert(port, folder / "framed", folder / "back.264", "start-codes")
    expect(back == b"".join(CODE + unit for unit in bodies), f"{clip.name} there and back has other units")
    return bodies, back == recording


def samples(movie):
    """The samples of an MP4 file's track, joined: ffprobe says where they are."""
    words = ["ffprobe", "-v", "error", "-select_streams", "v", "-show_entries", "packet=pos,size", "-of", "json", movie]
    told = json.loads(subprocess.run(words, check=True, capture_output=True).stdout)["packets"]
    data = movie.read_bytes()
    return b"".join(data[int(p["pos"]) :][: int(p["size"])] for p in told)


def by_ffmpeg(port, folder, clip):
    """An MP4 file of a clip: its samples, converted, have the units of h264_mp4toannexb, but for the parameter sets that it puts in from the file's header."""
    movie, stream, framed = folder / "clip.mp4", folder / "annexb.264", folder / "samples"
    ffmpeg = ["ffmpeg", "-y", "-v", "error"]
    subprocess.run([*ffmpeg, "-fflags", "+genpts", "-r", "25", "-f", "h264", "-i", clip, "-c", "copy", movie], check=True)
    subprocess.run([*ffmpeg, "-i", movie, "-c", "copy", "-bsf:v", "h264_mp4toannexb", "-f", "h264", stream], check=True)
    framed.write_bytes(samples(movie))
    ours = [unit for _, unit in units(convert(port, framed, folder / "ours.264", "start-codes"))]
    theirs = [unit for _, unit in units(stream.read_bytes())]
    sets = {unit for unit in theirs if unit[0] & 31 in (7, 8)}
    expect([u for u in ours if u not in sets] == [u for u in theirs if u not in sets], f"{clip.name}: h264_mp4toannexb gives other units")
    return len(ours)


def on_clips(port):
    found, same, movies = 0, 0, 0
    with tempfile.TemporaryDirectory() as temporary:
        folder = pathlib.Path(temporary)
        for clip in CLIPS:
            bodies, _ = there_and_back(port, folder, clip)
            found += len(bodies)
            four = folder / "four.264"
            four.write_bytes(b"".join(CODE + unit for unit in bodies))
            same += there_and_back(port, folder, four)[1]
            if shutil.which("ffmpeg") and shutil.which("ffprobe"):
                movies += by_ffmpeg(port, folder, clip)
    expect(same == len(CLIPS), f"of {len(CLIPS)} clips with start codes of four bytes {same} came back byte for byte")
    how = f"{movies} units of MP4 samples as h264_mp4toannexb has them" if movies else "skipped: no ffmpeg, so MP4 samples are not compared"
    print(f"framed: {found} units of {len(CLIPS)} clips there and back; {how}")


def main():
    words = argparse.ArgumentParser()
    words.add_argument("--seed", type=int, default=101)
    words.add_argument("--count", type=int, default=100_000)
    words.add_argument("--archive")
    words.add_argument("--port")
    given = words.parse_args()
    folder = tempfile.TemporaryDirectory()
    library = Library(given.archive, folder.name) if given.archive else None
    r, converted = random.Random(given.seed), 0
    for number in range(given.count):
        recording = made(r, clean if r.random() < 0.5 else body)
        if number % 2:
            torn, at = damaged(r, recording)
            check_damage(recording, torn, at)
            recording = torn
        check_walk(recording, r)
        converted += check_to_codes(recording)
        with_codes = coded(r) if r.random() < 0.8 else b"".join(CODE + clean(r) for _ in range(r.randrange(5)))
        check_to_lengths(with_codes)
        if library:
            library.held(recording, with_codes, r)
    expect(smallest() == (b"", b"\0", bytes(4)), "the smallest damage that reaches behind", *smallest())
    print(f"framed: {given.count} recordings framed by length, {converted} of them converted there and back, and as many with start codes")
    if library:
        library.limits()
        print(f"framed: the library answered {library.calls} calls as the model does")
    if given.port:
        on_clips(given.port)


if __name__ == "__main__":
    main()
