#!/usr/bin/python3
"""The module `tuzmarghil` for Python says what the command says, unit by unit. Run by Debian's python3, with numpy.

    PYTHONPATH=FOLDER tests/python.py [--port PROGRAM]
"""
import argparse
import json
import os
import pathlib
import subprocess
import sys
import tempfile

import numpy
import tuzmarghil

ROOT = pathlib.Path(__file__).resolve().parent.parent
NAMES = "place length answer refusal value bit why nal_unit_type nal_ref_idc first_mb_in_slice slice_type family pic_parameter_set_id seq_parameter_set_id frame_num slice_qp_delta bits qp".split()
TYPES = {"prefix": 14, "sps": 7, "pps": 8}


def held(what, good):
    if not good:
        sys.exit(f"python: {what}")


def told(port, clip):
    """The command's objects. Of another unit it names the type alone, of a prefix unit and a set not even that."""
    words = [port, "headers", clip, "-q", "--format", "json"]
    for line in subprocess.run(words, check=True, capture_output=True, text=True).stdout.splitlines():
        unit = json.loads(line)
        if unit["answer"] not in ("slice", "refused"):
            unit["nal_unit_type"] = unit.get("type", TYPES.get(unit["answer"]))
        yield {name: unit.get(name) for name in NAMES}


KINDS = "place length nal_unit_type nal_ref_idc ext ext_bytes refusal value why".split()


def kinds_told(port, clip):
    words = [port, "kinds", clip, "-q", "--format", "json"]
    for line in subprocess.run(words, check=True, capture_output=True, text=True).stdout.splitlines():
        unit = json.loads(line)
        yield {name: unit.get("type" if name == "nal_unit_type" else name) for name in KINDS}


EXPOSURE = "number place slices qp_least qp_mean qp_greatest frame_num gap refused_before".split()
TOTALS = "exposures gaps refused redundant views".split()


def exposures_told(port, clip):
    """The command's objects and totals. It tells a mean with two decimals, and a gap as 0 or 1."""
    done = subprocess.run([port, "exposures", clip, "--format", "json"], check=True, capture_output=True, text=True)
    totals = done.stderr.strip().splitlines()[-1].rpartition(": ")[2].replace(",", "").split()
    return [json.loads(line) for line in done.stdout.splitlines()], dict(zip(TOTALS, map(int, totals[::2])))


def exposed(port, clip):
    wanted, totals = exposures_told(port, str(clip))
    found = tuzmarghil.exposures(clip)
    ours = [{name: getattr(e, name) for name in EXPOSURE} for e in found]
    ours = [{**e, "qp_mean": float(f"{e['qp_mean']:.2f}"), "gap": int(e["gap"])} for e in ours]
    held(f"{clip.name}: another exposure", ours == wanted and wanted)
    held(f"{clip.name}: other totals", {name: found.totals[name] for name in TOTALS} == totals)
    parts = [count for name, count in found.totals.items() if name not in ("exposures", "gaps")]
    held(f"{clip.name}: the counts do not add up", sum(parts) == len(list(tuzmarghil.reports(clip))))
    return len(wanted)


def compared(port, clip):
    wanted = list(told(port, str(clip)))
    found = [{name: getattr(r, name) for name in NAMES} for r in tuzmarghil.reports(clip)]
    held(f"{clip.name}: another unit", wanted == found and wanted)
    kinds = [{name: getattr(k, name) for name in KINDS} for k in tuzmarghil.kinds(clip)]
    held(f"{clip.name}: another kind", kinds == list(kinds_told(port, str(clip))) and len(kinds) == len(wanted))
    qp = numpy.asarray(tuzmarghil.qp(str(clip)))
    points = [numpy.nan if u["answer"] == "refused" else u["qp"] for u in wanted if u["answer"] in ("slice", "refused")]
    held(f"{clip.name}: another QP", numpy.array_equal(qp, points, equal_nan=True) and qp.dtype == numpy.float64)
    return len(wanted), int(numpy.isnan(qp).sum())


def by_length(port, folder, clip):
    """The same clip by length has the same units, at other places; and where it is cut, those before the broken length."""
    framed, cut = folder / "framed", folder / "cut"
    subprocess.run([port, "convert", clip, "-o", framed, "--to", "length", "-q"], check=True)
    cut.write_bytes(framed.read_bytes()[:-1])

    def fields(found, names):
        return [[getattr(x, name) for name in names if name != "place"] for x in found]

    for what, names in (tuzmarghil.reports, NAMES), (tuzmarghil.kinds, KINDS), (tuzmarghil.exposures, EXPOSURE):
        coded, whole, part = what(clip), what(framed, framing="length"), what(cut, framing="length")
        same, less = fields(whole, names), fields(part, names)
        held(f"{clip.name} by length: another unit", same == fields(coded, names))
        held(f"{clip.name} by length: broken", coded.broken is None and whole.broken is None)
        last = list(tuzmarghil.reports(framed, framing="length"))[-1]
        held(f"{clip.name} cut: another place", part.broken == last.place - 4)
        held(f"{clip.name} cut: another unit", what is tuzmarghil.exposures or less == same[:-1])
    qp, less = (numpy.asarray(tuzmarghil.qp(x, framing="length")) for x in (framed, cut))
    held(f"{clip.name} by length: another QP", numpy.array_equal(qp, tuzmarghil.qp(clip), equal_nan=True))
    held(f"{clip.name} cut: no NaN at the end", numpy.isnan(less[-1]))


def errors():
    clip = ROOT / "demo/night.264"
    movie = pathlib.Path(tempfile.gettempdir()) / f"tuz-{os.getpid()}.mp4"
    movie.write_bytes(b"\0\0\0\x20ftypisom" + bytes(24) + clip.read_bytes())
    for call, kind in [
        (lambda: tuzmarghil.reports("/nowhere/clip.264"), OSError),
        (lambda: tuzmarghil.qp("/nowhere/clip.264"), OSError),
        (lambda: tuzmarghil.kinds("/nowhere/clip.264"), OSError),
        (lambda: tuzmarghil.exposures("/nowhere/clip.264"), OSError),
        (lambda: list(tuzmarghil.exposures(ROOT)), OSError),
        (lambda: tuzmarghil.kinds(movie), ValueError),
        (lambda: list(tuzmarghil.reports(ROOT)), OSError),
        (lambda: tuzmarghil.reports(movie), ValueError),
        (lambda: tuzmarghil.reports(movie, framing="length"), ValueError),
        (lambda: tuzmarghil.kinds(clip, framing="lengths"), ValueError),
        (lambda: tuzmarghil.reports(clip, "sps:0"), ValueError),
        (lambda: tuzmarghil.reports(clip, "sps:0:1:0:0:17:2:0:0:1:99"), ValueError),
    ]:
        try:
            call()
        except kind:
            continue
        sys.exit(f"python: no {kind.__name__}")
    movie.unlink()
    sets = [r.word for r in tuzmarghil.reports(clip) if r.answer in ("sps", "pps")]
    held("the clip's sets are others", sets == ["sps:0:1:0:0:4:0:2:0:1:99", "pps:0:0:1:0:2:0:1:2:0:0:1:0:0"])
    bare = pathlib.Path(tempfile.gettempdir()) / f"tuz-{os.getpid()}.264"
    bare.write_bytes(b"\0\0\0\1" + clip.read_bytes()[740:])
    unread = [r for r in tuzmarghil.reports(bare) if r.answer == "refused"]
    held("without their sets slices are not refused with 9", [r.refusal for r in unread] == [9] * 24)
    held("a refusal does not show its place", "refusal=9 bit=" in repr(unread[0]))
    given = [r.qp for r in tuzmarghil.reports(bare, " ".join(sets)) if r.answer == "slice"]
    held("sets to start with do not serve", given == list(tuzmarghil.qp(clip)))
    bare.unlink()
    held("the sample sets are not sets", next(tuzmarghil.reports(clip, tuzmarghil.SAMPLE)).answer == "sps")
    held("a report does not show itself", "place=4" in repr(next(tuzmarghil.reports(clip))))
    held("an exposure does not show itself", "number=1 place=740 slices=1" in repr(next(tuzmarghil.exposures(clip))))
    held("a kind does not show itself", "place=4 length=22 type=7" in repr(next(tuzmarghil.kinds(clip))))


def main():
    p = argparse.ArgumentParser(description=__doc__, formatter_class=argparse.RawDescriptionHelpFormatter)
    p.add_argument("--port", default=os.environ.get("TUZ", str(ROOT / "rust/target/release/tuz")))
    args = p.parse_args()
    clips = [ROOT / "demo/torn.264", *sorted((ROOT / "tests/clips").glob("*.264"))]
    counts = [compared(args.port, clip) for clip in clips]
    pictures = sum(exposed(args.port, clip) for clip in clips)
    with tempfile.TemporaryDirectory() as folder:
        for clip in clips:
            by_length(args.port, pathlib.Path(folder), clip)
    errors()
    units, refused = (sum(n) for n in zip(*counts))
    print(f"python: {units} units of {len(clips)} clips, {refused} of them refused, and {pictures} exposures are as the command tells them, and by length alike")


main()
