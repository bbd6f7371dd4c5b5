#!/usr/bin/env python3
"""Where pictures begin in clips of real encoders, and in recordings of field pictures: as ffmpeg's parser and GStreamer's h264parse have it.

    tests/boundaries.py [--port PROGRAM | --model] [--kept] [--keep FOLDER] [--seed S]

Of each clip the exposures' first places and counts of slices are held to the packets of `ffprobe` and to the access units of `h264parse`, which go by
first_mb_in_slice; and, where they are known, to the frames that were encoded. The clips: those of tests/clips and demo/, and, but with --kept, those that traces.py
makes by every encoder at hand, with sliced threads and joined ones with several picture sets beside them, and recordings made of bits, of frames and fields with several
slices and picture sets in each order count type, since no encoder here makes field pictures. Then departures, which must come as they are explained: where
first_mb_in_slice does not tell pictures apart, the peers do something else. PROGRAM is asked as `PROGRAM exposures CLIP` (else $TUZ, else the one that ./tuz has built); with --model, rules.py and
exposures.py answer. What is not at hand is named as skipped; with CI=true the status is 1 where no peer is, but with --kept.
"""
import argparse
import json
import os
import pathlib
import random
import sys
import tempfile

import rules
from exposures import Slice, coded, command, exposures, sets, within
from traces import CLIPS as ENCODED
from traces import Missing, make, ran
from clips.make import sky

ROOT = pathlib.Path(__file__).resolve().parent.parent
# frames that tests/clips/make.py encodes; none of them is coded as two fields, which would be two exposures
KEPT = {"tests/clips/comet.264": 48, "tests/clips/fields.264": 24, "tests/clips/plain.264": 48, "tests/clips/scalable.264": 24, "demo/night.264": 24}
FRAMES = 16
MORE = {
    "x264 sliced threads": ["x264", "--profile", "high", "--sliced-threads", "--threads", "4", "--bframes", "2"],
    "x264 MBAFF, four slices": ["x264", "--profile", "main", "--tff", "--slices", "4", "--b-pyramid", "normal", "--bframes", "4"],
    "x264 small slices, B pyramid": ["x264", "--profile", "high", "--slice-max-size", "250", "--bframes", "5", "--b-pyramid", "strict", "--b-adapt", "0"],
}


# ---- pictures as lists of slices' places


def slices(recording):
    """Place and bytes of the slices of types 1 and 5."""
    return [(place, unit) for place, unit in rules.units(recording) if unit and unit[0] & 31 in (1, 5)]


def by_ffmpeg(clip):
    """The slices of each packet that ffmpeg's parser makes."""
    told = ran("ffprobe", ["-v", "error", "-f", "h264", "-show_entries", "packet=pos,size", "-of", "json", str(clip)]).stdout
    packets = [(int(packet["pos"]), int(packet["size"])) for packet in json.loads(told)["packets"]]
    places = [place for place, _ in slices(clip.read_bytes())]
    return [found for pos, size in packets if (found := [p for p in places if pos <= p < pos + size])]


def by_gstreamer(clip):
    """The slices of each access unit of h264parse, which must be the clip's."""
    own, out = slices(clip.read_bytes()), []
    with tempfile.TemporaryDirectory() as folder:
        units = "video/x-h264,stream-format=byte-stream,alignment=au"
        words = ["-q", "filesrc", f"location={clip}", "!", "h264parse", "!", units, "!", "multifilesink", f"location={folder}/%08d"]
        ran("gst-launch-1.0", words)
        for path in sorted(pathlib.Path(folder).iterdir()):
            count = len(slices(path.read_bytes()))
            at = sum(map(len, out))
            if [unit for _, unit in slices(path.read_bytes())] != [unit for _, unit in own[at : at + count]]:
                sys.exit(f"boundaries: {clip.name}: h264parse has other slices than the clip, from slice {at} on")
            if count:
                out.append([place for place, _ in own[at : at + count]])
    return out


PEERS = {"ffmpeg's parser": by_ffmpeg, "GStreamer's h264parse": by_gstreamer}


def items(recording):
    """A recording's units as the model takes them: read by rules.py."""
    table = {}
    for place, unit, line in rules.walk(table, recording):
        kind, _, rest = line.partition(" ")
        if kind != "slice":
            yield {"refused": "refused", "prefix": "prefix"}.get(kind, "other")
            continue
        said = {name: int(value) for name, value in (w.split("=") for w in rest.split()) if value.lstrip("-").isdigit()}
        if said["nal_unit_type"] in (20, 21):
            yield "view"
        elif said.get("redundant_pic_cnt"):
            yield "redundant"
        else:
            picture = table["pps", said["pic_parameter_set_id"]]
            sequence = table["sps", picture.sps_id]
            deltas = (rest.partition("delta_pic_order_cnt=")[2].split() or ["0"])[0].split(":")
            yield Slice(
                place=place,
                qp=26 + picture.pic_init_qp_minus26 + said["slice_qp_delta"],
                idr=said["nal_unit_type"] == 5,
                pic_order_cnt_type=sequence.pic_order_cnt_type,
                log2_max_frame_num=sequence.log2_max_frame_num,
                delta_pic_order_cnt_0=int(deltas[0]),
                delta_pic_order_cnt_1=int((deltas + ["0"])[1]),
                **{f: said.get(f, 0) for f in ("nal_ref_idc", "frame_num", "pic_parameter_set_id", "field_pic_flag", "bottom_field_flag", "pic_order_cnt_lsb", "delta_pic_order_cnt_bottom", "idr_pic_id")},
            )


def pictures(args, clip):
    """Place and count of slices of each exposure."""
    if args.model:
        return [(e.place, e.slices) for e in exposures(list(items(clip.read_bytes())))[0]]
    return [(int(row[1]), int(row[2])) for row in command(args.port, clip)[0]]


def compared(args, clip, frames=None):
    """What differs, how many pictures there are, and the peers that were asked."""
    found, asked = pictures(args, clip), []
    if frames is not None and len(found) != frames:
        return f"{len(found)} exposures of {frames} pictures", found, asked
    for name, peer in PEERS.items():
        try:
            theirs = [(group[0], len(group)) for group in peer(clip)]
        except Missing:
            continue
        asked.append(name)
        if theirs != found:
            at = next((k for k, (a, b) in enumerate(zip(theirs, found)) if a != b), min(len(theirs), len(found)))
            return f"exposure {at + 1}: ours {found[at : at + 2]} of {len(found)}, {name}'s {theirs[at : at + 2]} of {len(theirs)}", found, asked
    return None, found, asked


# ---- recordings made of bits


def behind_code(unit):
    return b"\0\0\0\1" + unit


def field_pictures(r, order_count_type, frames=60):
    """Frames and pairs of fields, each of 1 to 4 slices, by one of three picture sets; and how many pictures there are."""
    base = Slice(pic_order_cnt_type=order_count_type, log2_max_frame_num=4)
    seed, inits, out = r.random(), {}, b""
    for pps in (0, 1, 255):
        # one sequence set for all of them
        sps, picture, inits[pps] = sets(random.Random(seed), base._replace(pic_parameter_set_id=pps))
        out += behind_code(sps) + behind_code(picture)
    count = number = reference = 0
    for frame in range(frames):
        idr = frame % 12 == 0
        # behind a frame that is no reference stands one that is: with order count type 2 nothing else would tell them apart, and the standard asks for it
        reference = 3 if idr or not reference else r.choice((0, 1, 3))
        number = 0 if idr else number
        fields = r.choice(((None,), (False, True), (True, False)))
        for k, bottom in enumerate(fields):
            s = base._replace(
                nal_ref_idc=reference,
                idr=idr and k == 0,
                frame_num=number,
                pic_parameter_set_id=r.choice((0, 1, 255)),
                field_pic_flag=bottom is not None,
                bottom_field_flag=bool(bottom),
                pic_order_cnt_lsb=2 * frame + bool(bottom),
                delta_pic_order_cnt_0=frame % 3,
                idr_pic_id=frame // 12,
            )
            s, first = within(s), 0
            for _ in range(r.randrange(1, 5)):
                out += behind_code(coded(s._replace(qp=r.randrange(52)), inits[s.pic_parameter_set_id], first_mb=first))
                first += r.randrange(1, 24)
            count += 1
        number = (number + bool(reference)) % 16
    return out, count


def departures(comet):
    """Recordings of which the peers think otherwise: name, bytes, how many exposures there are, how many pictures each peer sees, and why."""
    units = [unit for _, unit in rules.units(comet) if unit[0] & 31 != 9]
    # four slices a picture; the first one of every tenth picture is lost. An access unit delimiter would tell where a picture begins
    firsts = [n for n, unit in enumerate(units) if unit[0] & 31 in (1, 5) and unit[1] & 128]
    lost = b"".join(behind_code(unit) for n, unit in enumerate(units) if n not in firsts[5::10])
    yield "the first slice of five pictures is lost", lost, 48, {"ffmpeg's parser": 48, "GStreamer's h264parse": 43}, "for h264parse a picture begins where first_mb_in_slice is 0; ffmpeg's parser looks whether it grows"
    sps, pps, init = sets(random.Random(1), Slice())
    front = behind_code(sps) + behind_code(pps)
    row = [within(Slice(frame_num=n, pic_order_cnt_lsb=2 * n)) for n in range(8)]
    twice = front + b"".join(behind_code(coded(s, init)) + behind_code(coded(s, init, redundant=1)) for s in row)
    yield "a redundant slice behind each", twice, 8, {"ffmpeg's parser": 16, "GStreamer's h264parse": 16}, "first_mb_in_slice is 0 again in a redundant slice, which they do not look for"
    order = front + b"".join(behind_code(coded(s, init, first_mb=n)) for s in row for n in (0, 60, 30))
    yield "slices in any order", order, 8, {"ffmpeg's parser": 16, "GStreamer's h264parse": 8}, "ffmpeg's parser takes a first_mb_in_slice that does not grow for a picture's first"


# ---- all of it


def main():
    p = argparse.ArgumentParser(description=__doc__, formatter_class=argparse.RawDescriptionHelpFormatter)
    p.add_argument("--port", default=os.environ.get("TUZ", str(ROOT / "rust/target/release/tuz")))
    p.add_argument("--model", action="store_true")
    p.add_argument("--kept", action="store_true")
    p.add_argument("--keep", type=pathlib.Path)
    p.add_argument("--seed", type=int, default=1)
    args = p.parse_args()
    faults, clips, total, skipped, departed, asked = [], 0, 0, 0, 0, {}

    def compare(name, clip, frames=None):
        nonlocal clips, total
        told, found, peers = compared(args, clip, frames)
        if told:
            faults.append(f"{name}: {told}")
            print(f"boundaries: {faults[-1]}")
        clips, total = clips + 1, total + len(found)
        for peer in peers:
            asked[peer] = asked.get(peer, 0) + 1

    for name, frames in KEPT.items():
        compare(name, ROOT / name, frames)
    with tempfile.TemporaryDirectory() as temporary:
        folder = args.keep or pathlib.Path(temporary)
        folder.mkdir(parents=True, exist_ok=True)
        source, ids = folder / "sky.y4m", []
        source.write_bytes(b"".join(sky(FRAMES)))
        made = {} if args.kept else {**ENCODED, **MORE, **{f"x264, id {n}": ["x264", "--sps-id", str(n), "--slices", "2", "--bframes", "2"] for n in (0, 5, 31)}}
        for n, (name, words) in enumerate(made.items()):
            clip = folder / f"{n}.264"
            try:
                make(clip, source, words)
            except Missing as why:
                print(f"boundaries: skipped: {name}: {why}")
                skipped += 1
                continue
            compare(name, clip, None if words[0] == "openh264" else FRAMES)
            ids += [clip] if name.startswith("x264, id") else []
        if ids:
            joined = folder / "joined.264"
            joined.write_bytes(b"".join(clip.read_bytes() for clip in ids))
            compare("picture sets 0, 5 and 31, joined", joined, len(ids) * FRAMES)
        r = random.Random(args.seed)
        for n in range(0 if args.kept else 30):
            recording, count = field_pictures(r, n % 3)
            clip = folder / f"fields_{n}.264"
            clip.write_bytes(recording)
            compare(f"fields of order count type {n % 3}", clip, count)
        for name, recording, count, theirs, why in departures((ROOT / "tests/clips/comet.264").read_bytes()):
            clip = folder / "departure.264"
            clip.write_bytes(recording)
            found = len(pictures(args, clip))
            if found != count:
                faults.append(f"{name}: {found} exposures of {count}")
                print(f"boundaries: {faults[-1]}")
            for peer, pictures_of in theirs.items():
                try:
                    seen = len(PEERS[peer](clip))
                except Missing:
                    continue
                if seen != pictures_of:
                    faults.append(f"{name}: {peer} has {seen} pictures, where {pictures_of} are explained: {why}")
                    print(f"boundaries: {faults[-1]}")
                departed += 1
    peers = ", ".join(f"{peer} on {n}" for peer, n in asked.items()) or "no peer is at hand"
    print(f"boundaries: {clips} clips, {skipped} skipped, {total:,} exposures, each where the peers have it ({peers}); {departed} departures as explained; {len(faults)} faults")
    return bool(faults) or (not asked and not args.kept and os.environ.get("CI") == "true")


if __name__ == "__main__":
    sys.exit(main())
