#!/usr/bin/env python3
"""Clips of every encoder that is at hand: all elements of all slices and parameter sets, as ffmpeg's trace_headers has them, with no table.

    tests/traces.py [--port PROGRAM | --model] [--keep FOLDER] [CLIP ..]

The clips are made here, of a few pictures each: by x264, ffmpeg's libx264, GStreamer's x264enc and openh264enc, and OpenH264 itself (tests/clips/scalable.c), from
baseline to 4:4:4 with 10 bits, fields, scaling lists and many slices; those of tests/clips and demo/ go with them. What is not at hand is named as skipped.
PROGRAM is asked as `PROGRAM headers CLIP` (else $TUZ, else the one that ./tuz has built); with --model, rules.py answers. An element that stands on one side alone, or
has another value, and a header of another length, is told, and the exit status is 1. With CI=true it is 1 too where nothing could be compared.
"""
import argparse
import os
import pathlib
import re
import shutil
import subprocess
import sys
import tempfile

import rules
from clips.make import by_openh264, sky

ROOT = pathlib.Path(__file__).resolve().parent.parent
TRACED = re.compile(r"^\[trace_headers @ \w+\] (?:(\d+) +([\w\[\]]+) +([01]+) = (-?\d+)|(Packet: .*|Extradata|[A-Z][\w -]+))$")
STRUCTURES = {"Slice Header": "slice", "Sequence Parameter Set": "sps", "Picture Parameter Set": "pps"}

X264 = ["--quiet", "--no-progress", "--threads", "2"]
CLIPS = {
    "x264 baseline": ["x264", "--profile", "baseline", "--slices", "3"],
    "x264 baseline, small slices": ["x264", "--profile", "baseline", "--slice-max-size", "300", "--ref", "5"],
    "x264 main": ["x264", "--profile", "main", "--bframes", "3", "--weightp", "2", "--ref", "4"],
    "x264 main, fields": ["x264", "--profile", "main", "--tff", "--ref", "3", "--keyint", "6"],
    "x264 main, fields, bottom first": ["x264", "--profile", "main", "--bff", "--bframes", "2"],
    "x264 fake interlaced": ["x264", "--profile", "main", "--fake-interlaced"],
    "x264 high": ["x264", "--profile", "high", "--preset", "slower", "--bframes", "5", "--b-pyramid", "normal", "--keyint", "8", "--aud"],
    "x264 high, open GOP, an id of 5": ["x264", "--profile", "high", "--open-gop", "--keyint", "7", "--sps-id", "5", "--bframes", "3"],
    "x264 high, scaling lists (jvt)": ["x264", "--profile", "high", "--cqm", "jvt"],
    "x264 high, scaling lists (own)": ["x264", "--profile", "high", "--cqm4", "6,13,20,28,13,20,28,32,20,28,32,37,28,32,37,42", "--cqm8", ",".join(str(8 + i) for i in range(64))],
    "x264 high, no deblocking, no CABAC": ["x264", "--profile", "high", "--no-deblock", "--no-cabac"],
    "x264 high, deblocking offsets": ["x264", "--profile", "high", "--deblock", "-3:4", "--bluray-compat", "--level", "4.1"],
    "x264 high, intra refresh": ["x264", "--profile", "high", "--intra-refresh", "--ref", "1"],
    "x264 high, CBR": ["x264", "--profile", "high", "--bitrate", "300", "--vbv-maxrate", "300", "--vbv-bufsize", "300", "--nal-hrd", "cbr"],
    "x264 high, explicit weights": ["x264", "--profile", "high", "--weightp", "2", "--weightb", "--ref", "6", "--keyint", "40"],
    "x264 lossless": ["x264", "--qp", "0", "--profile", "high444"],
    "x264 high, 10 bit": ["x264", "--output-depth", "10", "--profile", "high10"],
    "x264 high, 10 bit, low QP": ["x264", "--output-depth", "10", "--profile", "high10", "--qp", "2"],
    "x264 4:0:0": ["x264", "--output-csp", "i400", "--profile", "high"],
    "x264 4:2:2": ["x264", "--output-csp", "i422", "--profile", "high422"],
    "x264 4:2:2, 10 bit, fields": ["x264", "--output-csp", "i422", "--output-depth", "10", "--profile", "high422", "--tff"],
    "x264 4:4:4": ["x264", "--output-csp", "i444", "--profile", "high444", "--weightp", "2"],
    "x264 4:4:4, 10 bit": ["x264", "--output-csp", "i444", "--output-depth", "10", "--profile", "high444", "--bframes", "3"],
    "x264 4:4:4, scaling lists": ["x264", "--output-csp", "i444", "--profile", "high444", "--cqm", "jvt"],
    "x264 stitchable": ["x264", "--stitchable", "--keyint", "5", "--profile", "high"],
    "ffmpeg libx264": ["ffmpeg", "-pix_fmt", "yuv420p", "-x264-params", "slices=2:keyint=9"],
    "ffmpeg libx264, 4:2:2": ["ffmpeg", "-pix_fmt", "yuv422p10le"],
    "ffmpeg libx264, fields": ["ffmpeg", "-pix_fmt", "yuv420p", "-flags", "+ilme+ildct", "-x264-params", "tff=1"],
    "ffmpeg libx264, fastest": ["ffmpeg", "-pix_fmt", "yuv420p", "-preset", "ultrafast", "-tune", "zerolatency"],
    "ffmpeg libx264rgb": ["ffmpeg", "-c:v", "libx264rgb", "-pix_fmt", "rgb24"],
    "GStreamer x264enc": ["gst", "x264enc", "bframes=2"],
    "GStreamer x264enc, low latency": ["gst", "x264enc", "tune=zerolatency", "sliced-threads=true", "speed-preset=superfast"],
    "GStreamer openh264enc": ["gst", "openh264enc"],
    "GStreamer openh264enc, slices": ["gst", "openh264enc", "slice-mode=n-slices", "num-slices=3", "gop-size=6"],
    "GStreamer openh264enc, screen": ["gst", "openh264enc", "usage-type=screen", "complexity=high"],
    "OpenH264, two layers": ["openh264"],
}


class Missing(Exception):
    """What is not at hand."""


def ran(program, words, **more):
    if not shutil.which(program):
        raise Missing(f"there is no {program}")
    done = subprocess.run([program, *words], stdout=subprocess.PIPE, stderr=subprocess.PIPE, **more)
    if done.returncode:
        raise Missing(f"{program}: {done.stderr.decode(errors='replace').strip().splitlines()[-1:]}")
    return done


def make(clip, source, words):
    """Encodes the pictures."""
    by, *options = words
    if by == "x264":
        ran("x264", [*X264, *options, "--demuxer", "y4m", "-o", str(clip), str(source)])
    elif by == "ffmpeg":
        encoder = [] if "-c:v" in options else ["-c:v", "libx264"]
        ran("ffmpeg", ["-y", "-loglevel", "error", "-i", str(source), *encoder, *options, "-f", "h264", str(clip)])
    elif by == "gst":
        if not shutil.which("gst-inspect-1.0") or subprocess.run(["gst-inspect-1.0", "--exists", options[0]]).returncode:
            raise Missing(f"GStreamer has no {options[0]}")
        stream = "video/x-h264,stream-format=byte-stream"
        ran("gst-launch-1.0", ["-q", "filesrc", f"location={source}", "!", "y4mdec" if has_y4m() else "decodebin", "!", "videoconvert", "!", *options, "!", stream, "!", "filesink", f"location={clip}"])
    else:
        try:
            by_openh264(clip)
        except (OSError, subprocess.CalledProcessError) as e:
            raise Missing(str(e)) from e
    if not clip.exists() or not clip.stat().st_size:
        raise Missing(f"{by} wrote nothing")


def has_y4m():
    return not subprocess.run(["gst-inspect-1.0", "--exists", "y4mdec"]).returncode


# ---- ffmpeg's side


def traced(clip):
    """The structures of a clip as ffmpeg traces them: kind, elements in order, and the bit behind the last."""
    done = ran("ffmpeg", ["-hide_banner", "-nostats", "-i", str(clip), "-c", "copy", "-bsf:v", "trace_headers", "-f", "null", "-"])
    found, packets, kind = [], False, None
    for line in done.stderr.decode(errors="replace").splitlines():
        match = TRACED.match(line)
        if not match:
            continue
        at, name, bits, value, title = match.groups()
        if title:
            packets |= title.startswith("Packet")
            kind = STRUCTURES.get(title) if packets else None
            if kind:
                found.append((kind, [], [0]))
        elif kind and not name.startswith(("forbidden", "rbsp", "cabac_alignment")):
            found[-1][1].append((re.sub(r"\[\d+\]", "", name), int(value)))
            found[-1][2][0] = int(at) + len(bits)
    return found


# ---- ours


def lines(args, clip):
    """An answer line for each unit; a set's fields by name."""
    if args.model:
        for _, _, line in rules.walk({}, clip.read_bytes()):
            kind, _, rest = line.partition(" ")
            if kind in ("sps", "pps"):
                held = rules.set_of(rest)
                line = " ".join([kind, *(f"{n}={v}" for n, v in zip(held._fields, held))])
            yield line
        return
    done = subprocess.run([args.port, "headers", "-q", str(clip)], capture_output=True, text=True)
    if done.returncode:
        raise SystemExit(f"traces: {args.port}: {done.stderr}")
    for line in done.stdout.splitlines():
        yield line.split(" ", 3)[3]


LISTS = {
    "mods_l0": {0: ["abs_diff_pic_num_minus1"], 1: ["abs_diff_pic_num_minus1"], 2: ["long_term_pic_num"]},
    "mmco": {1: ["difference_of_pic_nums_minus1"], 2: ["long_term_pic_num"], 3: ["difference_of_pic_nums_minus1", "long_term_frame_idx"], 4: ["max_long_term_frame_idx_plus1"], 5: [], 6: ["long_term_frame_idx"]},
}
LISTS["mods_l1"] = LISTS["mods_l0"]
CODES = {"mods_l0": "modification_of_pic_nums_idc", "mods_l1": "modification_of_pic_nums_idc", "mmco": "memory_management_control_operation"}
NOT_READ = ("family", "qp", "bits", "seq_parameter_set_id", "ref_pic_list_modification_flag_l0", "ref_pic_list_modification_flag_l1")


def listed(name, text, closing):
    """The elements of a list."""
    for entry in text.split(",") if text != "-" else []:
        code, *operands = map(int, entry.split(":"))
        yield CODES[name], code
        yield from zip(LISTS[name][code], operands, strict=True)
    yield CODES[name], closing


def weighed(list, text):
    """The elements of weights, entry by entry."""
    for entry in text.split(","):
        for part, name in zip(entry.split("/"), ("luma", "chroma")):
            yield f"{name}_weight_{list}_flag", int(part != "-")
            for i, n in enumerate(part.split(":") if part != "-" else []):
                yield f"{name}_{'offset' if i % 2 else 'weight'}_{list}", int(n)


def elements(line):
    """A slice's elements in the order of the syntax, and the bit behind the last."""
    words = dict(w.split("=") for w in line.split()[1:])
    flags = {f"mods_l{i}": words.get(f"ref_pic_list_modification_flag_l{i}") for i in (0, 1)}
    out = []
    for name, text in words.items():
        if name in NOT_READ:
            continue
        if name in flags:
            out.append((f"ref_pic_list_modification_flag_{name[-2:]}", int(flags[name])))
            out += listed(name, text, 3) if flags[name] == "1" else []
        elif name == "mmco":
            out += listed(name, text, 0)
        elif name.startswith("weights_"):
            out += weighed(name[-2:], text)
        elif name == "delta_pic_order_cnt":
            out += [(name, int(n)) for n in text.split(":")]
        else:
            out.append((name, int(text)))
    return out, 8 + int(words["bits"])


SEQUENCE = "seq_parameter_set_id chroma_format_idc separate_colour_plane_flag bit_depth_luma_minus8 log2_max_pic_order_cnt_lsb_minus4 pic_order_cnt_type delta_pic_order_always_zero_flag frame_mbs_only_flag".split()
PICTURE = "pic_parameter_set_id seq_parameter_set_id entropy_coding_mode_flag bottom_field_pic_order_in_frame_present_flag num_ref_idx_l0_default_active_minus1 num_ref_idx_l1_default_active_minus1 weighted_pred_flag weighted_bipred_idc pic_init_qp_minus26 pic_init_qs_minus26 deblocking_filter_control_present_flag redundant_pic_cnt_present_flag".split()
SHORT = {"id": None, "sps_id": "seq_parameter_set_id", "change_rate": "slice_group_change_rate"}


def fields(kind, line):
    """A set's fields as we tell them, by name."""
    own = "seq_parameter_set_id" if kind == "sps" else "pic_parameter_set_id"
    pairs = (w.split("=") for w in line.split()[1:])
    return {(own if name == "id" else SHORT.get(name, name)): int(value) for name, value in pairs}


def fields_of(kind, found):
    """The same out of what ffmpeg traces."""
    have = dict(found)
    if kind == "sps":
        out = {name: have.get(name, int(name == "chroma_format_idc")) for name in SEQUENCE}
        out["log2_max_frame_num"] = 4 + have["log2_max_frame_num_minus4"]
        out["pic_size_in_map_units"] = (have["pic_width_in_mbs_minus1"] + 1) * (have["pic_height_in_map_units_minus1"] + 1)
        return out
    return {**{name: have[name] for name in PICTURE}, "slice_group_change_rate": have.get("slice_group_change_rate_minus1", -1) + 1}


def compared(args, name, clip):
    """What differs, and how many slices, sets and elements there were. Units of types 14 and 20 are not traced."""
    wanted = traced(clip)
    found = [line for line in lines(args, clip) if line.startswith(("slice", "sps", "pps", "refused"))]
    found = [line for line in found if " nal_unit_type=20 " not in line and not line.startswith("refused 13 ")]
    count = {"slice": 0, "sps": 0, "pps": 0}
    total = 0
    for i, ((kind, theirs, end), line) in enumerate(zip(wanted, found)):
        if not line.startswith(kind):
            return f"{name}: unit {i}: ffmpeg has {kind}, and we {line[:60]}", count, total
        if kind == "slice":
            ours, behind = elements(line)
            if ours != theirs:
                at = next((k for k, (a, b) in enumerate(zip(ours, theirs)) if a != b), min(len(ours), len(theirs)))
                return f"{name}: unit {i}: element {at}: ours {ours[at : at + 2]}, ffmpeg's {theirs[at : at + 2]}", count, total
            if behind != end[0]:
                return f"{name}: unit {i}: our header ends at bit {behind}, ffmpeg's at {end[0]}", count, total
            total += len(ours)
        else:
            ours, theirs = fields(kind, line), fields_of(kind, theirs)
            if ours != theirs:
                return f"{name}: unit {i}: ours {ours}, ffmpeg's {theirs}", count, total
            total += len(ours)
        count[kind] += 1
    if len(wanted) != len(found):
        return f"{name}: we have {len(found)} slices and sets, ffmpeg {len(wanted)}", count, total
    return None, count, total


def main():
    p = argparse.ArgumentParser(description=__doc__, formatter_class=argparse.RawDescriptionHelpFormatter)
    p.add_argument("--port", default=os.environ.get("TUZ", str(ROOT / "rust/target/release/tuz")))
    p.add_argument("--model", action="store_true")
    p.add_argument("--keep", type=pathlib.Path)
    p.add_argument("clips", nargs="*", type=pathlib.Path)
    args = p.parse_args()
    faults, sums, total, clips, skipped = [], {}, 0, 0, 0
    with tempfile.TemporaryDirectory() as temporary:
        folder = args.keep or pathlib.Path(temporary)
        folder.mkdir(parents=True, exist_ok=True)
        source = folder / "sky.y4m"
        source.write_bytes(b"".join(sky(16)))
        kept = args.clips or [ROOT / "demo/night.264", *sorted((ROOT / "tests/clips").glob("*.264"))]
        todo = [(path.name, path, None) for path in kept]
        todo += [(name, folder / (re.sub(r"\W+", "_", name) + ".264"), words) for name, words in CLIPS.items() if not args.clips]
        for name, clip, words in todo:
            try:
                if words:
                    make(clip, source, words)
                told, count, elements_seen = compared(args, name, clip)
            except Missing as why:
                print(f"traces: skipped: {name}: {why}")
                skipped += 1
                continue
            clips += 1
            total += elements_seen
            for kind, n in count.items():
                sums[kind] = sums.get(kind, 0) + n
            if told or not count["slice"]:
                faults.append(told or f"{name}: no slice")
                print(f"traces: {faults[-1]}")
    got = ", ".join(f"{n:,} {kind}" for kind, n in sums.items())
    print(f"traces: {clips} clips, {skipped} skipped: {got}: {total:,} elements, {len(faults)} clips otherwise than ffmpeg has them")
    return bool(faults) or (not clips and os.environ.get("CI") == "true")


if __name__ == "__main__":
    sys.exit(main())
