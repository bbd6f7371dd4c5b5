#!/usr/bin/env python3
"""Makes the recordings of the benchmark: a night sky of our own, by x264 (Debian package x264), which fails where that is missing.

recordings.py FOLDER   writes NAME.264 for each recording that is not there yet
"""
import pathlib
import random
import subprocess
import sys

# CABAC, P and B slices, weights that follow the cloud
COMMON = ["--quiet", "--no-progress", "--demuxer", "y4m", "--profile", "high", "--preset", "veryfast", "--bframes", "2", "--weightp", "2", "--ref", "3"]
RECORDINGS = {
    # what goes over a network: a slice fits a packet
    "small": (1280, 720, 96, 6, ["--qp", "30", "--slice-max-size", "1400"]),
    # what a camera keeps: a picture is a slice of some 100 KB
    "large": (1280, 720, 96, 6, ["--qp", "35", "--slices", "1"]),
    # a still sky without noise: nearly all is skipped, and a slice is little more than its header
    "tiny": (320, 192, 600, 0, ["--qp", "40", "--slices", "12"]),
}


def sky(width, height, frames, noise):
    """A 4:2:0 recording in YUV4MPEG2: stars, `noise` bits of noise, and cloud that comes and goes."""
    r = random.Random("sky")
    stars = [(r.randrange(width * height), r.randint(40, 150)) for _ in range(width * height // 400)]
    yield f"YUV4MPEG2 W{width} H{height} F25:1 Ip C420jpeg\n".encode()
    for f in range(frames):
        glow = 40 + abs(f % 48 - 24) if noise else 40
        luma = bytearray(r.randbytes(width * height).translate(bytes(glow + (b & (1 << noise) - 1) for b in range(256))))
        for place, light in stars:
            luma[place] = glow + light
        yield b"FRAME\n" + bytes(luma) + bytes([130]) * (width * height // 4) + bytes([126]) * (width * height // 4)


def main():
    folder = pathlib.Path(sys.argv[1])
    folder.mkdir(parents=True, exist_ok=True)
    for name, (width, height, frames, noise, options) in RECORDINGS.items():
        clip, new = folder / f"{name}.264", folder / f"{name}.new"
        if clip.exists():
            continue
        with subprocess.Popen(["x264", *COMMON, *options, "-o", new, "-"], stdin=subprocess.PIPE) as x264:
            for piece in sky(width, height, frames, noise):
                x264.stdin.write(piece)
            x264.stdin.close()
        if x264.returncode:
            sys.exit(f"recordings: x264 failed on {name}")
        new.rename(clip)
        print(f"recordings: made {clip}: {clip.stat().st_size:,} bytes", file=sys.stderr)


main()
