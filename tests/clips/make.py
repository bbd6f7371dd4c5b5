#!/usr/bin/env python3
"""Makes the clips of this folder and of demo/ anew: a night sky of our own with a comet passing, by x264 and OpenH264 (Debian packages x264, libopenh264-dev).

make.py [FOLDER]   writes NAME.264 for each clip
An encoder's output depends on its version (see README.md); the tests do not depend on these very bytes.
"""
import pathlib
import random
import subprocess
import sys
import tempfile

HERE = pathlib.Path(__file__).resolve().parent

WIDTH, HEIGHT = 176, 144
COMMON = ["--quiet", "--no-progress", "--threads", "1", "--demuxer", "y4m"]
CLIPS = {
    # CABAC, B slices, weights in both directions, four slices a picture
    "comet": (48, ["--profile", "high", "--preset", "slow", "--crf", "21", "--keyint", "24", "--slices", "4", "--bframes", "3", "--weightp", "2", "--aud"]),
    # CAVLC, P slices alone, redundant intra refresh, one IDR picture, slices of at most 700 bytes
    "plain": (48, ["--profile", "baseline", "--crf", "22", "--keyint", "200", "--intra-refresh", "--slice-max-size", "700", "--ref", "3"]),
    # fields allowed (frame_mbs_only_flag 0), order counts of both fields, reordered reference lists
    "fields": (24, ["--profile", "main", "--tff", "--crf", "20", "--keyint", "12", "--ref", "4", "--bframes", "2", "--b-pyramid", "strict"]),
    # the demo: a slice a picture, one IDR picture, QP that falls as the rate allows
    "night": (24, ["--profile", "main", "--bitrate", "120", "--keyint", "250", "--no-scenecut", "--bframes", "2"]),
}
SCALABLE = 24  # frames of the scalable clip: two spatial layers and two temporal ones
FOLDERS = {"night": HERE.parent.parent / "demo"}


def sky(frames):
    """A 4:2:0 recording in YUV4MPEG2: stars that flicker, noise, cloud that comes and goes, and a comet with a tail."""
    r = random.Random("comet")
    stars = [(r.randrange(WIDTH), r.randrange(HEIGHT), r.randint(40, 200)) for _ in range(70)]
    yield f"YUV4MPEG2 W{WIDTH} H{HEIGHT} F25:1 Ip C420jpeg\n".encode()
    for f in range(frames):
        cloud = 0.5 + 0.5 * abs(1 - f / 24)
        glow = int(60 * cloud)
        luma = bytearray(glow + r.getrandbits(3) for _ in range(WIDTH * HEIGHT))
        for x, y, light in stars:
            luma[y * WIDTH + x] = min(255, glow + int(light * cloud * r.uniform(0.8, 1)))
        for tail in range(24, -1, -1):
            x, y = 20 + 2.5 * f - tail * 1.2, 30 + 1.4 * f - tail * 0.8
            for dx in range(-2, 3):
                for dy in range(-2, 3):
                    px, py, light = int(x) + dx, int(y) + dy, int(210 * cloud / (1 + tail / 5) / (1 + dx * dx + dy * dy))
                    if 0 <= px < WIDTH and 0 <= py < HEIGHT:
                        luma[py * WIDTH + px] = max(luma[py * WIDTH + px], min(255, glow + light))
        chroma = bytes([130]) * (WIDTH * HEIGHT // 4) + bytes([126]) * (WIDTH * HEIGHT // 4)
        yield b"FRAME\n" + bytes(luma) + chroma


def by_x264(clip, frames, options):
    subprocess.run(["x264", *COMMON, *options, "-o", str(clip), "-"], input=b"".join(sky(frames)), check=True)


def by_openh264(clip):
    """The scalable clip, by scalable.c."""
    _, *frames = sky(SCALABLE)
    with tempfile.TemporaryDirectory() as folder:
        program = pathlib.Path(folder) / "scalable"
        subprocess.run(["cc", "-O2", "-Wall", "-o", str(program), str(HERE / "scalable.c"), "-lopenh264"], check=True)
        planes = b"".join(frame.partition(b"\n")[2] for frame in frames)
        clip.write_bytes(subprocess.run([program, str(WIDTH), str(HEIGHT)], input=planes, stdout=subprocess.PIPE, check=True).stdout)


def main():
    for name in [*CLIPS, "scalable"]:
        folder = pathlib.Path(sys.argv[1]) if len(sys.argv) > 1 else FOLDERS.get(name, HERE)
        clip = folder / f"{name}.264"
        by_x264(clip, *CLIPS[name]) if name in CLIPS else by_openh264(clip)
        print(f"{clip}: {clip.stat().st_size:,} bytes")


if __name__ == "__main__":
    main()
