#!/usr/bin/env python3
"""Runs the commands that the documents show, and compares what they print with what is shown.

    tests/shown.py [--port PROGRAM] [--write] [FILE ..]

In the blocks that begin with ```console, a line `$ COMMAND` is a command, and the lines behind it are what it prints, on both streams.
It runs in a folder of its own, which holds a copy of demo/ and docs/ and the program as ./tuz. --write puts in what is printed now.
PROGRAM is $TUZ, else the one that ./tuz has built. Without FILE: README.md and docs/TUZ.md.
"""
import argparse
import os
import pathlib
import re
import shutil
import subprocess
import sys
import tempfile

ROOT = pathlib.Path(__file__).resolve().parent.parent
BLOCK = re.compile(r"(^```console\n)(.*?)(^```$)", re.M | re.S)
COMMAND = re.compile(r"^\$ (.*)\n((?:(?!\$ ).*\n)*)", re.M)


class Shown:
    def __init__(self, folder, name, told):
        self.folder, self.name, self.told, self.commands, self.wrong = folder, name, told, 0, 0

    def command(self, found):
        """The command with what it prints; where that is not what is shown, it is told."""
        words, told = found.groups()
        done = subprocess.run(["sh", "-c", words], cwd=self.folder, stdin=subprocess.DEVNULL, stdout=subprocess.PIPE, stderr=subprocess.STDOUT, text=True)
        self.commands += 1
        if done.stdout != told:
            self.wrong += 1
            if self.told:
                self.tell(words, told.splitlines(), done.stdout.splitlines())
        return f"$ {words}\n{done.stdout}"

    def tell(self, words, was, now):
        """The first line that is another."""
        at = next((i for i, (a, b) in enumerate(zip(was, now)) if a != b), min(len(was), len(now)))
        was, now = (side[at] if at < len(side) else "(no line)" for side in (was, now))
        print(f"shown: {self.name}: {words}\n    line {at + 1} shown: {was}\n    line {at + 1} now: {now}")

    def block(self, found):
        return found[1] + COMMAND.sub(self.command, found[2]) + found[3]


def main():
    p = argparse.ArgumentParser(description=__doc__, formatter_class=argparse.RawDescriptionHelpFormatter)
    p.add_argument("--port", default=os.environ.get("TUZ", str(ROOT / "rust/target/release/tuz")))
    p.add_argument("--write", action="store_true")
    p.add_argument("files", nargs="*", type=pathlib.Path)
    args = p.parse_args()
    good = True
    for path in args.files or [ROOT / "README.md", ROOT / "docs/TUZ.md"]:
        with tempfile.TemporaryDirectory() as folder:
            for part in "demo", "docs":
                shutil.copytree(ROOT / part, pathlib.Path(folder) / part)
            (pathlib.Path(folder) / "tuz").symlink_to(pathlib.Path(args.port).resolve())
            shown = Shown(folder, path.name, not args.write)
            now = BLOCK.sub(shown.block, path.read_text())
        if args.write:
            path.write_text(now)
            print(f"shown: {path.name}: {shown.commands} commands, {shown.wrong} written anew")
            continue
        print(f"shown: {path.name}: {shown.commands} commands, {shown.wrong} print something else than is shown")
        good &= shown.wrong == 0 and shown.commands > 0
    return 0 if good else 1


sys.exit(main())
