#!/usr/bin/env python3
"""Replays tests/frozen: thousands of cases with the answers of h264-reader 0.9.0, which need none of its sources.

    tests/frozen.py [--port COMMAND | --model] [--rewrite] [--headers]

COMMAND answers `COMMAND cases FILE`; else $TUZ does, else ./tuz. The model in rules.py is held to them too; --model: it alone.
With --rewrite the port also writes each slice header that it has read, and stops where its bits do not come back; with --headers it also walks over each unit with
headers alone, and stops where that answers otherwise.

A line of answers.txt is the Rust's answer, as tests/oracle prints it, with the bit place of a refusal as its tracing reader sees it. Where the Rust departs from the rules in a known way
(docs/DIFFERENCES.md), what the rules want stands behind ` | doc: `, or, where the Rust stops at a forbidden pattern, the Rust's answer
to the same body, escaped, behind ` | escaped: `.
"""
import argparse
import os
import pathlib
import re
import shlex
import subprocess
import sys

from rules import cases

ROOT = pathlib.Path(__file__).resolve().parent.parent
FROZEN = ROOT / "tests/frozen"
DOCUMENT = re.compile(r".* \| (?:doc|escaped): ")


def held(who, said, wanted):
    """Whether all lines agree; the first that do not are printed."""
    lines = [line for line in (FROZEN / "cases.txt").read_text().splitlines() if not line.startswith("#")]
    faults = [(line, s, w) for line, s, w in zip(lines, said, wanted) if s != w]
    for line, s, w in sorted(faults, key=lambda f: len(f[0]))[:5]:
        print(f"frozen: {line}\n    {who}: {s}\n    wanted: {w}")
    if len(said) != len(wanted):
        print(f"frozen: {who} answers {len(said)} lines to {len(wanted)} cases")
        return False
    apart = sum(" | " in line for line in (FROZEN / "answers.txt").read_text().splitlines())
    print(f"frozen: {who}: {len(wanted)} cases, {len(faults)} differ; at {apart} of them the Rust departs in a known way")
    return not faults


def listed():
    """Whether each unit that docs/DIFFERENCES.md names is among the cases."""
    text = (ROOT / "docs/DIFFERENCES.md").read_text()
    units = {line.split()[-1] for line in (FROZEN / "cases.txt").read_text().splitlines()}
    missing = [u for u in re.findall(r"`((?:[0-9a-f]{2})+)`", text) if u not in units]
    for unit in missing:
        print(f"frozen: docs/DIFFERENCES.md names {unit}, which no case has")
    return not missing


def main():
    p = argparse.ArgumentParser(description=__doc__, formatter_class=argparse.RawDescriptionHelpFormatter)
    p.add_argument("--port", default=os.environ.get("TUZ", str(ROOT / "tuz")))
    p.add_argument("--model", action="store_true")
    p.add_argument("--rewrite", action="store_true")
    p.add_argument("--headers", action="store_true")
    args = p.parse_args()
    port = shlex.split(args.port)
    wanted = [DOCUMENT.sub("", line) for line in (FROZEN / "answers.txt").read_text().splitlines()]
    good = listed() & held("the model", list(cases(FROZEN / "cases.txt")), wanted)
    if args.model:
        return not good
    if not pathlib.Path(port[0]).exists() and "/" in port[0]:
        print(f"frozen: skipped: the port: there is no {port[0]}; give --port or $TUZ")
        return not good or os.environ.get("CI") == "true"
    more = [word for word, asked in (("--rewrite", args.rewrite), ("--headers", args.headers)) if asked]
    done = subprocess.run([*port, "cases", *more, str(FROZEN / "cases.txt")], stdout=subprocess.PIPE, text=True)
    answers = done.stdout.splitlines()
    if done.returncode:
        print(f"frozen: the port ends with status {done.returncode} after {len(answers)} answers")
        return 1
    if args.rewrite:
        print(f"frozen: the port: {sum(a.startswith('slice ') for a in answers)} slice headers written back to their bits")
    return not (held("the port", answers, wanted) and good)


sys.exit(main())
