#!/usr/bin/env python3
"""docs/ARCHITECTURE.md: its list of crates is crates.txt's, each with the first sentence of its source, and its drawing names crates alone.

    tests/architecture.py [--write]     (--write: puts the list in anew)
"""
import pathlib
import re
import sys

ROOT = pathlib.Path(__file__).resolve().parent.parent
PAGE = ROOT / "docs/ARCHITECTURE.md"
LIST = re.compile(r"(<!-- crates -->\n).*?(<!-- end -->)", re.S)


def sentence(crate):
    """The first sentence of the comment that a crate's source begins with."""
    source = ROOT / "crates" / crate / "src"
    path = source / "lib.rt" if (source / "lib.rt").exists() else source / "main.rt"
    comment = re.match(r"(?://[^\n]*\n)+", path.read_text())
    text = " ".join(line[2:].strip() for line in comment[0].splitlines())
    return re.match(r".*?[.](?=\s|$)", text)[0].rstrip(".")


def listed():
    """crates.txt as lines: a heading for each comment but the first, a line for each crate."""
    for number, line in enumerate((ROOT / "crates.txt").read_text().splitlines()):
        if line.startswith("#") and number:
            yield f"\n{line.lstrip('# ').rstrip('.:')}:\n"
        elif ":" in line and not line.startswith("#"):
            crate = line.split(":")[0].split()[0]
            yield f"- `{crate}`: {sentence(crate)}."


def main():
    page = PAGE.read_text()
    lines = list(listed())
    now = LIST.sub(lambda m: m[1] + "\n".join(lines).lstrip("\n") + "\n" + m[2], page)
    if "--write" in sys.argv:
        PAGE.write_text(now)
        return 0
    crates = {line.split("`")[1] for line in lines if line.startswith("- `")}
    drawn = set(re.findall(r"\[(\w+)\](?!\()", page.partition("```text\n")[2].partition("```")[0]))
    wrong = [f"the drawing names {name}, which is no crate" for name in sorted(drawn - crates)]
    if now != page:
        wrong.append("its list of crates is not that of crates.txt and the sources: tests/architecture.py --write")
    if not drawn:
        wrong.append("it has no drawing")
    for line in wrong:
        print("architecture:", line)
    if not wrong:
        print(f"architecture: {len(crates)} crates, {len(drawn)} of them in the drawing")
    return 1 if wrong else 0


sys.exit(main())
