#!/usr/bin/env python3
"""Spells this repository's own definitions and lemmas as today's Rattle does: words in snake case (readHeader -> read_header), facts in camel case (allPlain -> AllPlain).

usage: tools/respell.py [--dry] [ROOT]       once, behind the port's own script (docs/PORT.md)

It renames the names that crates/*/specs and crates/*/proofs declare, and no other, in their files, in the clauses and comments of src/ and in the edits of must-fail/. Names of
src/ (functions, fields, modules) are in snake case already and stay, and so do strings. Names that would fall together in one file are listed in CLASHES, with what stands for them.
"""
import collections
import pathlib
import re
import sys

DECLARED = re.compile(r"^\s*(?:abbrev |unfoldable )?(?:pub )?(?:data |record |ruleset |abbrev )?([^\s:(){}.;,=]+) (?:\{[^}]*\} |\([^)]*\) )*: ", re.M)
TOKEN = re.compile(r"[A-Za-z_][\w'′-]*(?:·[\w'′-]+)*")
STRING = re.compile(r'"(?:[^"\\\n]|\\.)*"')
# Facts, whose values are types.
FACTS = {"allPlain": "AllPlain", "inDelta": "InDelta"}
# Lemmas that would be called as a definition of their file is, by crate: they get `_lem`.
CLASHES = {
    "walk": ["clear_in", "to_end"],
    "framed": ["framed_at"],
    "promises": ["in_both"],
    "writer": ["known_out", "no_bits"],
    "fmt": ["list_full"],
    "lists": ["list_full"],
    "nal": ["no_byte"],
    "unit": ["no_byte", "too_large"],
    "escape": ["too_large"],
    "list_steps": ["one_more", "turn_by"],
}


def word(w):
    return re.sub(r"(?<=[a-z0-9])([A-Z]+)", lambda m: "_" + m[1].lower(), w) if w[:1].islower() else w


def snake(name):
    return FACTS.get(name) or "-".join(FACTS.get(w) or word(w) for w in name.split("-"))


def spans(text, is_source):
    """The text's parts, each with whether names are renamed there: not in strings of the source."""
    at = 0
    for m in STRING.finditer(text) if is_source else ():
        yield text[at : m.start()], True
        yield m[0], False
        at = m.end()
    yield text[at:], True


def main():
    arguments = [a for a in sys.argv[1:] if a != "--dry"]
    root = pathlib.Path(arguments[0] if arguments else ".")
    files = sorted(p for p in (root / "crates").rglob("*") if p.suffix in (".antt", ".rt", ".edit") and "out" not in p.parts)
    texts = {p: p.read_text(encoding="utf-8") for p in files}
    for p, text in texts.items():
        for old in CLASHES.get(p.relative_to(root).parts[1], ()):
            # a label of a function's proof stands behind a dot, or in the path of a folder: it has the function's name, and stays
            if p.suffix == ".antt" and not (old == "one_more" and "proofs" in p.parent.parent.parts):
                texts[p] = re.sub(rf"(?<![\w'-]){old}(?![\w'-])", old + "_lem", texts[p])
    names = {}
    for p, text in texts.items():
        if p.suffix == ".antt":
            for m in DECLARED.finditer(text):
                if snake(m[1]) != m[1]:
                    names[m[1]] = snake(m[1])
    # parts of lemma names that are names themselves
    uses = collections.defaultdict(set)
    for p, text in texts.items():
        for part, renamed in spans(text, p.suffix != ".antt"):
            if renamed:
                for m in TOKEN.finditer(part):
                    if m.start() == 0 or part[m.start() - 1] != ".":
                        uses[m[0]].add(p)
    for old, new in sorted(names.items()):
        both = {p for p in uses[old] & uses[new] if p.suffix == ".antt"}
        if both:
            print(f"together: {old} and {new}: {', '.join(str(p.relative_to(root)) for p in sorted(both))}")
    for p, text in texts.items():
        if p.suffix == ".rt":
            for m in re.finditer(r"\bfn (\w+)[^{]*?\((.*?)\)(?: ->[^\n]*)?\n((?:    (?:requires|ensures).*\n)+)", text, re.S):
                for q in re.findall(r"(\w+):", m[2]):
                    if any(names.get(w) == q for w in TOKEN.findall(m[3])):
                        print(f"parameter: {p.relative_to(root)}: {m[1]}: {q}")
    news = collections.defaultdict(list)
    for old, new in names.items():
        news[new].append(old)
    for new, olds in news.items():
        if len(olds) > 1:
            print(f"one name: {new}: {olds}")
    for p, text in texts.items():
        out = []
        for part, renamed in spans(text, p.suffix != ".antt"):
            out.append(TOKEN.sub(lambda m: names.get(m[0], m[0]), part) if renamed else part)
        if "--dry" not in sys.argv and "".join(out) != p.read_text(encoding="utf-8"):
            p.write_text("".join(out), encoding="utf-8")
    print(f"respelled: {len(names)} names")


main()
