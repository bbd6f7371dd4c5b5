#!/usr/bin/env python3
"""Every public function has a contract that says something of its result and of all that it is lent, no `requires`, and a row in docs/CONTRACTS.md; no row names
a function that is not there; every crate with public functions has must-fail edits.

Reads crates/*/src/*.rt as text: finds every public `fn`, then its arguments and clauses. First it is tried itself, on examples with the faults that it is to
find. Exits non-zero and says what is wrong.
"""
import pathlib
import re
import sys
from typing import NamedTuple

ROOT = pathlib.Path(__file__).resolve().parent.parent
PAGE = "docs/CONTRACTS.md"
ASIDE = re.compile(r"//[^\n]*|\"(?:\\.|[^\"\\])*\"|b'(?:\\.|[^'\\])'")
PUBLIC = re.compile(r"\bpub\s+(?:(?:const|unsafe|extern|\"C\")\s+)*fn\s+(\w+)")
IMPL = re.compile(r"\bimpl\b(?:\s*<[^>]*>)?\s+(\w+)[^{;]*\{")
CLAUSE = re.compile(r"\s*(requires|ensures|ghost|measure)\b(?:\s+\w+)?\s*\{")
CLOSES = {"(": ")", "[": "]", "{": "}"}
NOTHING = {"", "Unit", "Unit {0}", "⊤", "⊤ₛ", "emp"}


class Function(NamedTuple):
    name: str  # with its type in front where it is a method
    lent: list  # the arguments that are lent to be changed
    answers: bool
    clauses: list  # the word and what stands in braces


def plain(text):
    """Without comments, and with nothing in strings."""
    return ASIDE.sub(lambda m: m[0] if m[0] == '"C"' else "" if m[0][0] == "/" else "0", text)


def closing(text, at):
    """The place behind the bracket that closes the one at a place."""
    depth, opens, shuts = 0, text[at], CLOSES[text[at]]
    for i in range(at, len(text)):
        depth += (text[i] == opens) - (text[i] == shuts)
        if depth == 0:
            return i + 1
    raise ValueError("a bracket that is not closed")


def split(text, mark):
    """The parts between marks that stand in no bracket."""
    parts, start, i = [], 0, 0
    while i < len(text):
        if text[i] in CLOSES:
            i = closing(text, i)
        elif text.startswith(mark, i):
            parts.append(text[start:i])
            i = start = i + len(mark)
        else:
            i += 1
    return parts + [text[start:]]


def functions(text):
    """The public functions of a file."""
    text = plain(text)
    owners = [(m.end() - 1, closing(text, m.end() - 1), m[1]) for m in IMPL.finditer(text)]
    for m in PUBLIC.finditer(text):
        at = text.index("(", m.end())
        end = closing(text, at)
        lent = [a for a in split(text[at + 1 : end - 1], ",") if re.search(r"&\s*(?:'\w+\s+)?mut\b", a)]
        after = re.compile(r"\s*(->)?[^{]*?(?=\{|\b(?:requires|ensures|ghost|measure)\b)").match(text, end)
        clauses, at = [], after.end()
        while c := CLAUSE.match(text, at):
            at = closing(text, c.end() - 1)
            clauses.append((c[1], text[c.end() : at - 1]))
        owner = [name + "::" for start, stop, name in owners if start < m.start() < stop]
        yield Function("".join(owner) + m[1], [name_of(a) for a in lent], bool(after[1]), clauses)


def name_of(argument):
    return "self" if ":" not in argument else argument.split(":")[0].split()[-1]


def bare(fact):
    """A fact without white space and brackets around it."""
    fact = " ".join(fact.split())
    while fact.startswith("(") and closing(fact, 0) == len(fact):
        fact = fact[1:-1].strip()
    return fact


def facts(text):
    """What a clause says, taken apart at `×`."""
    todo = [bare(text)]
    while todo:
        parts = split(todo.pop(), " × ")
        if len(parts) == 1:
            yield bare(parts[0])
        else:
            todo += [bare(p) for p in parts]


def sides(fact):
    """The two sides of an equation, or None."""
    if fact.startswith("◌≡◌"):
        rest, words = re.sub(r"^◌≡◌\s*(\{[^{}]*\})?", "", fact).strip(), []
        while rest:
            end = closing(rest, 0) if rest[0] in CLOSES else len(rest.split()[0])
            words, rest = words + [bare(rest[:end])], rest[end:].strip()
        return words if len(words) == 2 else None
    parts = split(fact, "≡")
    return [bare(p) for p in parts] if len(parts) == 2 else None


def empty(fact):
    """A fact that holds whatever the function does: no fact, or an equation whose sides are the same."""
    last = bare(split(fact, "→")[-1])
    both = sides(last)
    return last in NOTHING or (both is not None and both[0] == both[1])


def names(fact, word):
    return re.search(rf"(?<![\w·«.-])«?{re.escape(word)}»?(?![\w·′-])", fact) is not None


def faults(f):
    """What is wrong with a function's contract."""
    if not any(word == "ensures" for word, _ in f.clauses):
        yield "has no ensures"
    for word in sorted({word for word, _ in f.clauses} - {"ensures"}):
        yield f"has a {word}"
    told, answered = [], False
    for text in (text for word, text in f.clauses if word == "ensures"):
        said = [fact for fact in facts(text) if not empty(fact)]
        if not said or len(said) < len(list(facts(text))):
            yield f"has a clause that says nothing: {bare(text)}"
        about = [fact for fact in said if names(fact, "result")]
        for fact in about:
            if sides(fact) and all(names(side, "result") for side in sides(fact)):
                yield f"has its result on both sides: {fact}"
        told, answered = told + said, answered or bool(about)
    if f.answers and not answered and told:
        yield "does not say its result"
    for word in f.lent:
        # as it is at the return, alone or among several that one name puts together: `d.new`, `(words d e).exit`
        if not any(re.search(rf"«?\b{word}»?(?:\.new\b|(?:\s+«?\w+»?)*\)\.exit\b)", fact) for fact in told):
            yield f"does not say what it leaves in `{word}`"


# Each with a part of the fault that must be found, or none. A function without a contract must not take the next one's.
TRIED = [
    ("pub fn f(x: u32) -> u32 {\n x }\npub fn g(x: u32) -> u32\n ensures { result ≡ x }\n{ x }", ["f has no ensures"]),
    ("pub fn f(x: u32) -> u32 { x }", ["f has no ensures"]),
    ("pub fn f(x: u32)\n{ }", ["f has no ensures"]),
    ("impl S {\n    pub fn f(self) -> u32 {\n 1 }\n}\npub fn g() -> u32 {\n 1 }", ["S::f has no ensures", "g has no ensures"]),
    ('#[unsafe(no_mangle)]\npub extern "C" fn f(\n x: u32,\n) -> u32 {\n x }', ["f has no ensures"]),
    ("// ensures { result ≡ x }\npub fn f(x: u32) -> u32 // ensures { }\n{ x }", ["f has no ensures"]),
    ("pub fn f(x: u32) -> u32\n requires small { x ≤ 3 }\n ensures { result ≡ x }\n{ x }", ["f has a requires"]),
    ("pub fn f(x: u32) -> u32\n ensures { Unit }\n{ x }", ["f has a clause that says nothing"]),
    ("pub fn f(x: u32) -> u32\n ensures value { result ≡ result }\n{ x }", ["f has a clause that says nothing"]),
    ("pub fn f(x: u32) -> u32\n ensures { (result ≡ x) × (Unit {0}) }\n{ x }", ["f has a clause that says nothing"]),
    ("pub fn f(x: u32) -> u32\n ensures { (x ≤ 3 → (result ≡ (result))) }\n{ x }", ["f has a clause that says nothing"]),
    ("pub fn f(x: u32) -> u32\n ensures { ◌≡◌ {A = ℕ} (g result) (g  result) }\n{ x }", ["f has a clause that says nothing"]),
    ("pub fn f(x: u32) -> u32\n ensures { result ≡ x }\n ensures more { emp }\n{ x }", ["f has a clause that says nothing"]),
    ("pub fn f(x: u32) -> u32\n ensures { result ≡ pick (eqb result 1) 1 x }\n{ x }", ["f has its result on both sides"]),
    ("pub fn f(x: u32) -> u32\n ensures { x ≤ 4294967295 }\n{ x }", ["f does not say its result"]),
    ("pub fn f(d: &mut [u8]) -> u32\n ensures { result ≡ 1 }\n{ 1 }", ["f does not say what it leaves in `d`"]),
    ("pub fn f<'a>(d: &'a mut [u8], e: &mut [u8; 4])\n ensures { d.new ≡ e.old }\n{ }", ["f does not say what it leaves in `e`"]),
    ("pub fn f(d: &mut [u8])\n ensures { d.new ≡ d.new }\n{ }", ["f has a clause that says nothing", "f does not say what it leaves in `d`"]),
    ("impl S {\n    pub fn f(&mut self) -> u32\n        ensures { result ≡ 1 }\n    { 1 }\n}", ["S::f does not say what it leaves in `self`"]),
    ("pub fn f(d: &mut [u8], x: u32) -> u32\n ensures { (result ≡ (g x).answer) × (d.new ≡ (g x).left) }\n{ b\"{\"; 1 }", []),
    ("pub fn f(d: &mut [u8], x: u32) -> u32\n ensures value { result ≡ (g x).answer }\n ensures d_after { d.new ≡ (g x).left }\n{ 1 }", []),
    ("pub fn f(d: &mut [u8], e: &mut [u8])\n ensures { (both d e).exit ≡ g (both d e).entry }\n{ }", []),
    ("pub fn f(d: &mut [u8], e: &mut [u8])\n ensures { (both d).exit ≡ g (both d e).entry }\n{ }", ["f does not say what it leaves in `e`"]),
    ("pub fn f(d: &mut [u8; 4]) -> u32\n ensures { Written a d.old result d.new }\n{ 1 }", []),
    ("pub fn f(«x»: u32) -> R<'a>\n ensures { ◌≡◌ {A = R} result (record { a = «x» }) }\n{ 1 }", []),
    ("fn f(x: u32) -> u32 { x }\npub(crate) fn g(x: u32) -> u32 { x }", []),
]


def tried():
    """What is found in the examples is what must be."""
    for text, wanted in TRIED:
        found = [f"{f.name} {fault}" for f in functions(text) for fault in faults(f)]
        if len(found) != len(wanted) or any(not got.startswith(want) for got, want in zip(found, wanted)):
            sys.exit(f"promises: tried on an example, this is not found as it must be: {wanted}\n  found: {found}\n  in: {text}")
    return len(TRIED)


def rows(page):
    """The functions that the tables of a page name in their first column."""
    first = [line.split("|")[1] for line in page.splitlines() if line.startswith("| `")]
    return {name for cell in first for name in re.findall(r"`(\w+(?:::\w+)+)`", cell)}


def main():
    examples = tried()
    listed = {line.split(":")[0].split()[0] for line in (ROOT / "crates.txt").read_text().splitlines() if ":" in line.split("#")[0]}
    wrong, public = [], set()
    for crate in sorted(listed):
        sources = sorted((ROOT / "crates" / crate / "src").rglob("*.rt"))
        if any(path.name == "main.rt" for path in sources):
            continue
        found = [f for path in sources for f in functions(path.read_text())]
        wrong += [f"{crate}: {f.name} {fault}" for f in found for fault in faults(f)]
        public |= {f"{crate}::{f.name}" for f in found}
        if found and not list((ROOT / "crates" / crate / "must-fail").glob("*.edit")):
            wrong.append(f"{crate} has public functions and no must-fail edit")
    told = rows((ROOT / PAGE).read_text())
    wrong += [f"{name} is not in {PAGE}" for name in sorted(public - told)]
    wrong += [f"{PAGE} names {name}, which is no public function" for name in sorted(told - public)]
    for fault in wrong:
        print("promises:", fault)
    if wrong:
        sys.exit(1)
    print(f"promises: {len(public)} public functions of {len(listed)} crates, each with a contract, no requires and a row in {PAGE}; {examples} examples tried")


if __name__ == "__main__":
    main()
