#!/usr/bin/env python3
"""Every edit that the prover must refuse is refused where it says.

A file crates/CRATE/must-fail/*.edit is a round: edits that are tried together, in one check of the crate. Above each replacement stands what must fail by it and why,

    # fn bits::read::signed: odd codes are the positive numbers
    # law Turns.test-refuses: a refusal has the number that is asked for    (`test-refuses` in proofs/Turns.antt)
    # and                                                                   (a replacement more of the edit above)

and the log of the round, target/must-fail/CRATE/ROUND.log, must have an error of that function or law itself: a goal of its own that is left open, or an error in its own
proof, at what its contract asks, that says what does not follow. That it cites or calls something that was not proved is not enough.

edits.py          reads the rounds and the logs that tests/rounds.py made
edits.py --self   tries the rules above on rounds and logs that must not pass
"""
import pathlib
import re
import sys

ROOT = pathlib.Path(__file__).resolve().parent.parent
FUNCTION = re.compile(r"^( *)(?:pub(?:\(crate\))? )?(?:extern \"C\" )?fn (\w+)", re.M)
NAMED = re.compile(r"# (fn|law) ([^\s:]+(?:::[^\s:]+)*): \S")
ERROR = re.compile(r"(?:\S*/)?(proofs/\S+?\.antt):\d+:\d+: error: `([^`]+)`: (.*)")
VERDICT = re.compile(r"fn (\S+): (proved|not proved|no proof)(.*)")
OPEN = re.compile(r"note: src/\S+?\.rt:\d+:\d+: it is not proved that ")
SIGNATURE = re.compile(r"(?:(?:abbrev|unfoldable|pub) )*(\S+) : ")
# What the prover says of a goal that does not follow. Any other error (an unknown name, a need that is not there) is about the text of a proof.
UNPROVED = re.compile(
    r"`search`: no proof of|`omega`: the goal does not follow|`grind` found no proof|the two (?:types|sides|indices) |expected type `"
    r"|`rw`: no (?:occurrence of|part of the goal )|give a proof of that as the last argument|the two values first differ|`simp`: no equation of the list"
)
# The same of two terms, in the two lines below the error's, which has the first of them.
FALSE = re.compile(r"  ≟ `.*\n  does not hold ")


def function_at(source, text):
    """The function whose contract or body holds a text, or None."""
    before = source[: source.find(text)]
    for found in list(FUNCTION.finditer(before))[-1:]:
        return None if f"\n{found.group(1)}}}\n" in before[found.start() :] else found.group(2)


def named(text, source_of):
    """What a round names, as (kind, name), and what is wrong with its text."""
    names, faults, comment, file, old = [], [], "", "", ""
    for line in text.splitlines():
        if line.startswith("#"):
            comment = line
        elif line.startswith("file: "):
            file = line[6:]
        elif line.startswith("old: "):
            old = line[5:]
        elif line.startswith("new:"):
            found, within = NAMED.match(comment), file.startswith("src/") and function_at(source_of(file), old)
            if found:
                names.append(found.groups())
            elif not (names and re.match(r"# and\b", comment)):
                faults.append(f"a replacement has no comment that names what must fail: {line}")
            if names and within and within != names[-1][1].split("::")[-1]:
                faults.append(f"{names[-1][1]} is named for an edit of {within}")
            comment = ""
    if not names:
        faults.append("it names nothing")
    return names, faults + [f"{name} is named twice" for name in sorted({n for _, n in names if [m for _, m in names].count(n) > 1})]


class Log:
    """What the prover said of a round: by file, the declarations with an error of their own; by function, its verdict, and whether a goal of its own is left open."""

    def __init__(self, text):
        self.own, self.verdicts, self.left = {}, {}, set()
        left, lines = False, text.splitlines()
        for at, line in enumerate(lines):
            if error := ERROR.match(line):
                file, name, said = error.groups()
                if UNPROVED.search(said) or FALSE.match("\n".join(lines[at + 1 : at + 3])):
                    self.own.setdefault(file, set()).add(name)
            elif OPEN.match(line):
                left = True
            elif verdict := VERDICT.match(line):
                # the open goals of a function stand above its verdict
                self.verdicts[verdict.group(1)] = verdict.group(2), verdict.group(3)
                self.left |= {verdict.group(1)} if left else set()
                left = False

    def law_fails(self, name):
        module, _, law = name.rpartition(".")
        return law in self.own.get(f"proofs/{module}.antt", ())

    def function_fails(self, path, proof_of):
        verdict, said = self.verdicts.get(path, ("", ""))
        if verdict == "no proof":
            return "`search` did not prove" in said
        *modules, function = path.split("::")[1:]
        places = ["/".join(["proofs", *modules, mark + function]) for mark in ("", "+")]  # with a plus where it calls itself
        files = [f"{place}/{name}.antt" for place in places for name in ("Answers", "Invariants")]
        return verdict == "not proved" and (path in self.left or any(reaches(name, declared(proof_of(file))) for file in files for name in self.own.get(file, ())))


def declared(proof):
    """The declarations of a proof file: the text of each, by its name."""
    texts, name = {}, None
    for line in proof.splitlines():
        if signature := SIGNATURE.match(line):
            name = signature.group(1)
        if name:
            texts[name] = f"{texts.get(name, '')}{line}\n"
    return texts


def reaches(name, texts, seen=()):
    """Whether a declaration answers a goal, or is cited by one that does."""
    if re.search(rf"(?<!\S){re.escape(name)} : goal\.", texts.get(name, "")):
        return True
    return any(other not in seen and other != name and re.search(rf"(?<![\w'.-]){re.escape(name)}(?![\w'-])", text) and reaches(other, texts, (*seen, name)) for other, text in texts.items())


def faults_of(text, log, source_of, proof_of):
    """What is wrong with a round, given its log (None where there is none), the crate's sources and its proofs."""
    names, faults = named(text, source_of)
    if log is None:
        return faults + ["there is no log: it was not tried"]
    log = Log(log)
    for kind, name in names:
        if not (log.law_fails(name) if kind == "law" else log.function_fails(name, proof_of)):
            faults.append(f"{kind} {name} has no error of its own")
    return faults


def read(path):
    return path.read_text(errors="replace") if path.exists() else None


def main():
    count, rounds, failed = 0, sorted(ROOT.glob("crates/*/must-fail/*.edit")), 0
    for path in rounds:
        crate, text = path.parent.parent, path.read_text()
        log = ROOT / "target/must-fail" / crate.name / f"{path.stem}.log"
        count += len(NAMED.findall(text))
        for fault in faults_of(text, read(log), lambda file: read(crate / file) or "", lambda file: read(crate / file) or ""):
            print(f"edits: {path.relative_to(ROOT)}: {fault}")
            failed += 1
    if failed or not rounds:
        sys.exit(f"edits: {failed} faults in {len(rounds)} rounds")
    print(f"edits: {count} edits in {len(rounds)} rounds, each refused where it says")


# ---- the rules, tried

SOURCE = "const N: u32 = 7;\n\nfn f() -> u32\n    ensures { x }\n{\n    one + N\n}\n\npub fn g() -> u32 {\n    two\n}\n\nconst M: u32 = 8;\n"
ROUND = "file: src/a.rt\n# fn c::a::f: why\nold: one\nnew: 2\n"
LAW = "file: specs/A.antt\n# law A.l: why\nold: one\nnew: 2\n"
PROOF = "use Rattle.c.proofs.a.f.Goals as goal\n\nhelp : (x : ℕ) → x ≡ y\nhelp x = h\n\nmore : ℕ → ℕ\nmore x = x\n\npub returns : goal.returns\nreturns c = help c.args.x\n"
GOAL = "`omega`: the goal does not follow from what it read."
ANSWERS, LAWS = "proofs/a/f/Answers.antt", "proofs/A.antt"


def error(name, said, file=ANSWERS):
    return f"./{file}:1:2: error: `{name}`: {said}\n"


def depends(name, file=ANSWERS):
    return f"./{file}:1:2: error: 1 declaration that depends on `{name}`, which was rejected, was not checked: returns\n"


def left(function):
    return f"note: src/a.rt:4:1: it is not proved that what the function ensures holds when it returns (`returns`); `search` gave up at one of its limits\n{function}"


NOT_PROVED = "fn c::a::f: not proved; it stands on `Rattle.c.proofs.a.f.Answers.returns`, which antt refuses\n"
CITES = "fn c::a::f: not proved; it stands on `Rattle.c.proofs.A.l`, which antt refuses\n"
CALLS = "fn c::a::f: not proved; it calls `c::a::g`, which is not proved\n"
CALLS_BARE = "fn c::a::f: no proof: it calls `c::a::g`, which is not proved\n"
NO_PROOF = "fn c::a::f: no proof: expected answers in ./proofs/a/f/Answers.antt; `search` did not prove `returns`\n"
PASS = [
    (ROUND, error("returns", GOAL) + NOT_PROVED),
    (ROUND, error("returns", GOAL) + CALLS),
    (ROUND, error("help", GOAL) + depends("help") + NOT_PROVED),
    (ROUND, error("returns", "as printed, the two types first differ") + NOT_PROVED),
    (ROUND, error("returns", "`x`") + "  ≟ `y`\n  does not hold (it turned out false)\n" + NOT_PROVED),
    (ROUND, error("returns", GOAL, "proofs/a/+f/Answers.antt") + NOT_PROVED),
    (ROUND, error("returns", GOAL, "proofs/a/f/Invariants.antt") + NOT_PROVED),
    (ROUND, error("returns-2", "`goal.returns-2`: module `f.Goals` has no `returns-2` that can be named from here") + left(NOT_PROVED)),
    (ROUND, left(NO_PROOF)),
    (ROUND + "# and\nold: one + N\nnew: 4\n", left(NO_PROOF)),
    (ROUND.replace("old: one", "old: u32 = 7"), left(NO_PROOF)),
    (ROUND.replace("old: one", "old: u32 = 8"), left(NO_PROOF)),
    (LAW, error("l", GOAL, LAWS)),
]
FAIL = [  # what it is, what is said of it, the round, the log
    ("no log", "not tried", ROUND, None),
    ("an empty log", "no error of its own", ROUND, ""),
    ("proved", "no error of its own", ROUND, "fn c::a::f: proved\n"),
    ("it only calls", "no error of its own", ROUND, CALLS),
    ("it only calls, and has no proof file", "no error of its own", ROUND, CALLS_BARE),
    ("it only cites", "no error of its own", ROUND, error("l", GOAL, LAWS) + depends("l") + CITES),
    ("a goal that is not there", "no error of its own", ROUND, error("returns-2", "`goal.returns-2`: module `f.Goals` has no `returns-2` that can be named from here") + NOT_PROVED),
    ("a name that is not there", "no error of its own", ROUND, error("returns", "`x` is not in scope") + NOT_PROVED),
    ("a helper that no answer cites", "no error of its own", ROUND, error("more", GOAL) + NOT_PROVED),
    ("an error of another function", "no error of its own", ROUND, error("returns", GOAL, "proofs/a/g/Answers.antt") + NOT_PROVED),
    ("another function without a proof", "no error of its own", ROUND, left(NO_PROOF.replace("c::a::f", "c::a::g"))),
    ("the open goal of the function above", "no error of its own", ROUND, left(NO_PROOF.replace("c::a::f", "c::a::g")) + CALLS),
    ("an error, and no verdict", "no error of its own", ROUND, error("returns", GOAL)),
    ("a law that only cites", "no error of its own", LAW, error("k", GOAL, LAWS) + depends("k", LAWS)),
    ("an error of another law", "no error of its own", LAW, error("k", GOAL, LAWS)),
    ("the law's name in another file", "no error of its own", LAW, error("l", GOAL, "proofs/B.antt")),
    ("nothing named", "it names nothing", "file: src/a.rt\nold: one\nnew: 2\n", left(NO_PROOF)),
    ("a comment that says no more than a name", "has no comment", ROUND.replace(": why", ":"), left(NO_PROOF)),
    ("a replacement without a comment", "has no comment", ROUND + "old: one\nnew: 4\n", left(NO_PROOF)),
    ("an and with nothing above it", "has no comment", "# and\nold: one\nnew: 4\n" + ROUND, left(NO_PROOF)),
    ("a function named twice", "is named twice", ROUND + ROUND, left(NO_PROOF)),
    ("one of two without an error", "c::a::g has no error", ROUND + ROUND.replace("::f", "::g").replace("old: one", "old: two"), left(NO_PROOF)),
    ("another function than the edit's", "for an edit of g", ROUND.replace("old: one", "old: two"), left(NO_PROOF)),
    ("an and in another function", "for an edit of g", ROUND + "# and\nold: two\nnew: 4\n", left(NO_PROOF)),
]


def tried():
    for text, log in PASS:
        assert faults_of(text, log, lambda file: SOURCE, lambda file: PROOF) == [], (text, log)
    for name, said, text, log in FAIL:
        assert said in "; ".join(faults_of(text, log, lambda file: SOURCE, lambda file: PROOF)), name
    print(f"edits: {len(FAIL)} rounds and logs that must not pass do not, {len(PASS)} others do")


tried() if sys.argv[1:] == ["--self"] else main()
