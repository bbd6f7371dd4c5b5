#!/usr/bin/env python3
"""Makes the logs that tests/edits.py reads: all that `rt check` says of a crate with a round of edits.

`rt ci` tries each round too, and tells one line of what it was refused by. So each is tried once more, in a copy of the crate and of those below it in a temporary folder,
begun with what `rt check` of the crate itself keeps in its out/. A log is target/must-fail/CRATE/ROUND.log; one that was made of the same files is not made again.

    tests/rounds.py [--jobs N] [CRATE..]
"""
import argparse
import concurrent.futures
import contextlib
import hashlib
import os
import pathlib
import shutil
import subprocess
import sys
import tempfile

ROOT = pathlib.Path(__file__).resolve().parent.parent
LOGS = ROOT / "target/must-fail"
PARTS = ("src", "specs", "proofs")
# what a check of a crate keeps, and what it builds of one below; as rt itself does, a copy has the files that no check writes into by a second name
KEPT, PROVED, BUILT = "out/incremental", ".oantt", "out/rlib"


def listed():
    """The lines of crates.txt, by crate, and what each names."""
    lines = [line for line in (ROOT / "crates.txt").read_text().splitlines() if ":" in line.split("#")[0]]
    names = {line.split(":")[0].split()[0]: line for line in lines}
    return names, {name: [word for word in line.split(":")[1].split() if word in names] for name, line in names.items()}


LINES, NAMED = listed()


def with_below(crate):
    """A crate and all that it builds on."""
    found = [crate]
    for name in found:
        found += [other for other in NAMED[name] if other not in found]
    return found


def files(crate):
    folder = ROOT / "crates" / crate
    return sorted(path for part in PARTS for path in (folder / part).rglob("*") if path.is_file())


def sum_of(crate, kit, edit):
    """A sum of all that a round's log is made of."""
    made = hashlib.sha256(repr((kit, edit.read_bytes())).encode())
    for name in with_below(crate):
        made.update(LINES[name].encode())
        for path in files(name):
            made.update(repr((str(path.relative_to(ROOT)), path.read_bytes())).encode())
    return made.hexdigest()


def apply(text, folder):
    """Puts a round's new texts in place of the old ones, each of which stands once in its file."""
    path, old = None, None
    for line in text.splitlines():
        if line.startswith("file: "):
            path = folder / line[6:].strip()
        elif line.startswith("old: "):
            old = line[5:]
        elif line.startswith("new:"):
            source = path.read_text()
            if source.count(old) != 1:
                raise ValueError(f"it stands {source.count(old)} times in {path.relative_to(folder)}: {old}")
            path.write_text(source.replace(old, line[4:].removeprefix(" ")))


def link(file, to):
    try:
        if BUILT in file or file.endswith(PROVED):
            return os.link(file, to)
    except OSError:
        pass
    return shutil.copy2(file, to)


def copy(crate, part, root):
    if (ROOT / "crates" / crate / part).is_dir():
        shutil.copytree(ROOT / "crates" / crate / part, root / "crates" / crate / part, copy_function=link if part in (KEPT, BUILT) else shutil.copy2)


def check(folder, *words):
    done = subprocess.run(["rt", "check", *words], cwd=folder, stdin=subprocess.DEVNULL, stdout=subprocess.PIPE, stderr=subprocess.STDOUT, errors="replace")
    return done.returncode, done.stdout


def proved(crate):
    """Checks a crate as it stands, and keeps what that proves."""
    status, said = check(ROOT / "crates" / crate)
    return [] if status == 0 else [f"{crate} is not proved, so its rounds show nothing:\n{said[-2000:]}"]


@contextlib.contextmanager
def room():
    """A temporary folder. It has another name when it is removed: rt lends what it finds in one, and would take half of it."""
    folder = pathlib.Path(tempfile.mkdtemp(prefix="round-"))
    try:
        yield folder
    finally:
        shutil.rmtree(folder.rename(f"{folder}.gone"), ignore_errors=True)


def tried(crate, edit, log, made):
    """Makes the log of a round."""
    with room() as root:
        below = with_below(crate)
        (root / "crates.txt").write_text("".join(LINES[name] + "\n" for name in below))
        for name in below:
            for part in (*PARTS, KEPT if name == crate else BUILT):
                copy(name, part, root)
        try:
            apply(edit.read_text(), root / "crates" / crate)
        except (OSError, ValueError) as fault:
            return [f"{crate}/{edit.name} cannot be applied: {fault}"]
        status, said = check(root / "crates" / crate, "--jobs", "1")
    log.parent.mkdir(parents=True, exist_ok=True)
    log.write_text(said)
    if status != 1 or "\nlogic=not-proved" not in said:
        return [f"{crate}/{edit.name}: the check ended with status {status}, and a refusal is 1: {log.relative_to(ROOT)}"]
    log.with_suffix(".sum").write_text(made)
    print(f"rounds: {crate}/{edit.stem} tried", flush=True)
    return []


def main():
    words = argparse.ArgumentParser(description=__doc__.splitlines()[0])
    words.add_argument("--jobs", type=int, default=os.cpu_count(), help="so many checks side by side")
    words.add_argument("crate", nargs="*", help="the rounds of these alone")
    given = words.parse_args()
    if lacking := set(given.crate) - set(LINES):
        words.error(f"crates.txt does not list {', '.join(sorted(lacking))}")
    kit = subprocess.run(["rt", "version"], check=True, capture_output=True, text=True).stdout
    todo, count = {}, 0
    for crate in LINES:
        if given.crate and crate not in given.crate:
            continue
        for edit in sorted((ROOT / "crates" / crate / "must-fail").glob("*.edit")):
            log, made = LOGS / crate / f"{edit.stem}.log", sum_of(crate, kit, edit)
            count += 1
            if not (log.exists() and log.with_suffix(".sum").exists() and log.with_suffix(".sum").read_text() == made):
                todo.setdefault(crate, []).append((edit, log, made))
    faults = []
    with concurrent.futures.ThreadPoolExecutor(given.jobs) as pool:
        # a crate's own check first: those of the crates below stand before it
        checks = {pool.submit(proved, crate): crate for crate in todo}
        rounds = []
        for done in concurrent.futures.as_completed(checks):
            faults += done.result()
            if not done.result():
                rounds += [pool.submit(tried, checks[done], *round_) for round_ in todo[checks[done]]]
        for done in concurrent.futures.as_completed(rounds):
            faults += done.result()
    for fault in faults:
        print("rounds:", fault)
    if faults:
        sys.exit(1)
    print(f"rounds: {count} logs of rounds, {sum(map(len, todo.values()))} of them made in this run")


main()
