#!/usr/bin/env python3
"""What ./tuz says before anything is built, while it installs and proves, and where that fails. It runs in a copy of the scripts, with programs of our own in place of
dpkg, apt-get, rt and cargo, so that nothing is installed or proved.

    tests/first_use.py
"""
import os
import pathlib
import shutil
import subprocess
import sys
import tempfile

ROOT = pathlib.Path(__file__).resolve().parent.parent
LINES = [line.split(":") for line in (ROOT / "crates.txt").read_text().splitlines() if line and line[0] != "#"]
NAMES = {front.split()[0]: below for front, below in LINES}


def below(crate, found):
    """A crate and all that it names, in the order in which they are proved."""
    for name in NAMES[crate].split():
        below(name, found)
    return found if crate in found else found.append(crate) or found


CRATES = below("exports", [])
PROOFS = "\n".join(f"echo 'crate {c}: modules loaded=1 checked=1'" for c in CRATES)
MUCH = "for i in $(seq 900); do echo Unpacking package $i; done"


class Copy:
    """The scripts in a folder of their own, and programs that stand first on the PATH."""

    def __init__(self, folder, **programs):
        self.root = pathlib.Path(folder) / "tree"
        for part in "tuz", "tools/packages.sh", "tools/archive", "docs/TUZ.md", "rust/tuz/Cargo.toml", "crates.txt":
            (self.root / part).parent.mkdir(parents=True, exist_ok=True)
            shutil.copy(ROOT / part, self.root / part)
        (self.root / "crates").mkdir()
        self.path = pathlib.Path(folder) / "bin"
        self.path.mkdir()
        self.program(self.root / "bench/native-archive", programs.pop("proofs", "touch ../called; exit 1"))
        usual = {"dpkg": "exit 0", "apt-get": "touch called; exit 1", "rt": "exit 1", "cargo": "[ \"$1\" = --version ] || touch called", "sudo": '[ "$1" = -n ] && shift; exec "$@"'}
        for name, text in {**usual, **programs}.items():
            self.program(self.path / name.replace("_", "-"), text)

    def program(self, path, text):
        path.parent.mkdir(exist_ok=True)
        path.write_text(f"#!/bin/sh\n{text}\n")
        path.chmod(0o755)

    def run(self, words, terminal=False):
        command = ["./tuz", *words]
        if terminal:
            command = ["script", "-qec", " ".join(command), "/dev/null"]
        kept = {k: v for k, v in os.environ.items() if k not in ("TUZ_ARCHIVE", "TUZ")}
        env = {**kept, "PATH": f"{self.path}:{kept['PATH']}", "TMPDIR": str(self.root)}
        seen = subprocess.run(command, cwd=self.root, env=env, stdin=subprocess.DEVNULL, capture_output=True)
        seen.stdout, seen.stderr = seen.stdout.decode(), seen.stderr.decode()
        return seen

    def called(self):
        return (self.root / "called").exists()


def check(what, held, seen):
    if not held:
        sys.exit(f"first use: {what}\n{seen.stdout}{seen.stderr}")


def told_before_a_build():
    with tempfile.TemporaryDirectory() as folder:
        copy = Copy(folder, proofs="touch called", dpkg="touch called")
        for words in (["--help"], ["-h"], ["help"], ["qp", "--help"]):
            seen = copy.run(words)
            good = "Usage: tuz <COMMAND>" in seen.stdout and "some ten minutes" in seen.stdout and not seen.stderr
            check(f"{words} is not answered without a build", good and not copy.called() and seen.returncode == 0, seen)
        seen = copy.run(["--version"])
        check("--version is not answered without a build", seen.stdout.startswith("tuz 0.") and "not built yet" in seen.stdout and not copy.called(), seen)


def packages_fail():
    with tempfile.TemporaryDirectory() as folder:
        copy = Copy(folder, dpkg="exit 1", apt_get=f"{MUCH}; echo 'E: no such package' >&2; exit 100")
        seen = copy.run(["list", "x"])
        lines = seen.stderr.splitlines()
        check("a failed installation is not told in two lines", seen.returncode == 2 and len(lines) == 2 and not seen.stdout, seen)
        log = pathlib.Path(lines[1].split()[-1])
        check("what apt-get said is not in the file that is named", "E: no such package" in log.read_text() and "Unpacking package 900" in log.read_text(), seen)


def proofs_are_told():
    with tempfile.TemporaryDirectory() as folder:
        copy = Copy(folder, dpkg="exit 0", proofs=f"{MUCH}\n{PROOFS}\nmkdir -p crates/exports/out; touch crates/exports/out/libexports.a")
        seen = copy.run(["list", "x"], terminal=True)
        count = len(CRATES)
        good = f"\rtuz: proved 1 of {count} crates (bits)" in seen.stdout and f"\rtuz: proved {count} of {count} crates (exports)" in seen.stdout
        good &= "Unpacking" not in seen.stdout
        check("proofs are not told crate by crate on one line", good and seen.stdout.count("\n") < 6, seen)
    with tempfile.TemporaryDirectory() as folder:
        copy = Copy(folder, proofs=f"{PROOFS}\necho 'fn bits::read::signed: not proved'\nexit 1")
        seen = copy.run(["list", "x"])
        log = pathlib.Path(seen.stderr.split()[-1])
        check("failed proofs do not name what rt said", seen.returncode == 2 and "not proved" in log.read_text(), seen)
    with tempfile.TemporaryDirectory() as folder:
        copy = Copy(folder)
        (copy.path / "rt").unlink()
        if not shutil.which("rt", path=os.environ["PATH"]):
            seen = copy.run(["list", "x"])
            check("a missing kit is not named", "the Rattle kit is missing" in seen.stderr, seen)


told_before_a_build()
packages_fail()
proofs_are_told()
print("first use: what is told before a build, by a failed installation and while proving is as it should be")
