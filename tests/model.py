"""Holds a program's expected output, or its input, to the lines that a model in plain Python works out."""
import pathlib
import sys

CRATES = pathlib.Path(__file__).resolve().parent.parent / "crates"


def hold(crate, lines, name="stdout"):
    """Compares the lines with crates/CRATE/NAME, or writes them there with --write."""
    file = CRATES / crate / name
    want = "\n".join(lines) + "\n"
    if "--write" in sys.argv:
        file.write_text(want)
        return
    got = file.read_text()
    if got != want:
        for i, (a, b) in enumerate(zip(got.splitlines(), want.splitlines()), 1):
            if a != b:
                print(f"{crate}: line {i} of its {name}: {a!r}; the model says {b!r}")
        print(f"{crate}: crates/{crate}/{name} is not what tests/{crate}.py works out")
        sys.exit(1)
    print(f"{crate}: {len(lines)} lines of its {name}, as tests/{crate}.py works them out")
