#!/usr/bin/env python3
"""The definitions that a signer must believe are all named, and no others: docs/PROMISES.md names the files of specs/ that the demands' theorems reach,
docs/CONTRACTS.md those that the public functions' contracts reach beyond them. And docs/PROMISES.md names every theorem for signers, and none that is not there.

    tests/believed.py [--list]     (--list: prints what is reached)

Reads specs/, proofs/ and src/ as text: from the names in a contract, or in a theorem's statement, to the definitions of these names, to the names in them.
First it is tried itself, on a small tree. Exits non-zero and says what is missing.
"""
import pathlib
import re
import sys
import tempfile

from promises import ROOT, functions, plain

THEOREMS = {"Demands": "demand-", "Behind": "behind-", "Bound": "bound-", "Widths": "widths-", "Sets": "sets-", "Headers": "headers-", "Exposures": "exposures-"}  # files of crates/promises/proofs, and how the theorems for signers begin
MODULE = re.compile(r"Rattle\.(\w+)\.(specs|proofs)\.([\w.]+)$")
USE = re.compile(r"^(?:ghost )?use (\S+?)(?:\.\{([^}]*)\}|(?: as (\S+?))?);?$", re.M | re.S)
SIGNATURE = re.compile(r"^( *)((?:(?:pattern|abbrev|unfoldable|pub) )*)(record |data )?(«?[^\s(){}:«»]+»?)(?= .*:| *:|$)")
WORD = re.compile(r"[^\s(){}\[\],;\"⌜⌝]+")


def module_of(path, root):
    """Crate, folder and name of a module of ours; None for one of the kit's, and for the types that src/ declares."""
    found = MODULE.match(path)
    return found.groups() if found and (root / "crates" / found[1]).is_dir() and not found[3].startswith("declared.") else None


def words(text):
    return [w.strip("«»") for w in WORD.findall(text)]


class File:
    """A file of specs/ or proofs/: what it defines, and where the names in it come from."""

    def __init__(self, path, root):
        text = re.sub(r"--.*", "", path.read_text())
        self.names, self.aliases = imports(text, root)
        self.blocks, self.owner = {}, {}
        name = closed = None  # the definition at hand; the indent of a record or a data type that is open
        for line in USE.sub("", text).splitlines():
            indent = len(line) - len(line.lstrip())
            if line.strip() and closed is not None and indent <= closed:
                closed = None
            found = SIGNATURE.match(line)
            if found and closed is not None:
                self.owner.setdefault(found[4].strip("«»"), name)
            elif found and not line.lstrip().startswith(("module ", "unfolding ", "where")) and (found[2] or found[3] or " : " in line):
                name = found[4].strip("«»")
                closed = indent if found[3] else None
                self.blocks.setdefault(name, [])
                self.owner[name] = name
            if name:
                self.blocks[name].append(line)

    def signature(self, name):
        """The statement of a theorem: its lines up to the definition."""
        out = []
        for line in self.blocks[name]:
            if re.match(rf"\s*(unfolding\b|{re.escape(name)} .*=|{re.escape(name)} =)", line):
                break
            out.append(line)
        return "\n".join(out)


def imports(text, root):
    """Names that a file uses from modules of ours, and its names for whole modules."""
    names, aliases = {}, {}
    for path, listed, alias in USE.findall(text):
        module = module_of(path, root)
        if not module:
            continue
        if alias:
            aliases[alias] = module
        for entry in filter(None, (e.strip() for e in listed.split(","))):
            name, _, other = entry.partition(" as ")
            names[other or name] = (module, name)
    return names, aliases


class Tree:
    def __init__(self, root):
        self.root, self.files, self.seen = root, {}, set()

    def file(self, module):
        if module not in self.files:
            crate, folder, name = module
            self.files[module] = File(self.root / "crates" / crate / folder / (name.replace(".", "/") + ".antt"), self.root)
        return self.files[module]

    def reach(self, text, names, aliases, home=None):
        """Follows every name in a text."""
        for word in words(text):
            front, dot, back = word.partition(".")
            if word in names:
                self.follow(*names[word])
            elif dot and front in aliases:
                self.follow(aliases[front], back)
            elif home and word in self.file(home).owner:
                self.follow(home, word)

    def follow(self, module, name):
        file = self.file(module)
        name = file.owner.get(name, name)
        if (module, name) in self.seen or name not in file.blocks:
            if name not in file.blocks:
                raise SystemExit(f"believed: {'.'.join(module)} has no definition of {name} that this test finds")
            return
        self.seen.add((module, name))
        self.reach("\n".join(file.blocks[name]), file.names, file.aliases, module)

    def reached(self):
        return {module for module, _ in self.seen}

    def theorems(self):
        """Follows the statements for signers; gives the theorems' names."""
        out = []
        for name, front in THEOREMS.items():
            file = self.file(("promises", "proofs", name))
            found = [block for block in file.blocks if block.startswith(front)]
            heads = re.findall(r"^module _ .*?where$", (self.root / f"crates/promises/proofs/{name}.antt").read_text(), re.M | re.S)
            for text in [file.signature(block) for block in found] + heads:
                self.reach(text, file.names, file.aliases)
            out += found
        return out

    def contracts(self):
        for path in sorted(self.root.glob("crates/*/src/**/*.rt")):
            if not any(path.parent.rglob("main.rt")):
                text = plain(path.read_text())
                names, aliases = imports(text, self.root)
                for f in functions(text):
                    for _, clause in f.clauses:
                        self.reach(clause, names, aliases)


def section(path, heading):
    """The files of specs/ that a page names under a heading, in lines "- `crate`, ..: `File`, .. (what they say)"."""
    text = (ROOT / path).read_text().partition(f"## {heading}\n")[2].partition("\n## ")[0]
    lines = [line[2:].partition(" (")[0].partition(": ") for line in text.splitlines() if line.startswith("- `")]
    return {(crate, "specs", name) for crates, _, files in lines for crate in re.findall(r"`(\w+)`", crates) for name in re.findall(r"`(\w+)`", files)}


def differences(page, told, found):
    for module in sorted(found - told):
        yield f"{page} does not name crates/{module[0]}/{module[1]}/{module[2]}.antt"
    for module in sorted(told - found):
        yield f"{page} names crates/{module[0]}/{module[1]}/{module[2]}.antt, which is not reached"


TRIED = {
    "crates/promises/proofs/Demands.antt": "use Rattle.a.specs.Top.{top}\nuse Rattle.a.proofs.Law as law\n\n-- named, not reached\npub demand-1-x : (n : ℕ) → top n ≡ n\ndemand-1-x n = law.other n\n",
    "crates/promises/proofs/Behind.antt": "use Rattle.c.specs.Late.{late}\n\nlaw : (n : ℕ) → n ≡ n\nlaw n = refl\n\npub behind-y : (n : ℕ) → late n ≡ n\nbehind-y n = law n\n",
    "crates/promises/proofs/Bound.antt": "use Rattle.c.specs.Most.{most}\n\npub bound-z : (n : ℕ) → most n ≡ n\nbound-z n = refl\n",
    "crates/promises/proofs/Widths.antt": "use Rattle.c.specs.Late.{late}\n\npub widths-z : (n : ℕ) → late n ≡ n\nwidths-z n = refl\n",
    "crates/promises/proofs/Sets.antt": "use Rattle.c.specs.Late.{late}\n\npub sets-z : (n : ℕ) → late n ≡ n\nsets-z n = refl\n",
    "crates/promises/proofs/Headers.antt": "use Rattle.c.specs.Late.{late}\n\npub headers-z : (n : ℕ) → late n ≡ n\nheaders-z n = refl\n",
    "crates/promises/proofs/Exposures.antt": "use Rattle.c.specs.Late.{late}\n\npub exposures-z : (n : ℕ) → late n ≡ n\nexposures-z n = refl\n",
    "crates/promises/specs/Lib.antt": "",
    "crates/a/specs/Top.antt": "use Rattle.a.specs.Deep.{Pair, pair}\nuse Rattle.std.specs.Prelude.{ℕ, eqb}\nuse Rattle.b.specs.All as all\nuse Rattle.a.specs.Unused.{unused}\n\nabbrev pub top : ℕ → ℕ\ntop n = all.all (pair n)\n\nabbrev pub second : ℕ → ℕ\nsecond n = unused n\n",
    "crates/a/specs/Deep.antt": "pub data Pair : Type 0 where\n  -- two\n  pair : ℕ → Pair\n",
    "crates/a/specs/Unused.antt": "abbrev pub unused : ℕ → ℕ\nunused n = n\n",
    "crates/b/specs/All.antt": "module _ (n : ℕ) where\n  abbrev pub all : ℕ\n  all = n\n",
    "crates/c/specs/Late.antt": "abbrev pub late : ℕ → ℕ\nlate n = n\n",
    "crates/c/specs/Most.antt": "abbrev pub most : ℕ → ℕ\nmost n = n\n",
    "crates/b/src/lib.rt": "ghost use Rattle.a.specs.Unused.{unused};\npub fn f(x: u32) -> u32\n ensures { result ≡ unused x }\n{ x }\n",
}


def tried():
    """The small tree's definitions are found."""
    with tempfile.TemporaryDirectory() as folder:
        root = pathlib.Path(folder)
        for name, text in TRIED.items():
            (root / name).parent.mkdir(parents=True, exist_ok=True)
            (root / name).write_text(text)
        tree = Tree(root)
        theorems, deep = tree.theorems(), {".".join(m) for m in tree.reached()}
        tree.contracts()
        all_of = {".".join(m) for m in tree.reached()}
    if theorems != ["demand-1-x", "behind-y", "bound-z", "widths-z", "sets-z", "headers-z", "exposures-z"] or deep != {"a.specs.Top", "a.specs.Deep", "b.specs.All", "c.specs.Late", "c.specs.Most"} or all_of - deep != {"a.specs.Unused"}:
        sys.exit(f"believed: tried on a small tree, it finds {theorems}, {sorted(deep)} and {sorted(all_of - deep)}")


def main():
    tried()
    tree = Tree(ROOT)
    theorems = tree.theorems()
    demands = tree.reached()
    tree.contracts()
    contracts = tree.reached() - demands
    if "--list" in sys.argv:
        for what, modules in ("demands", demands), ("contracts", contracts):
            for crate in sorted({m[0] for m in modules}):
                print(what, crate, " ".join(m[2] if m[1] == "specs" else "/".join(m[1:]) for m in sorted(modules) if m[0] == crate))
        return 0
    page = (ROOT / "docs/PROMISES.md").read_text()
    named = set(re.findall(rf"`((?:{'|'.join(THEOREMS.values())})[\w-]+)`", page))
    wrong = [f"docs/PROMISES.md does not name the theorem {name}" for name in theorems if name not in named]
    wrong += [f"docs/PROMISES.md names {name}, which is no theorem" for name in sorted(named - set(theorems))]
    wrong += differences("docs/PROMISES.md", section("docs/PROMISES.md", "Definitions to believe"), demands)
    wrong += differences("docs/CONTRACTS.md", section("docs/CONTRACTS.md", "Definitions"), contracts)
    for line in wrong:
        print("believed:", line)
    if not wrong:
        print(f"believed: {len(theorems)} theorems reach {len(demands)} files of definitions, the contracts {len(contracts)} more; all are named")
    return 1 if wrong else 0


if __name__ == "__main__":
    sys.exit(main())
