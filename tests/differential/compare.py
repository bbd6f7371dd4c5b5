"""Two programs' answers to the same cases, line by line, and what is known of where they part.

A departure of the Rust from the rules has a class, and each class an entry of its name in docs/DIFFERENCES.md.
Everything else that differs is a fault of one side. The bit place of a refusal, which the Rust cannot say, is held to the model in rules.py, and to the place that the
oracle's tracing reader saw beneath the Rust.
"""
import collections
import pathlib
import re
import shutil
import subprocess
import tempfile

from codes import escaped
from rules import answer, base_marking, set_of, table_of, unescaped
from sets import for_rust, held_by_rust

AGREED, STOPPED = "agreed", "element of a set"
BIT = re.compile(r" bit=\d+$")

Case = collections.namedtuple("Case", "line said rust wanted group model")


def group_of(rust):
    """The class of the Rust's answer line, and what the rules want there (None: the Rust has no answer)."""
    said, _, document = rust.partition(" | doc: ")
    if said.startswith("ioerror InvalidData"):
        return "forbidden pattern", document or None
    if said.startswith(("error ", "sps ", "pps ")):
        return group_of_set(said, document)
    if not document:
        return AGREED, said
    numbers = BIT.sub("", said), BIT.sub("", document)
    if numbers[1] == "refused 14 value=0":
        return "list of 67", document
    if said == "panic" and document.split()[1] in ("16", "17"):
        return "sum over 32 bits", document
    if numbers == ("refused 5 value=0", "refused 6 value=0"):
        return "zeros to the end", document
    return "unknown: " + rust, document


# fields that the rules refuse with 28, and the Rust takes, or tests after it has read the whole set
UNTESTED = re.compile(r" field=(chroma_format_idc|weighted_bipred_idc|pic_init_q[ps]_minus26|pic_size_in_map_units)$")
# elements at which the Rust stops, and which the rules pass over, or allow more of
OVER = re.compile(r"^error (BitDepthOutOfRange|Invalid(RunLengthMinus1|TopLeft|BottomRight|PicSizeInMapUnitsMinus1|SliceGroupChangeRateMinus1)) at=(\d+)$")


def group_of_set(said, document):
    """The same for a parameter set: the Rust has read it, or stops with an error of its own."""
    if OVER.match(said):
        return STOPPED, said
    if not document:
        return (AGREED if said[:3] in ("sps", "pps") else "unknown: " + said), said
    if document.startswith("refused 28 "):
        return ("field of a set" if UNTESTED.search(said) else "unknown: " + said), document
    if said == "error FieldValueTooLarge:pic_size_in_map_units":
        return "size by level", document
    return "behind a set", document


def by_model(case):
    """The case; where the Rust stops at an element that is passed over, it cannot say what follows. The model does, unless it refuses something up to there."""
    stopped = OVER.match(case.wanted)
    if not stopped:
        return case
    bit = BIT.search(case.model)
    if case.model.startswith("refused") and (not bit or int(bit[0][5:]) <= int(stopped[3])):
        return case._replace(group="unknown: " + case.rust)
    return case._replace(rust=f"{case.rust} | doc: {case.model}", wanted=case.model)


def prefix_of_rust(b, extension):
    """The words of a prefix unit's body as the Rust reads it: operations behind a set store flag, whatever the extension says."""
    store = b.u(1)
    words = [f"store_ref_base_pic_flag={store}"] + (base_marking(b) if store else [])
    return words + [f"additional_prefix_nal_unit_extension_flag={b.u(1)}"]


def by_standard(case):
    """The case; a prefix unit whose two readings differ is a class, if the Rust's is the one that the model has for it."""
    words, _, unit = case.line.rpartition(" ")
    if unit[1:2] != "e":  # no type 14
        return case
    table, unit = table_of(words.split()), bytes.fromhex(unit)
    rust, standard = answer(table, unit, prefix_of_rust), answer(table, unit)
    if rust == standard:
        return case
    group = "prefix marking" if case.wanted == rust else "unknown: " + case.rust
    return case._replace(rust=f"{case.rust} | doc: {standard}", wanted=standard, group=group)


def key_of(answer):
    words = answer.split() or ["nothing"]
    return " ".join(words[:2]) if words[0] == "refused" else words[0]


def escaped_anew(unit):
    """The unit with the same body, escaped as the standard asks."""
    raw = bytes.fromhex(unit)
    front = 4 if raw[0] & 31 in (14, 20, 21) else 1
    body = escaped(unescaped(raw[front:]))
    return (raw[:front] + body + (b"\3" if body.endswith(b"\0\0") else b"")).hex()


def shown_of_set(answer):
    """The small numbers among a set's fields, so that it shows which came."""
    held = set_of(answer[4:])
    for name in ("chroma_format_idc", "pic_order_cnt_type", "weighted_bipred_idc"):
        if hasattr(held, name):
            yield name, getattr(held, name)
    if hasattr(held, "change_rate"):
        yield "change_rate", "there" if held.change_rate else "absent"


class Sides:
    """The port's command and the oracle, run over case files in a folder."""

    def __init__(self, port, oracle, folder, more=()):
        self.more = list(more)  # words behind `cases`
        self.port, self.oracle, self.folder = port, oracle, pathlib.Path(folder)
        self.rust_words, self.seen, self.table = {}, set(), (None, {})

    def front(self, words):
        """The oracle's words for a table."""
        if words not in self.rust_words:
            self.rust_words[words] = "".join(w + " " for w in for_rust(words.split()))
        return self.rust_words[words]

    def ran(self, command, lines):
        path = self.folder / "cases"
        path.write_text("\n".join(lines) + "\n")
        done = subprocess.run([*command, str(path)], stdout=subprocess.PIPE, text=True)
        said = done.stdout.splitlines()
        if done.returncode or len(said) != len(lines):
            kept = shutil.copy(path, pathlib.Path(tempfile.gettempdir()) / "unanswered-cases")
            raise SystemExit(f"{command[0]}: {len(said)} answers to {len(lines)} cases, exit status {done.returncode}; kept as {kept}")
        return said

    def rust(self, lines, command=("run", "--trace")):
        split = [line.rpartition(" ") for line in lines]
        return self.ran([self.oracle, *command], [self.front(words) + unit for words, _, unit in split])

    def hold_tables(self, lines):
        """Each table must be held by the Rust as its words say."""
        new = {line.rpartition(" ")[0]: line for line in lines}
        new = {words: line for words, line in new.items() if words and words not in self.seen}
        self.seen |= set(new)
        if not new:
            return
        for (words, _), said in zip(new.items(), self.rust(list(new.values()), ["tables"])):
            state, *held = said.split()
            if "bad" in state or held != held_by_rust(words.split()):
                raise SystemExit(f"the Rust does not hold this table as its words say: {words}: {said}")

    def modelled(self, line, said):
        """What the model answers, where the port refuses or has read a parameter set."""
        if not said.startswith(("refused", "sps", "pps")):
            return said
        words, _, unit = line.rpartition(" ")
        if words != self.table[0]:
            self.table = words, table_of(words.split())
        return answer(self.table[1], b"" if unit == "-" else bytes.fromhex(unit))

    def compared(self, lines):
        """A Case for each line."""
        self.hold_tables(lines)
        self.rust_words = dict(list(self.rust_words.items())[-1000:])
        rust, said = self.rust(lines), self.ran([*self.port, "cases", *self.more], lines)
        out = [Case(line, s, x, *reversed(group_of(x)), self.modelled(line, s)) for line, s, x in zip(lines, said, rust)]
        # Where the Rust stops at a forbidden pattern, it is asked for the same body, escaped.
        lost = [i for i, c in enumerate(out) if c.wanted is None]
        if lost:
            again = [out[i].line.rpartition(" ") for i in lost]
            for i, x in zip(lost, self.rust([f"{words} {escaped_anew(unit)}".lstrip() for words, _, unit in again])):
                out[i] = out[i]._replace(rust=f"{out[i].rust} | escaped: {x}", wanted=group_of(x)[1])
        return [by_standard(by_model(c)) for c in out]


class Tally:
    """Counts by answer, by field and by class, and the faults."""

    def __init__(self):
        self.answers, self.fields, self.groups = collections.Counter(), collections.Counter(), collections.Counter()
        self.smallest, self.faults = {}, []

    @staticmethod
    def is_fault(c):
        return c.said != c.wanted or c.said != c.model or c.group.startswith("unknown")

    def take(self, cases):
        for c in cases:
            self.answers[key_of(c.said)] += 1
            self.groups[c.group] += 1
            if c.said.startswith(("sps", "pps")):
                self.fields.update(f"{name}={value}" for name, value in shown_of_set(c.said))
            if c.said.startswith(("slice", "prefix")):
                self.fields.update(w.partition("=")[0] for w in c.said.split()[1:])
            if self.is_fault(c):
                self.faults.append(c)
            if c.group != AGREED and len(c.line) < len(self.smallest.get(c.group, c).line) + (c.group not in self.smallest):
                self.smallest[c.group] = c

    def report(self):
        def counted(counter):
            order = sorted(counter, key=lambda k: (int(k.split()[1]) if k.startswith("refused ") else 0, k))
            return "  ".join(f"{k}: {counter[k]:,}" for k in order)

        yield f"cases: {sum(self.answers.values()):,}"
        yield f"answers: {counted(self.answers)}"
        yield f"fields: {counted(self.fields)}"
        yield f"classes: {counted(self.groups)}"
        for group, c in sorted(self.smallest.items()):
            yield f"smallest of '{group}': {c.line}"
            yield f"    the Rust: {c.rust}"
            yield f"    the port: {c.said}"
        yield f"differences that are none of these: {len(self.faults):,}"
