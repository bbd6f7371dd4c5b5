#!/usr/bin/env python3
"""Writes include/tuzmarghil.h from the Rattle sources: the exported functions, the records that they take and give, and the places of a header's fields in lent words.

    tools/header.py [--check]

--check: says whether the file is as it would be written now.
"""
import pathlib
import re
import sys

ROOT = pathlib.Path(__file__).resolve().parent.parent
FILE = ROOT / "include/tuzmarghil.h"
SCALARS = {"u8": ("uint8_t", 1), "u16": ("uint16_t", 2), "u32": ("uint32_t", 4), "i32": ("int32_t", 4), "i64": ("int64_t", 8), "usize": ("size_t", 8), "bool": ("bool", 1)}
BENCH = "tuz_ue_run"  # for the benchmark alone

FRONT = """\
/* tuzmarghil.h: H.264 slice headers, read and written by a proved library. Written by tools/header.py; do not edit.
 *
 * Link crates/exports/out/libexports.a (`tools/archive` makes it), for x86-64 or aarch64 Linux. No function allocates, keeps anything or requires anything of what it is
 * lent, but that pointers are those of live memory of the length that is told, and that what is written to does not overlap. A slice is a pointer and a length.
 * A result of over 16 bytes goes where the first argument points, on every machine.
 */
#ifndef TUZMARGHIL_H
#define TUZMARGHIL_H

#include <stdbool.h>
#include <stddef.h>
#include <stdint.h>

#ifdef __cplusplus
extern "C" {
#endif

/* The number of this layout: what tuz_layout() answers in an archive made from the same sources. */
#define TUZ_LAYOUT %s

/* The bytes of a buffer that holds every slice header: tuz_write_header never answers 26 to it. */
#define TUZ_HEADER_BYTES %s
"""
BACK = """
#ifdef __cplusplus
}
#endif

#endif
"""


def comment(words):
    return f"/* {words} */\n" if words else ""


def marked(path, mark):
    """What stands behind each line that is `mark`, up to a line that closes it, without other attributes, and with the comment before it."""
    told, lines = [], iter(path.read_text().splitlines())
    for line in lines:
        if line.startswith("// "):
            told.append(line[3:])
        elif line == mark:
            body = []
            for line in lines:
                if not line.startswith("#["):
                    body.append(line)
                if line.startswith(("}", "{", "    ensures", "    requires")):
                    break
            yield " ".join(told), " ".join(body)
            told = []
        else:
            told = []


class Records:
    def __init__(self):
        self.told, self.fields, self.notes = {}, {}, {}
        for path in sorted((ROOT / "crates").glob("*/src/*.rt")):
            for told, body in marked(path, "#[repr(C)]"):
                name = body.split()[2]
                self.told[name] = told
                fields = re.findall(r"((?:    // .*?)?)    pub (\w+): (\[[^\]]+\]|\w+),", body)
                self.fields[name] = [(field, kind) for _, field, kind in fields]
                self.notes[name] = [note.replace("    // ", "").strip() for note, *_ in fields]

    def size(self, kind):
        """Size and alignment."""
        if kind in SCALARS:
            return SCALARS[kind][1], SCALARS[kind][1]
        array = re.fullmatch(r"\[(\w+); (\d+)\]", kind)
        if array:
            size, align = self.size(array[1])
            return size * int(array[2]), align
        at, most = 0, 1
        for _, field in self.fields[kind]:
            size, align = self.size(field)
            at, most = -(-at // align) * align + size, max(most, align)
        return -(-at // most) * most, most

    def declared(self, name, kind):
        array = re.fullmatch(r"\[(\w+); (\d+)\]", kind)
        if array:
            return f"{self.c(array[1])} {name}[{array[2]}]"
        return f"{self.c(kind)} {name}"

    def c(self, kind):
        return SCALARS[kind][0] if kind in SCALARS else f"tuz_{kind}"

    def needed(self, kind, found):
        """A record behind those that it is made of."""
        kind = re.sub(r"^\[(\w+); \d+\]$", r"\1", kind)
        if kind in SCALARS or kind in found:
            return
        for _, field in self.fields[kind]:
            self.needed(field, found)
        found.append(kind)

    def text(self, name):
        fields = ""
        for field, note in zip(self.fields[name], self.notes[name]):
            fields += f"  /* {note} */\n" if note else ""
            fields += f"  {self.declared(*field)};\n"
        return f"\n{comment(self.told[name])}typedef struct {{\n{fields}}} tuz_{name};\n"

    def sizes(self, names):
        lines = "".join(f'_Static_assert(sizeof(tuz_{n}) == {self.size(n)[0]}, "tuz_{n}");\n' for n in names)
        return f"\n#ifndef __cplusplus\n{lines}#endif\n"


def argument(records, name, kind):
    name = "signed_numbers" if name == "signed" else name  # a word of C
    kind = re.sub(r"^&'a ", "&", kind)
    lent = re.fullmatch(r"&(mut )?(.+)", kind)
    if not lent:
        return records.declared(name, kind)
    const, kind = "" if lent[1] else "const ", lent[2]
    part = re.fullmatch(r"\[(\w+)\]", kind)
    if part:
        return f"{const}{records.c(part[1])} *{name}, size_t {name}_len"
    if kind.startswith("["):
        return const + records.declared(name, kind)
    return f"{const}{records.c(kind)} *{name}"


def functions(records):
    found, text = [], ""
    for path in sorted((ROOT / "crates/exports/src").glob("*.rt")):
        for told, body in marked(path, "#[unsafe(no_mangle)]"):
            name, rest = re.match(r'pub extern "C" fn (\w+)(.*)', body).groups()
            given, result = re.match(r".*?\((.*)\)(?: -> (\w+))?", re.split(r" {4}(?:ensures|requires) ", rest)[0]).groups()
            if name == BENCH:
                continue
            arguments = re.findall(r"(\w+): ((?:&'a |&)?(?:mut )?(?:\[[^\]]+\]|\w+))", given)
            for _, kind in arguments:
                base = re.sub(r"^&(?:'a )?(?:mut )?", "", kind)
                if not base.startswith("["):
                    records.needed(base, found)
            words = [argument(records, *a) for a in arguments]
            if result:
                records.needed(result, found)
            back = records.c(result) if result else "void"
            if result and records.size(result)[0] > 16:
                words, back = [f"tuz_{result} *result", *words], "void"
            text += f"\n{comment(told)}{back} {name}({', '.join(words) or 'void'});\n"
    return found, text


# What the functions that lay down a header's parts call their fields, where it is not what H.264 or the record calls them.
NAMES = {"l.flag0": "ref_pic_list_modification_flag_l0", "l.flag1": "ref_pic_list_modification_flag_l1", "l.count0": "modifications_l0", "l.count1": "modifications_l1", "m.count": "markings"}
MARKS = ("there", "first", "second", "l0", "l1")


def laid(text):
    """The name of each word of a header's fields, by the lines that lay them down: numbers and flags in one array, signed numbers in the other."""
    consts = dict(re.findall(r"const (\w+): usize = (\d+);", text))
    words = {"numbers": {}, "signed": {}}
    for part in re.split(r"\nfn |\npub\(crate\) fn ", text)[1:]:
        given = dict(re.findall(r"let (\w+) = ([\w.]+);", part))
        for array, place, field in re.findall(r" {4}(numbers|signed)\[(\w+)\] = ([\w.]+)(?: as u32)?;", part):
            path = given.get(field, field)
            for own, name in NAMES.items():
                path = re.sub(rf"^{re.escape(own)}\b", name, path)
            *before, last = re.sub(r"^w\.(?=there|l0|l1)", "weights.", path).split(".")
            name = before[-1] if last == "value" else f"{before[-1]}_{last}" if last in MARKS else last
            words[array][int(consts.get(place, place))] = name
    for array in words.values():
        assert sorted(array) == list(range(len(array))), array
    return {name: [array[k] for k in sorted(array)] for name, array in words.items()}


def places():
    text = "\n/* Where a slice header's fields stand in the lent words: a mark (THERE) and a value for what may be absent, flags as 0 and 1, of each list the count. */\n"
    for name, words in laid((ROOT / "crates/header/src/words.rt").read_text()).items():
        entries = "".join(f"  TUZ_{w.upper()} = {i},\n" for i, w in enumerate(words))
        text += f"enum tuz_{name} {{\n{entries}  TUZ_{name.upper()} = {len(words)}\n}};\n"
    return text


def header():
    records = Records()
    layout = re.search(r"const LAYOUT: u32 = (\d+);", (ROOT / "crates/exports/src/layout.rt").read_text())[1]
    enough = re.search(r"^enough = (\d+)$", (ROOT / "crates/promises/specs/Bound.antt").read_text(), re.M)[1]
    found, text = functions(records)
    return FRONT % (layout, enough) + "".join(map(records.text, found)) + records.sizes(found) + places() + text + BACK


def main():
    text = header()
    if "--check" in sys.argv:
        same = FILE.exists() and FILE.read_text() == text
        print(f"header: include/tuzmarghil.h is {'as the sources say' if same else 'old: tools/header.py writes it, and a change of layout wants another LAYOUT'}")
        return 0 if same else 1
    FILE.write_text(text)
    return 0


sys.exit(main())
