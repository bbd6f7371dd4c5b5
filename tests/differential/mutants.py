#!/usr/bin/env python3
"""mutants.py [COUNT]: would the cases notice? Each edit puts one error into the model; some case must then be answered otherwise.

Needs neither the port nor the Rust. Prints, for each error, how many cases it took.
"""
import itertools
import pathlib
import sys
import types

TESTS = pathlib.Path(__file__).resolve().parent.parent
sys.path.insert(0, str(TESTS))

import rules  # noqa: E402
import generate  # noqa: E402

EDITS = [
    ("more data tested at the cursor bit", 'self.bits.find("1", self.at + 1)', 'self.bits.find("1", self.at)'),
    ("more data tested a bit later", 'self.bits.find("1", self.at + 1)', 'self.bits.find("1", self.at + 2)'),
    ("the width rounded down", "2**width * rate < size + rate", "2**width * rate <= size"),
    ("the width's edge", "2**width * rate < size + rate", "2**width * rate <= size + rate"),
    ("the flag of an empty list dropped", "return words + flags", "return words + [f for f in flags if ':' in ' '.join(words)]"),
    ("zeros of the extension count", "unescaped(unit[1 + len(extension) :])", "unescaped(unit[1:])[len(extension) :]"),
    ("escapes kept", 'data.replace(b"\\0\\0\\3", b"\\0\\0")', "data"),
    ("escapes dropped after one zero", 'data.replace(b"\\0\\0\\3", b"\\0\\0")', 'data.replace(b"\\0\\3", b"\\0")'),
    ("32 zeros and the end", "6 if len(self.bits) - self.at >= 32 else 5", "6 if len(self.bits) - self.at > 32 else 5"),
    ("31 zeros refused", 'self.bits.find("1", self.at, self.at + 32)', 'self.bits.find("1", self.at, self.at + 31)'),
    ("signs exchanged", "(k + 1) // 2 if k & 1 else -(k // 2)", "-(k + 1) // 2 if k & 1 else k // 2"),
    ("lists of 65", "ENTRIES = 66", "ENTRIES = 65"),
    ("lists of 67", "ENTRIES = 66", "ENTRIES = 67"),
    ("14 before 12", "        code = b.ue_up_to(most, number)\n", "        code = b.ue_up_to(most if len(entries) < 66 else 2**32, number)\n"),
    ("slice_type 10", "b.ue_up_to(9, 7)", "b.ue_up_to(10, 7)"),
    ("set id 256", "b.ue_up_to(255, 8)", "b.ue_up_to(256, 8)"),
    ("9 and 10 exchanged", "raise b.refused(10, pic.sps_id)", "raise b.refused(9, pic.sps_id)"),
    ("colour plane 3", "b.u(2)) == 3", "b.u(2)) == 4"),
    ("IDR of a view by the wrong bit", "mvc and not extension[0] & 0x40", "mvc and not extension[0] & 0x20"),
    ("IDR of type 1", "idr = kind == 5", "idr = kind in (1, 5)"),
    ("bottom delta of a field too", "and not field\n", "and True\n"),
    ("order counts of type 1 exchanged", "{b.se() if read else 0}:{b.se() if read and both", "{b.se() if read and both else 0}:{b.se() if read"),
    ("active 32", "b.ue_up_to(31, 21)", "b.ue_up_to(32, 21)"),
    ("13 after the modification", "    if svc:\n        raise Refused(13, 0, b.at)\n", ""),
    ("13 before the counts", "    if lists and put(", "    if svc:\n        raise Refused(13, 0, b.at)\n    if lists and put("),
    ("codes 4 and 5 without views", "() if mvc else (4, 5)", "()"),
    ("weights of SP slices left out", "family in (P, SP) or pic", "family == P or pic"),
    ("weights with bipred idc 2", "weighted_bipred_idc == 1", "weighted_bipred_idc >= 1"),
    ("chroma weights of separate planes", "chroma = seq.chroma_format_idc and not seq.separate_colour_plane_flag", "chroma = seq.chroma_format_idc"),
    ("weights by the default count", "weights(b, active[i] + 1, chroma)", "weights(b, pic[4 + i] + 1, chroma)"),
    ("marking operation 3 with one operand", "[0, 1, 1, 2, 1, 0, 1]", "[0, 1, 1, 1, 1, 0, 1]"),
    ("marking without nal_ref_idc", "elif ref_idc and put(", "elif not idr and put("),
    ("cabac_init_idc of I slices", "family not in (I, SI)", "family != SI"),
    ("QP's lower bound without the depth", "-6 * seq.bit_depth_luma_minus8 <=", "0 <="),
    ("QP of 52", "+ delta <= 51:\n        raise b.refused(16", "+ delta <= 52:\n        raise b.refused(16"),
    ("QS of -1", "if not 0 <= 26 + pic.pic_init_qs", "if not -1 <= 26 + pic.pic_init_qs"),
    ("QS without its init value", "26 + pic.pic_init_qs_minus26 + delta", "26 + delta"),
    ("deblocking idc 7", "b.ue_up_to(6, 18)", "b.ue_up_to(7, 18)"),
    ("offsets with idc 1", "b.ue_up_to(6, 18)) != 1", "b.ue_up_to(6, 18)) != 8"),
    ("offsets of 7", "if not -6 <= put(name", "if not -7 <= put(name"),
    ("base marking operation 3", "operations(b, 0, 2, 23, [0, 1, 1])", "operations(b, 0, 3, 23, [0, 1, 1, 1])"),
    ("base marking of an IDR picture", " and not extension[0] & 0x40:\n        adaptive", ":\n        adaptive"),
    ("base marking without use_ref_base_pic_flag", "(extension[2] & 0x10 or store)", "store"),
    ("base marking without store_ref_base_pic_flag", "(extension[2] & 0x10 or store)", "extension[2] & 0x10"),
    ("base marking without its flag", "base_marking(b) if adaptive else []", "base_marking(b)"),
    ("a prefix body without nal_ref_idc", "if ref_idc and extension[0] & 0x80", "if extension[0] & 0x80"),
    ("a prefix body of a view", "if ref_idc and extension[0] & 0x80", "if ref_idc"),
    ("4 with four bytes", "len(unit) < 4", "len(unit) < 5"),
    ("2 after 4", "    if unit[0] & 0x80:\n        raise Refused(2, 0)\n", ""),
    ("a set out of range is put", "    if held.good():\n", "    if True:\n"),
    ("the first set of an id stays", "        table[word[:3], held.id] = held", "        table.setdefault((word[:3], held.id), held)"),
    ("the place behind the field", "return Refused(number, value, self.field)", "return Refused(number, value, self.at)"),
    ("the place of a code's suffix", "self.taken(zeros)", "self.u(zeros)"),
    ("the place of 14 at the operand", "raise b.refused(14)", "raise Refused(14, 0, b.at)"),
    ("the place of 9 behind the id", "raise b.refused(9, id)", "raise Refused(9, id, b.at)"),
    ("the place of 10 behind the id", "raise b.refused(10, pic.sps_id)", "raise Refused(10, pic.sps_id, b.at)"),
    ("the place of 13 at the last field", "raise Refused(13, 0, b.at)", "raise b.refused(13)"),
    ("the place of 22 at the last field", "raise Refused(22, 0, b.at)", "raise b.refused(22)"),
    ("the place of 22 a bit later", "raise Refused(22, 0, b.at)", "raise Refused(22, 0, b.at + 1)"),
    ("a place beside 4", "raise Refused(4, 0)", "raise Refused(4, 0, 0)"),
    ("28 with the field's value", "raise self.refused(28)", "raise self.refused(28, value)"),
    ("a profile without chroma format", "139, 134, 135)", "139, 134)"),
    ("a profile with chroma format too many", "139, 134, 135)", "139, 134, 135, 77)"),
    ("sequence set 32", "id = b.in_set(b.ue(), 0, 31)\n", "id = b.in_set(b.ue(), 0, 32)\n"),
    ("chroma format 4", "chroma = b.in_set(b.ue(), 0, 3)", "chroma = b.in_set(b.ue(), 0, 4)"),
    ("a colour plane flag of every format", "        if chroma == 3:\n            separate", "        if True:\n            separate"),
    ("depth 15", "depth = b.in_set(b.ue(), 0, 6)", "depth = b.in_set(b.ue(), 0, 7)"),
    ("the chroma depth bounded", "b.ue()  # bit_depth_chroma", "b.in_set(b.ue(), 0, 6)  # bit_depth_chroma"),
    ("eight scaling lists of 4:4:4", "12 if chroma == 3 else 8", "8"),
    ("five short scaling lists", "16 if i < 6 else 64", "16 if i < 5 else 64"),
    ("deltas behind a scale of 0", "        if following != 0:\n", "        if True:\n"),
    ("a scaling delta of 128", "b.in_set(b.se(), -128, 127)", "b.in_set(b.se(), -128, 128)"),
    ("a scaling delta of -129", "b.in_set(b.se(), -128, 127)", "b.in_set(b.se(), -129, 127)"),
    ("scales not modulo 256", "-128, 127)) % 256", "-128, 127))"),
    ("frame_num of 17 bits", "4 + b.in_set(b.ue(), 0, 12)", "4 + b.in_set(b.ue(), 0, 13)"),
    ("order count type 3", "order, lsb, always_zero = b.in_set(b.ue(), 0, 2)", "order, lsb, always_zero = b.in_set(b.ue(), 0, 3)"),
    ("order counts of 17 bits", "lsb = b.in_set(b.ue(), 0, 12)", "lsb = b.in_set(b.ue(), 0, 13)"),
    ("a cycle of 256", "b.in_set(b.ue(), 0, 255)):\n            b.se()", "b.in_set(b.ue(), 0, 256)):\n            b.se()"),
    ("a cycle that is not passed over", "            b.se()  # offset_for_ref_frame", "            pass"),
    ("the size without its ones", "(b.ue() + 1) * (b.ue() + 1)", "(b.ue() + 1) * b.ue()"),
    ("the size's bound", "MAP_UNITS = 16_777_216", "MAP_UNITS = 16_777_215"),
    ("picture set 256", "id, sps_id = b.in_set(b.ue(), 0, 255)", "id, sps_id = b.in_set(b.ue(), 0, 256)"),
    ("a picture set of sequence set 32", "b.in_set(b.ue(), 0, 255), b.in_set(b.ue(), 0, 31)", "b.in_set(b.ue(), 0, 255), b.in_set(b.ue(), 0, 32)"),
    ("nine slice groups", "groups = b.in_set(b.ue(), 0, 7)", "groups = b.in_set(b.ue(), 0, 8)"),
    ("slice groups of type 7", "b.in_set(b.ue(), 0, 6) if groups", "b.in_set(b.ue(), 0, 7) if groups"),
    ("a run too few", "for _ in range(groups + 1):", "for _ in range(groups):"),
    ("a corner alone", "b.ue(), b.ue()  # top_left", "b.ue()  # top_left"),
    ("no direction flag", "        b.u(1)  # slice_group_change_direction_flag\n", ""),
    ("the change rate minus 1", "return 1 + b.in_set", "return b.in_set"),
    ("a group id too few", "b.passed(b.ue() + 1, ", "b.passed(b.ue(), "),
    ("group ids of 3 bits", "groups.bit_length())", "3)"),
    ("the place of a group id at the first", "self.field = self.at + n * min(count, whole)", "self.field = self.at"),
    ("active 32 in a set", "active = b.in_set(b.ue(), 0, 31)", "active = b.in_set(b.ue(), 0, 32)"),
    ("weighted_bipred_idc 3", "b.in_set(b.u(2), 0, 2)", "b.in_set(b.u(2), 0, 3)"),
    ("pic_init_qp_minus26 -63", "b.in_set(b.se(), -62, 25)", "b.in_set(b.se(), -63, 25)"),
    ("pic_init_qs_minus26 26", "b.in_set(b.se(), -26, 25)", "b.in_set(b.se(), -26, 26)"),
    ("the chroma offset bounded", "b.se()  # chroma_qp_index_offset", "b.in_set(b.se(), -12, 12)  # chroma_qp_index_offset"),
    ("the last two flags exchanged", "deblocking, _, redundant = b.u(1)", "deblocking, redundant, _ = b.u(1)"),
]


def main(count):
    source = (TESTS / "rules.py").read_text()
    cases = []
    for line in itertools.chain(generate.lines(77, count), generate.sets(77, count)):
        *words, unit = line.split()
        unit = b"" if unit == "-" else bytes.fromhex(unit)
        cases.append((words, unit))
    right = list(answers(rules, cases))
    missed = 0
    for name, old, new in EDITS:
        if source.count(old) != 1:
            sys.exit(f"mutants: {name}: {old!r} stands {source.count(old)} times in rules.py")
        module = types.ModuleType("mutant")
        exec(compile(source.replace(old, new), "mutant", "exec"), module.__dict__)
        at = next((i for i, (a, b) in enumerate(zip(right, answers(module, cases))) if a != b), None)
        missed += at is None
        print(f"mutants: {name}: {'NOT NOTICED' if at is None else f'case {at + 1:,}'}")
    print(f"mutants: {len(EDITS) - missed} of {len(EDITS)} errors noticed in {count:,} cases and {count:,} sets")
    return missed


def answers(model, cases):
    before, table = None, {}
    for words, unit in cases:
        if words != before:
            before, table = words, model.table_of(words)
        try:
            yield model.answer(table, unit)
        except Exception as fault:  # an error may also show as a crash
            yield repr(fault)


sys.exit(main(int(sys.argv[1]) if len(sys.argv) > 1 else 20_000))
