#!/usr/bin/env python3
"""The rules' reading of units and recordings in plain Python, with no line of the library and none of the Rust.

rules.py cases FILE               an answer line for each case line
rules.py list [--table FILE] CLIP a listing; the walk starts with the sets of FILE, which holds sps: and pps: words, or with none
rules.py kinds CLIP               what the first bytes of each unit say
The formats are those of the command `tuz`: docs/CASES.md.
"""
import re
import sys
from typing import NamedTuple

LIMIT = 268_435_456
ENTRIES = 66
P, B, I, SP, SI = range(5)
END_MARK = re.compile(rb"\0\0[\0\1]")


class Refused(Exception):
    """The refusal's number and value, and, if it arises in a body, the bit where the refused field begins."""


class Sequence(NamedTuple):
    id: int
    chroma_format_idc: int
    separate_colour_plane_flag: int
    bit_depth_luma_minus8: int
    log2_max_frame_num: int
    pic_order_cnt_type: int
    log2_max_pic_order_cnt_lsb_minus4: int
    delta_pic_order_always_zero_flag: int
    frame_mbs_only_flag: int
    pic_size_in_map_units: int

    def good(self):
        return (
            0 <= self.id <= 31
            and 0 <= self.chroma_format_idc <= 3
            and self.separate_colour_plane_flag <= (self.chroma_format_idc == 3)
            and 0 <= self.bit_depth_luma_minus8 <= 6
            and 4 <= self.log2_max_frame_num <= 16
            and 0 <= self.pic_order_cnt_type <= 2
            and 0 <= self.log2_max_pic_order_cnt_lsb_minus4 <= 12
            and 1 <= self.pic_size_in_map_units <= 16_777_216
        )

    def word(self):
        return "sps:" + ":".join(map(str, self))


class Picture(NamedTuple):
    id: int
    sps_id: int
    entropy_coding_mode_flag: int
    bottom_field_pic_order_in_frame_present_flag: int
    num_ref_idx_l0_default_active_minus1: int
    num_ref_idx_l1_default_active_minus1: int
    weighted_pred_flag: int
    weighted_bipred_idc: int
    pic_init_qp_minus26: int
    pic_init_qs_minus26: int
    deblocking_filter_control_present_flag: int
    redundant_pic_cnt_present_flag: int
    change_rate: int

    def good(self):
        return (
            0 <= self.id <= 255
            and 0 <= self.sps_id <= 31
            and 0 <= self.num_ref_idx_l0_default_active_minus1 <= 31
            and 0 <= self.num_ref_idx_l1_default_active_minus1 <= 31
            and 0 <= self.weighted_bipred_idc <= 2
            and -62 <= self.pic_init_qp_minus26 <= 25
            and -26 <= self.pic_init_qs_minus26 <= 25
            and 0 <= self.change_rate <= 16_777_216
        )

    def word(self):
        return "pps:" + ":".join(map(str, self))


SAMPLE = "sps:0:1:0:0:4:2:0:0:1:99 pps:0:0:0:0:0:0:0:0:0:0:0:0:0"


def set_of(word):
    kind, *fields = word.split(":")
    return (Sequence if kind == "sps" else Picture)(*map(int, fields))


def put(table, word):
    """Puts the set that a word holds into the table; one out of range leaves it as it was."""
    held = set_of(word)
    if held.good():
        table[word[:3], held.id] = held


def table_of(words):
    """The table that the words fill."""
    table = {}
    for word in words:
        put(table, word)
    return table


class Body:
    """The bits of an unescaped body, a place in them, and the place where the last field that was asked for begins."""

    def __init__(self, data):
        self.bits = format(int.from_bytes(data, "big"), f"0{8 * len(data)}b") if data else ""
        self.at = self.field = 0

    def refused(self, number, value=0):
        """The refusal of the field that was asked for last."""
        return Refused(number, value, self.field)

    def taken(self, n):
        end = self.at + n
        if end > len(self.bits):
            raise self.refused(5)
        value = int(self.bits[self.at : end], 2) if n else 0
        self.at = end
        return value

    def u(self, n):
        self.field = self.at
        return self.taken(n)

    def ue(self):
        self.field = self.at
        one = self.bits.find("1", self.at, self.at + 32)
        if one < 0:
            raise self.refused(6 if len(self.bits) - self.at >= 32 else 5)
        zeros = one - self.at
        self.at = one + 1
        return 2**zeros - 1 + self.taken(zeros)

    def se(self):
        k = self.ue()
        return (k + 1) // 2 if k & 1 else -(k // 2)

    def ue_up_to(self, most, number):
        value = self.ue()
        if value > most:
            raise self.refused(number, value)
        return value

    def in_set(self, value, least, most):
        """The value, a set's field that was just read: 28 where it is out of its range."""
        if not least <= value <= most:
            raise self.refused(28)
        return value

    def passed(self, count, n):
        """Passes over so many fields of n bits each; the first that lacks bits is refused."""
        whole = (len(self.bits) - self.at) // n
        self.field = self.at + n * min(count, whole)
        if count > whole:
            raise self.refused(5)
        self.at = self.field

    def more(self):
        """A set bit stands strictly after the next bit."""
        return self.bits.find("1", self.at + 1) >= 0


def unescaped(data):
    """Without each 03 after two zeros that come after any earlier dropped one."""
    return data.replace(b"\0\0\3", b"\0\0")


MVC = [("non_idr_flag", 1), ("priority_id", 6), ("view_id", 10), ("temporal_id", 3), ("anchor_pic_flag", 1), ("inter_view_flag", 1)]
SVC = [
    ("idr_flag", 1),
    ("priority_id", 6),
    ("no_inter_layer_pred_flag", 1),
    ("dependency_id", 3),
    ("quality_id", 4),
    ("temporal_id", 3),
    ("use_ref_base_pic_flag", 1),
    ("discardable_flag", 1),
    ("output_flag", 1),
]


def extension_words(three):
    bits = Body(three)
    svc = bits.u(1)
    return ["ext=svc" if svc else "ext=mvc"] + [f"{name}={bits.u(n)}" for name, n in (SVC if svc else MVC)]


def joined(entries):
    return ",".join(":".join(map(str, e)) for e in entries) or "-"


def operations(b, closing, most, number, operands, refused=()):
    """A list up to its closing code; operands: how many each code has."""
    entries = []
    while True:
        code = b.ue_up_to(most, number)
        if code in refused:
            raise b.refused(number, code)
        if code == closing:
            return entries
        if len(entries) == ENTRIES:
            raise b.refused(14)
        entries.append([code] + [b.ue() for _ in range(operands[code])])


def weights(b, count, chroma):
    entries = []
    for _ in range(count):
        entry = f"{b.se()}:{b.se()}" if b.u(1) else "-"
        if chroma:
            entry += "/" + (":".join(str(b.se()) for _ in range(4)) if b.u(1) else "-")
        entries.append(entry)
    return ",".join(entries)


def change_cycle_width(size, rate):
    width = 0
    while 2**width * rate < size + rate:
        width += 1
    return width


def slice_header(b, table, ref_idc, kind, extension):
    """The words of a slice's header, from first_mb_in_slice on."""
    words = []

    def put(name, value):
        words.append(f"{name}={value}")
        return value

    svc = kind >= 20 and extension[0] & 0x80
    mvc = kind >= 20 and not svc
    put("first_mb_in_slice", b.ue())
    family = put("slice_type", b.ue_up_to(9, 7)) % 5
    id = put("pic_parameter_set_id", b.ue_up_to(255, 8))
    pic = table.get(("pps", id))
    if pic is None:
        raise b.refused(9, id)
    seq = table.get(("sps", pic.sps_id))
    if seq is None:
        raise b.refused(10, pic.sps_id)
    put("seq_parameter_set_id", pic.sps_id)
    if seq.separate_colour_plane_flag:
        if put("colour_plane_id", b.u(2)) == 3:
            raise b.refused(11, 3)
    put("frame_num", b.u(seq.log2_max_frame_num))
    field = 0
    if not seq.frame_mbs_only_flag:
        field = put("field_pic_flag", b.u(1))
        if field:
            put("bottom_field_flag", b.u(1))
    idr = kind == 5 or mvc and not extension[0] & 0x40
    if idr:
        put("idr_pic_id", b.ue())
    both = pic.bottom_field_pic_order_in_frame_present_flag and not field
    if seq.pic_order_cnt_type == 0:
        put("pic_order_cnt_lsb", b.u(seq.log2_max_pic_order_cnt_lsb_minus4 + 4))
        if both:
            put("delta_pic_order_cnt_bottom", b.se())
    if seq.pic_order_cnt_type == 1:
        read = not seq.delta_pic_order_always_zero_flag
        put("delta_pic_order_cnt", f"{b.se() if read else 0}:{b.se() if read and both else 0}")
    if pic.redundant_pic_cnt_present_flag:
        put("redundant_pic_cnt", b.ue())
    if family == B:
        put("direct_spatial_mv_pred_flag", b.u(1))
    active = [pic.num_ref_idx_l0_default_active_minus1, pic.num_ref_idx_l1_default_active_minus1]
    lists = {P: 1, SP: 1, B: 2}.get(family, 0)
    if lists and put("num_ref_idx_active_override_flag", b.u(1)):
        for i in range(lists):
            active[i] = put(f"num_ref_idx_l{i}_active_minus1", b.ue_up_to(31, 21))
    if svc:
        raise Refused(13, 0, b.at)
    flags = []
    for i in range(lists):
        flags.append(f"ref_pic_list_modification_flag_l{i}={b.u(1)}")
        moves = []
        if flags[i][-1] == "1":
            moves = operations(b, 3, 5, 12, [1, 1, 1, 0, 1, 1], () if mvc else (4, 5))
        put(f"mods_l{i}", joined(moves))
    if pic.weighted_pred_flag and family in (P, SP) or pic.weighted_bipred_idc == 1 and family == B:
        chroma = seq.chroma_format_idc and not seq.separate_colour_plane_flag
        put("luma_log2_weight_denom", b.ue())
        if chroma:
            put("chroma_log2_weight_denom", b.ue())
        for i in range(lists):
            put(f"weights_l{i}", weights(b, active[i] + 1, chroma))
    if ref_idc and idr:
        put("no_output_of_prior_pics_flag", b.u(1))
        put("long_term_reference_flag", b.u(1))
    elif ref_idc and put("adaptive_ref_pic_marking_mode_flag", b.u(1)):
        put("mmco", joined(operations(b, 0, 6, 15, [0, 1, 1, 2, 1, 0, 1])))
    if pic.entropy_coding_mode_flag and family not in (I, SI):
        put("cabac_init_idc", b.ue())
    delta = put("slice_qp_delta", b.se())
    if not -6 * seq.bit_depth_luma_minus8 <= 26 + pic.pic_init_qp_minus26 + delta <= 51:
        raise b.refused(16, delta)
    if family == SP:
        put("sp_for_switch_flag", b.u(1))
    if family in (SP, SI):
        delta = put("slice_qs_delta", b.se())
        if not 0 <= 26 + pic.pic_init_qs_minus26 + delta <= 51:
            raise b.refused(17, delta)
    if pic.deblocking_filter_control_present_flag:
        if put("disable_deblocking_filter_idc", b.ue_up_to(6, 18)) != 1:
            for name, number in ("slice_alpha_c0_offset_div2", 19), ("slice_beta_offset_div2", 20):
                if not -6 <= put(name, value := b.se()) <= 6:
                    raise b.refused(number, value)
    if pic.change_rate:
        put("slice_group_change_cycle", b.u(change_cycle_width(seq.pic_size_in_map_units, pic.change_rate)))
    if not b.more():
        raise Refused(22, 0, b.at)
    return words + flags + [f"bits={b.at}"]


HIGH_PROFILES = (100, 110, 122, 244, 44, 83, 86, 118, 128, 138, 139, 134, 135)
MAP_UNITS = 16_777_216


def scaling_list(b, size):
    """scaling_list( ), 7.3.2.1.1.1, passed over."""
    last = following = 8
    for _ in range(size):
        if following != 0:
            following = (last + b.in_set(b.se(), -128, 127)) % 256
        last = last if following == 0 else following


def sequence_set(b):
    """seq_parameter_set_data( ), 7.3.2.1.1, to frame_mbs_only_flag."""
    profile, _, _ = b.u(8), b.u(8), b.u(8)
    id = b.in_set(b.ue(), 0, 31)
    chroma, separate, depth = 1, 0, 0
    if profile in HIGH_PROFILES:
        chroma = b.in_set(b.ue(), 0, 3)
        if chroma == 3:
            separate = b.u(1)
        depth = b.in_set(b.ue(), 0, 6)
        b.ue()  # bit_depth_chroma_minus8
        b.u(1)  # qpprime_y_zero_transform_bypass_flag
        if b.u(1):
            for i in range(12 if chroma == 3 else 8):
                if b.u(1):
                    scaling_list(b, 16 if i < 6 else 64)
    frame_num = 4 + b.in_set(b.ue(), 0, 12)
    order, lsb, always_zero = b.in_set(b.ue(), 0, 2), 0, 0
    if order == 0:
        lsb = b.in_set(b.ue(), 0, 12)
    if order == 1:
        always_zero = b.u(1)
        b.se()  # offset_for_non_ref_pic
        b.se()  # offset_for_top_to_bottom_field
        for _ in range(b.in_set(b.ue(), 0, 255)):
            b.se()  # offset_for_ref_frame
    b.ue()  # max_num_ref_frames
    b.u(1)  # gaps_in_frame_num_value_allowed_flag
    size = b.in_set((b.ue() + 1) * (b.ue() + 1), 1, MAP_UNITS)  # width, then height
    return Sequence(id, chroma, separate, depth, frame_num, order, lsb, always_zero, b.u(1), size)


def change_rate(b):
    """The slice groups of a picture set: their change rate, 0 where they have none."""
    groups = b.in_set(b.ue(), 0, 7)
    kind = b.in_set(b.ue(), 0, 6) if groups else 1
    if kind == 0:
        for _ in range(groups + 1):
            b.ue()  # run_length_minus1
    if kind == 2:
        for _ in range(groups):
            b.ue(), b.ue()  # top_left, bottom_right
    if kind in (3, 4, 5):
        b.u(1)  # slice_group_change_direction_flag
        return 1 + b.in_set(b.ue(), 0, MAP_UNITS - 1)
    if kind == 6:
        b.passed(b.ue() + 1, groups.bit_length())  # Ceil( Log2( groups + 1 ) ) bits each
    return 0


def picture_set(b):
    """pic_parameter_set_rbsp( ), 7.3.2.2, to redundant_pic_cnt_present_flag."""
    id, sps_id = b.in_set(b.ue(), 0, 255), b.in_set(b.ue(), 0, 31)
    entropy, bottom = b.u(1), b.u(1)
    rate = change_rate(b)
    active = b.in_set(b.ue(), 0, 31), b.in_set(b.ue(), 0, 31)
    weighted, bipred = b.u(1), b.in_set(b.u(2), 0, 2)
    qp, qs = b.in_set(b.se(), -62, 25), b.in_set(b.se(), -26, 25)
    b.se()  # chroma_qp_index_offset
    deblocking, _, redundant = b.u(1), b.u(1), b.u(1)
    return Picture(id, sps_id, entropy, bottom, *active, weighted, bipred, qp, qs, deblocking, redundant, rate)


def base_marking(b):
    """The words of a prefix unit's operations."""
    return [f"base_mmco={joined(operations(b, 0, 2, 23, [0, 1, 1]))}"]


def prefix_body(b, extension):
    """The words of prefix_nal_unit_svc( )."""
    store = b.u(1)
    words = [f"store_ref_base_pic_flag={store}"]
    if (extension[2] & 0x10 or store) and not extension[0] & 0x40:
        adaptive = b.u(1)
        words.append(f"adaptive_ref_base_pic_marking_mode_flag={adaptive}")
        words += base_marking(b) if adaptive else []
    return words + [f"additional_prefix_nal_unit_extension_flag={b.u(1)}"]


def answer(table, unit, prefix=prefix_body, scratch=LIMIT):
    """The answer line for a whole unit; `prefix` reads a prefix unit's body, and so many bytes are lent for bodies."""
    try:
        return answered(table, unit, prefix, scratch)
    except Refused as r:
        return told(r)


def told(r):
    number, value, *bit = r.args
    return f"refused {number} value={value}" + "".join(f" bit={b}" for b in bit)


def head(unit):
    """What the first bytes say: type, nal_ref_idc, and the three bytes of extension, or none."""
    if len(unit) > LIMIT:
        raise Refused(27, 0)
    if not unit:
        raise Refused(1, 0)
    if unit[0] & 0x80:
        raise Refused(2, 0)
    ref_idc, kind = unit[0] >> 5, unit[0] & 31
    if kind not in (14, 20, 21):
        return kind, ref_idc, b""
    if len(unit) < 4:
        raise Refused(4, 0)
    return kind, ref_idc, unit[1:4]


def answered(table, unit, prefix, scratch):
    kind, ref_idc, extension = head(unit)
    if kind not in (1, 5, 7, 8, 14, 20, 21):
        return f"other type={kind}"
    if scratch < len(unit):
        raise Refused(26, len(unit))
    body = Body(unescaped(unit[1 + len(extension) :]))
    if kind == 7:
        return "sps " + sequence_set(body).word()
    if kind == 8:
        return "pps " + picture_set(body).word()
    words = [f"nal_ref_idc={ref_idc}"]
    if kind == 14:
        words += extension_words(extension)
        if ref_idc and extension[0] & 0x80:
            words += prefix(body, extension)
        return " ".join(["prefix"] + words)
    words.append(f"nal_unit_type={kind}")
    if extension:
        words += extension_words(extension)
    return " ".join(["slice"] + words + slice_header(body, table, ref_idc, kind, extension))


def units(recording):
    """Place and bytes of each unit: after a start code, up to the first 00 00 00 or 00 00 01, or the end without its zeros."""
    at = recording.find(b"\0\0\1")
    while at >= 0:
        place = at + 3
        mark = END_MARK.search(recording, place)
        end = mark.start() if mark else len(recording)
        yield place, recording[place:end] if mark else recording[place:].rstrip(b"\0")
        at = recording.find(b"\0\0\1", end)


def walk(table, recording):
    """Place, bytes and answer line of each unit, while the table is the one in force there: a set that is read is then put into it."""
    for place, unit in units(recording):
        line = answer(table, unit)
        yield place, unit, line
        if line.startswith(("sps ", "pps ")):
            put(table, line[4:])


def sets_in(recording):
    """The words of the sets with which a walk comes to the end."""
    table = {}
    for _ in walk(table, recording):
        pass
    return [table[key].word() for key in sorted(table, reverse=True)]


def listing(table, recording):
    """The lines of a listing, the last one with the totals; the table is what the walk starts with, and stays as it is."""
    count = refused = 0
    table = dict(table)
    for place, unit, line in walk(table, recording):
        said = dict(w.split("=") for w in line.split() if "=" in w)
        if line.startswith("slice"):
            qp = 26 + table["pps", int(said["pic_parameter_set_id"])].pic_init_qp_minus26 + int(said["slice_qp_delta"])
            line = f"slice type={said['slice_type']} frame={said['frame_num']} qp={qp}"
        elif line.startswith("prefix"):
            line = f"prefix ext={said['ext']}"
        elif line.startswith(("sps ", "pps ")):
            line = f"{line[:3]} id={line.split(':')[1]}"
        count += 1
        refused += line.startswith("refused")
        yield f"unit place={place} length={len(unit)} {line}"
    yield f"end units={count} refused={refused}"


def kind_words(unit):
    """A unit's line in a listing of kinds, behind its length."""
    try:
        kind, ref_idc, extension = head(unit)
    except Refused as r:
        return told(r)
    words = [f"type={kind} nal_ref_idc={ref_idc}"]
    if extension:
        words += [extension_words(extension)[0], extension.hex()]
    return " ".join(words)


def kinds(found, broken=None):
    """The lines of a listing of kinds: of units with their places, and of the broken length that ends them, if one does."""
    count = refused = 0
    for place, unit in found:
        line = kind_words(unit)
        count += 1
        refused += line.startswith("refused")
        yield f"unit place={place} length={len(unit)} {line}"
    if broken is not None:
        refused += 1
        yield f"refused 29 value={broken}"
    yield f"end units={count} refused={refused}"


def cases(path):
    """The answer lines for a case file."""
    before, table = None, {}
    for line in open(path):
        if line[0] in "#\n":
            continue
        *words, unit = line.split()
        if words != before:
            before, table = words, table_of(words)
        yield answer(table, b"" if unit == "-" else bytes.fromhex(unit))


def main(command, *words):
    if command == "cases":
        lines = cases(words[0])
    elif command == "kinds":
        lines = kinds(units(open(words[0], "rb").read()))
    else:
        given = open(words[1]).read().split() if words[0] == "--table" else []
        lines = listing(table_of(given), open(words[-1], "rb").read())
    sys.stdout.writelines(line + "\n" for line in lines)


if __name__ == "__main__":
    main(*sys.argv[1:])
