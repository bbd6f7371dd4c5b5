#!/usr/bin/env python3
"""The records that crates/try_writer writes, and what it must print: each record written bit by bit as the rules have the header, with no line of the library, and
the unit that it makes read by the model in rules.py.

try_writer.py           compares with crates/try_writer/stdin and crates/try_writer/stdout, and exits non-zero where they differ
try_writer.py --write   writes these files
"""
import copy
import itertools
import zlib

from codes import escaped, packed, se, u, ue
from rules import B, I, P, SI, SP, Refused, answer, change_cycle_width, joined, table_of, told
from model import hold

TABLE = table_of(
    "sps:0:1:0:0:4:2:0:0:1:99 sps:1:1:0:6:16:0:12:0:0:16777216 sps:2:3:1:0:4:1:0:0:0:99 sps:3:0:0:0:4:1:0:1:1:99"
    " sps:4:1:0:6:16:1:12:0:0:16777216"
    " pps:0:0:0:0:0:0:0:0:0:0:0:0:0 pps:1:1:1:1:1:31:1:1:-62:-26:1:1:1 pps:2:2:0:1:0:0:0:0:0:0:1:0:0 pps:3:3:0:0:0:0:1:0:0:0:0:0:0"
    " pps:9:31:0:0:0:0:0:0:0:0:0:0:0 pps:255:4:1:1:1:31:1:1:-62:-26:1:1:1".split()
)
TAIL = "1" * 9  # slice data with set bits, so that something follows the header
LARGE = 2**32 - 2  # the greatest ue(v)
LOW, HIGH = -(2**31) + 1, 2**31 - 1  # the ends of se(v)

# A marked field is its mark and its value; a list is a count and its entries, 66 of a code and two operands or 32 of a weight's eight fields.
ABSENT = (0, 0)
MARKED = (
    "colour_plane_id field_pic_flag bottom_field_flag idr_pic_id pic_order_cnt_lsb delta_pic_order_cnt_bottom redundant_pic_cnt"
    " direct_spatial_mv_pred_flag num_ref_idx_active_override_flag num_ref_idx_l0_active_minus1 num_ref_idx_l1_active_minus1 flag_l0 flag_l1"
    " luma_log2_weight_denom chroma_log2_weight_denom no_output_of_prior_pics_flag long_term_reference_flag adaptive_ref_pic_marking_mode_flag"
    " cabac_init_idc sp_for_switch_flag slice_qs_delta disable_deblocking_filter_idc slice_alpha_c0_offset_div2 slice_beta_offset_div2"
    " slice_group_change_cycle"
).split()
NO_OPERATIONS = (0, ((0, 0, 0),) * 66)
NO_WEIGHT = (0,) * 8
NO_WEIGHTS = (0, (NO_WEIGHT,) * 32)


def record(**fields):
    """A record with nothing but these fields; those that may be absent are given as values, or as a mark and a value."""
    r = dict.fromkeys(MARKED, ABSENT)
    r.update(first_mb_in_slice=0, slice_type=0, pic_parameter_set_id=0, seq_parameter_set_id=0, frame_num=0, slice_qp_delta=0)
    r.update(delta_pic_order_cnt=(0, 0, 0), mods_l0=NO_OPERATIONS, mods_l1=NO_OPERATIONS, weights_l0=NO_WEIGHTS, weights_l1=NO_WEIGHTS, mmco=NO_OPERATIONS)
    return changed(r, **fields)


def changed(r, **fields):
    r = copy.copy(r)
    for name, value in fields.items():
        assert name in r, name
        r[name] = (1, value) if name in MARKED and not isinstance(value, tuple) else value
    return r


def operations(*entries, unused=(), count=None):
    """A list of codes with operands; `unused` are entries behind the last."""
    full = [tuple(e) + (0,) * (3 - len(e)) for e in entries]
    rest = [tuple(e) + (0,) * (3 - len(e)) for e in unused]
    return (len(full) if count is None else count, tuple((full + rest + [(0, 0, 0)] * 66)[:66]))


def weight_list(*entries, unused=(), count=None):
    return (len(entries) if count is None else count, tuple((list(entries) + list(unused) + [NO_WEIGHT] * 32)[:32]))


class Writer:
    """A record's bits, field by field; 25 where it asks for what the syntax has not."""

    def __init__(self, r):
        self.r, self.bits = dict(r), ""

    def hold(self, good):
        if not good:
            raise Refused(25, 0)

    def put(self, name, code, good=lambda v: True, there=True):
        """A field that is there on a condition; the value written, or 0."""
        mark, value = self.r.pop(name) if name in MARKED else (1, self.r.pop(name))
        self.hold((mark, value) == ABSENT if not there else mark == 1 and good(value))
        if there:
            self.bits += code(value)
        return value

    def ue(self, name, most=LARGE, there=True):
        return self.put(name, ue, lambda v: v <= most, there)

    def se(self, name, low=LOW, high=HIGH, there=True):
        return self.put(name, se, lambda v: low <= v <= high, there)

    def u(self, name, n, most=None, there=True):
        return self.put(name, lambda v: u(n, v), lambda v: v <= (2**n - 1 if most is None else most), there)

    def operations(self, name, closing, operands, there):
        count, entries = self.r.pop(name)
        self.hold(count <= 66 and (there or count == 0))
        for code, *rest in entries[:count]:
            self.hold(code != closing and code in operands)
            n = operands[code]
            self.hold(all(v <= LARGE for v in rest[:n]) and not any(rest[n:]))
            self.bits += ue(code) + "".join(map(ue, rest[:n]))
        if there:
            self.bits += ue(closing)

    def weights(self, name, n, chroma):
        count, entries = self.r.pop(name)
        self.hold(count == n)
        for e in entries[:n]:
            for flag, values, there in (e[0], e[1:3], 1), (e[3], e[4:8], chroma):
                self.hold(flag in (0, 1) and (not flag or there and all(LOW <= v <= HIGH for v in values)))
                self.hold(flag or not any(values))
                self.bits += (str(flag) if there else "") + ("".join(map(se, values)) if flag else "")


def header_bits(r, pic, seq, ref_idc, idr, mvc):
    """The bits of a record by its sets, in the rules' order."""
    w = Writer(r)
    w.ue("first_mb_in_slice")
    family = w.ue("slice_type", 9) % 5
    w.ue("pic_parameter_set_id")
    w.hold(w.r.pop("seq_parameter_set_id") == pic.sps_id)
    w.u("colour_plane_id", 2, 2, seq.separate_colour_plane_flag)
    w.u("frame_num", seq.log2_max_frame_num)
    field = w.u("field_pic_flag", 1, there=not seq.frame_mbs_only_flag)
    w.u("bottom_field_flag", 1, there=field)
    w.ue("idr_pic_id", there=idr)
    both = pic.bottom_field_pic_order_in_frame_present_flag and not field
    w.u("pic_order_cnt_lsb", seq.log2_max_pic_order_cnt_lsb_minus4 + 4, there=seq.pic_order_cnt_type == 0)
    w.se("delta_pic_order_cnt_bottom", there=seq.pic_order_cnt_type == 0 and both)
    there, *deltas = w.r.pop("delta_pic_order_cnt")
    w.hold(there == (seq.pic_order_cnt_type == 1))
    for delta, read in zip(deltas, (not seq.delta_pic_order_always_zero_flag, not seq.delta_pic_order_always_zero_flag and both)):
        w.hold(LOW <= delta <= HIGH if there and read else delta == 0)
        w.bits += se(delta) if there and read else ""
    w.ue("redundant_pic_cnt", there=pic.redundant_pic_cnt_present_flag)
    lists = {P: 1, SP: 1, B: 2}.get(family, 0)
    w.u("direct_spatial_mv_pred_flag", 1, there=family == B)
    own = w.u("num_ref_idx_active_override_flag", 1, there=lists)
    active = [pic.num_ref_idx_l0_default_active_minus1, pic.num_ref_idx_l1_default_active_minus1]
    for i in range(2):
        v = w.ue(f"num_ref_idx_l{i}_active_minus1", 31, own and i < lists)
        active[i] = v if own else active[i]
    for i in range(2):
        flag = w.u(f"flag_l{i}", 1, there=i < lists)
        w.operations(f"mods_l{i}", 3, dict.fromkeys([0, 1, 2] + [4, 5] * mvc, 1), flag)
    weighted = pic.weighted_pred_flag and family in (P, SP) or pic.weighted_bipred_idc == 1 and family == B
    chroma = seq.chroma_format_idc and not seq.separate_colour_plane_flag
    w.ue("luma_log2_weight_denom", there=weighted)
    w.ue("chroma_log2_weight_denom", there=weighted and chroma)
    for i in range(2):
        w.weights(f"weights_l{i}", active[i] + 1 if weighted and i < lists else 0, chroma)
    w.u("no_output_of_prior_pics_flag", 1, there=ref_idc and idr)
    w.u("long_term_reference_flag", 1, there=ref_idc and idr)
    adaptive = w.u("adaptive_ref_pic_marking_mode_flag", 1, there=ref_idc and not idr)
    w.operations("mmco", 0, {1: 1, 2: 1, 3: 2, 4: 1, 5: 0, 6: 1}, adaptive)
    w.ue("cabac_init_idc", there=pic.entropy_coding_mode_flag and family not in (I, SI))
    w.se("slice_qp_delta", -6 * seq.bit_depth_luma_minus8 - 26 - pic.pic_init_qp_minus26, 25 - pic.pic_init_qp_minus26)
    w.u("sp_for_switch_flag", 1, there=family == SP)
    w.se("slice_qs_delta", -26 - pic.pic_init_qs_minus26, 25 - pic.pic_init_qs_minus26, family in (SP, SI))
    control = pic.deblocking_filter_control_present_flag
    offsets = w.ue("disable_deblocking_filter_idc", 6, control) != 1 and control
    w.se("slice_alpha_c0_offset_div2", -6, 6, offsets)
    w.se("slice_beta_offset_div2", -6, 6, offsets)
    w.u("slice_group_change_cycle", change_cycle_width(seq.pic_size_in_map_units, pic.change_rate) if pic.change_rate else 0, there=pic.change_rate)
    assert not w.r, w.r
    return w.bits


def header(first, extension, r, room):
    """What the writer writes, in the rules' order of refusals."""
    if first & 0x80:
        raise Refused(2, 0)
    kind = first & 31
    if kind not in (1, 5, 20, 21):
        raise Refused(3, kind)
    if kind >= 20 and extension is None:
        raise Refused(4, 0)
    if kind >= 20 and extension[0] & 0x80:
        raise Refused(13, 0)
    id = r["pic_parameter_set_id"]
    if id > 255:
        raise Refused(8, id)
    if ("pps", id) not in TABLE:
        raise Refused(9, id)
    pic = TABLE["pps", id]
    if ("sps", pic.sps_id) not in TABLE:
        raise Refused(10, pic.sps_id)
    idr = kind == 5 or kind >= 20 and not extension[0] & 0x40
    bits = header_bits(r, pic, TABLE["sps", pic.sps_id], first >> 5 & 3, idr, kind >= 20)
    if room < len(packed(bits)):
        raise Refused(26, len(packed(bits)))
    return bits


def weight_words(entries, chroma):
    words = []
    for e in entries:
        luma = f"{e[1]}:{e[2]}" if e[0] else "-"
        words.append(luma + ("/" + (":".join(map(str, e[4:8])) if e[3] else "-") if chroma else ""))
    return ",".join(words)


def words(r, bits):
    """What rules.py says of the unit, word by word in any order, if it reads back as the record."""
    said = {name: str(r[name][1]) for name in MARKED if r[name][0] and not name.startswith("flag_")}
    for name in "first_mb_in_slice slice_type pic_parameter_set_id seq_parameter_set_id frame_num slice_qp_delta".split():
        said[name] = str(r[name])
    if r["delta_pic_order_cnt"][0]:
        said["delta_pic_order_cnt"] = "{1}:{2}".format(*r["delta_pic_order_cnt"])
    for i in "01":
        if r[f"flag_l{i}"][0]:
            said[f"ref_pic_list_modification_flag_l{i}"] = str(r[f"flag_l{i}"][1])
            count, entries = r[f"mods_l{i}"]
            said[f"mods_l{i}"] = joined(e[:2] for e in entries[:count])
        count, entries = r[f"weights_l{i}"]
        if count:
            said[f"weights_l{i}"] = weight_words(entries[:count], r["chroma_log2_weight_denom"][0])
    if r["adaptive_ref_pic_marking_mode_flag"][1]:
        count, entries = r["mmco"]
        said["mmco"] = joined(e[: 1 + {3: 2, 5: 0}.get(e[0], 1)] for e in entries[:count])
    said["bits"] = str(bits)
    return said


OF_THE_UNIT = "nal_ref_idc nal_unit_type non_idr_flag priority_id view_id temporal_id anchor_pic_flag inter_view_flag ext".split()


def read_back(first, extension, r, bits):
    unit = bytes([first]) + (extension if first & 31 >= 20 else b"") + escaped(packed(bits + TAIL))
    kind, *said = answer(TABLE, unit).split()
    got = dict(w.split("=") for w in said)
    for name in OF_THE_UNIT:
        got.pop(name, None)
    return "same" if kind == "slice" and got == words(r, len(bits)) else "other"


# Where a header's words stand: numbers, with a mark before each value that may be absent, then signed numbers, then lists.
NUMBERS = (
    "first_mb_in_slice slice_type pic_parameter_set_id seq_parameter_set_id colour_plane_id= frame_num field_pic_flag= bottom_field_flag= idr_pic_id="
    " pic_order_cnt_lsb= delta_pic_order_cnt_bottom? delta_pic_order_cnt? redundant_pic_cnt= direct_spatial_mv_pred_flag="
    " num_ref_idx_active_override_flag= num_ref_idx_l0_active_minus1= num_ref_idx_l1_active_minus1= flag_l0= mods_l0# flag_l1= mods_l1#"
    " luma_log2_weight_denom= chroma_log2_weight_denom= weights_l0# weights_l1# no_output_of_prior_pics_flag= long_term_reference_flag="
    " adaptive_ref_pic_marking_mode_flag= mmco# cabac_init_idc= sp_for_switch_flag= slice_qs_delta? disable_deblocking_filter_idc="
    " slice_alpha_c0_offset_div2? slice_beta_offset_div2? slice_group_change_cycle="
).split()
SIGNED = "delta_pic_order_cnt_bottom - - slice_qp_delta slice_qs_delta slice_alpha_c0_offset_div2 slice_beta_offset_div2".split()
LISTS = {"mods_l0": 64, "mods_l1": 262, "mmco": 460, "weights_l0": 658, "weights_l1": 914}


def numbers(r):
    """The first words: `=` has a mark and a value, `?` a mark whose value is signed, `#` is a count."""
    for name in NUMBERS:
        if name[-1] == "=":
            yield from r[name[:-1]]
        elif name[-1] in "?#":
            yield r[name[:-1]][0]
        else:
            yield r[name]


def signed(r):
    """The signed numbers, of which two are delta_pic_order_cnt's."""
    deltas = iter(r["delta_pic_order_cnt"][1:])
    for name in SIGNED:
        yield next(deltas) if name == "-" else r[name][1] if name in MARKED else r[name]


def changes(r):
    """What makes the record's words of zeros: a slot, a step, how many slots are so many steps apart, and a value."""
    for at, value in enumerate([*numbers(r), *signed(r)]):
        yield at, 0, 1, value
    for name, start in LISTS.items():
        step = len(r[name][1][0])
        for column, values in enumerate(zip(*r[name][1])):
            at = start + column
            for value, alike in itertools.groupby(values):
                times = len(list(alike))
                yield at, step, times, value
                at += step * times


cases, lines = [], []


def shown(name, first, r, extension=None, room=6144):
    made = [",".join(map(str, c)) for c in changes(r) if c[3]]
    cases.append(f"{name}:{first},{int(extension is not None)},{extension[0] if extension else 0},{room},{len(made)} {' '.join(made)}")
    try:
        bits = header(first, extension, r, room)
    except Refused as x:
        lines.append(f"{name}: {told(x)} kept")
        return
    data = packed(bits)
    cut = data.hex() if len(data) <= 24 else f"{data[:24].hex()}..adler32={zlib.adler32(data):08x}"
    lines.append(f"{name}: bits={len(bits)} bytes={cut} of {len(data)} spare=0 rest kept back={read_back(first, extension, r, bits)}")


# Records to start from.
INTRA = record(slice_type=7)
SAMPLE = changed(INTRA, idr_pic_id=0, no_output_of_prior_pics_flag=0, long_term_reference_flag=0)
PREDICTED = record(slice_type=5, num_ref_idx_active_override_flag=0, flag_l0=0)
BIPREDICTED = record(slice_type=6, direct_spatial_mv_pred_flag=1, num_ref_idx_active_override_flag=0, flag_l0=0, flag_l1=0)
WIDE = record(slice_type=2, pic_parameter_set_id=1, seq_parameter_set_id=1, frame_num=65535, field_pic_flag=1, bottom_field_flag=1, pic_order_cnt_lsb=65535)
WIDE = changed(WIDE, redundant_pic_cnt=LARGE, slice_qp_delta=87, disable_deblocking_filter_idc=0, slice_alpha_c0_offset_div2=-6, slice_beta_offset_div2=6)
WIDE = changed(WIDE, slice_group_change_cycle=2**25 - 1)
PLANES = record(slice_type=7, pic_parameter_set_id=2, seq_parameter_set_id=2, colour_plane_id=2, frame_num=15, field_pic_flag=0)
PLANES = changed(PLANES, delta_pic_order_cnt=(1, HIGH, LOW), disable_deblocking_filter_idc=1)
GREY = changed(PREDICTED, pic_parameter_set_id=3, seq_parameter_set_id=3, delta_pic_order_cnt=(1, 0, 0), luma_log2_weight_denom=7)
GREY = changed(GREY, weights_l0=weight_list((1, LOW, HIGH, 0, 0, 0, 0, 0)))
SWITCHING = changed(PREDICTED, slice_type=3, sp_for_switch_flag=1, slice_qp_delta=-26, slice_qs_delta=-26)
MARKED_BY = changed(PREDICTED, adaptive_ref_pic_marking_mode_flag=1)
MVC, MVC_IDR, SVC = (bytes([b, 0, 1]) for b in (0x40, 0x00, 0x80))


def fields():
    shown("the sample", 0x65, SAMPLE)
    shown("an IDR picture, numbers full", 0x65, changed(SAMPLE, first_mb_in_slice=LARGE, idr_pic_id=LARGE, no_output_of_prior_pics_flag=1, long_term_reference_flag=1))
    shown("a bottom field, widths full", 0x01, WIDE)
    frame = changed(WIDE, field_pic_flag=0, bottom_field_flag=ABSENT)
    shown("a frame, bottom delta -2147483647", 0x01, changed(frame, delta_pic_order_cnt_bottom=LOW))
    shown("a frame, bottom delta 2147483647", 0x01, changed(frame, delta_pic_order_cnt_bottom=HIGH))
    shown("QP -36", 0x01, changed(WIDE, slice_qp_delta=0))
    shown("deblocking idc 6, offsets 6 and -6", 0x01, changed(WIDE, disable_deblocking_filter_idc=6, slice_alpha_c0_offset_div2=6, slice_beta_offset_div2=-6))
    shown("colour plane 2, two deltas", 0x01, PLANES)
    shown("a top field, one delta", 0x01, changed(PLANES, field_pic_flag=1, bottom_field_flag=0, delta_pic_order_cnt=(1, HIGH, 0)))
    shown("deltas always zero", 0x01, record(slice_type=2, pic_parameter_set_id=3, seq_parameter_set_id=3, delta_pic_order_cnt=(1, 0, 0)))
    shown("SP, QP 0, QS 0", 0x01, SWITCHING)
    shown("SI, QP 51, QS 51", 0x01, record(slice_type=9, slice_qp_delta=25, slice_qs_delta=25))
    shown("type 20, an IDR picture", 0x74, SAMPLE, MVC_IDR)
    shown("type 20, no IDR picture", 0x14, INTRA, MVC)
    shown("type 21", 0x15, INTRA, MVC)
    shown("type 1 with an extension, which is unused", 0x01, INTRA, SVC)


FULL_WEIGHT = (1, LOW, HIGH, 1, LOW, HIGH, HIGH, LOW)
LUMA_ALONE = (1, LOW, HIGH, 0, 0, 0, 0, 0)
CHROMA_ALONE = (0, 0, 0, 1, HIGH, LOW, LOW, HIGH)
FULL_MARKING = operations(*[(3, LARGE, LARGE)] * 66)
WEIGHTED = changed(WIDE, slice_type=1, direct_spatial_mv_pred_flag=0, num_ref_idx_active_override_flag=0, flag_l0=0, flag_l1=0, cabac_init_idc=LARGE)
WEIGHTED = changed(WEIGHTED, luma_log2_weight_denom=LARGE, chroma_log2_weight_denom=LARGE, weights_l1=weight_list(*[FULL_WEIGHT] * 32))
BY_DEFAULT = changed(WEIGHTED, weights_l0=weight_list(LUMA_ALONE, CHROMA_ALONE))
OVERRIDDEN = changed(WEIGHTED, num_ref_idx_active_override_flag=1, num_ref_idx_l0_active_minus1=31, num_ref_idx_l1_active_minus1=31)
OVERRIDDEN = changed(OVERRIDDEN, weights_l0=weight_list(*[FULL_WEIGHT] * 32))
LONGEST = changed(OVERRIDDEN, first_mb_in_slice=LARGE, slice_type=6, pic_parameter_set_id=255, seq_parameter_set_id=4)
LONGEST = changed(LONGEST, field_pic_flag=0, bottom_field_flag=ABSENT, pic_order_cnt_lsb=ABSENT, delta_pic_order_cnt=(1, LOW, HIGH), flag_l0=1, flag_l1=1)
LONGEST = changed(LONGEST, mods_l0=operations(*[(4, LARGE)] * 66), mods_l1=operations(*[(5, LARGE)] * 66))
LONGEST = changed(LONGEST, adaptive_ref_pic_marking_mode_flag=1, mmco=FULL_MARKING, disable_deblocking_filter_idc=6)


def long():
    both = changed(BIPREDICTED, flag_l0=1, flag_l1=1)
    shown("66 modifications in both lists", 0x01, changed(both, mods_l0=operations(*[(2, LARGE)] * 66), mods_l1=operations(*[(0, LARGE)] * 66)))
    shown("two lists with flags and no entries", 0x01, both)
    views = operations((4, LARGE), (5, 0), (0, 1), (1, 2), (2, 3))
    shown("view indices, idc 4 and 5", 0x14, changed(PREDICTED, flag_l0=1, mods_l0=views), MVC)
    shown("66 marking operations with two operands", 0x21, changed(MARKED_BY, mmco=FULL_MARKING))
    each = operations((1, 0), (2, 1), (3, 2, LARGE), (4, 3), (5,), (6, 4))
    shown("each marking operation", 0x61, changed(MARKED_BY, mmco=each))
    shown("a marking flag and no operation", 0x61, MARKED_BY)
    shown("one weight without chroma", 0x01, GREY)
    shown("weights by the default counts", 0x01, BY_DEFAULT)
    shown("32 weights in both lists", 0x01, OVERRIDDEN)
    shown("the longest", 0x34, LONGEST, MVC)


def behind():
    """Words behind a count are no part of the record."""
    flagged = changed(PREDICTED, flag_l0=1)
    shown("a code behind the last", 0x01, changed(flagged, mods_l0=operations((0, 1), unused=[(9, LARGE, LARGE)] * 65)))
    shown("entries behind an absent list", 0x01, changed(PREDICTED, mods_l0=operations(unused=[(0, 1)] * 66)))
    shown("a weight behind the last", 0x01, changed(GREY, weights_l0=weight_list(LUMA_ALONE, unused=[(2, 1, 0, -1, 0, 0, 0, 0)] * 31)))


def refused():
    shown("first byte e5", 0xE5, SAMPLE)
    shown("first byte e7", 0xE7, SAMPLE)
    shown("type 7", 0x67, SAMPLE)
    shown("type 14 with an extension", 0x6E, SAMPLE, MVC)
    shown("type 20 without an extension", 0x74, SAMPLE)
    shown("type 21 without an extension", 0x75, SAMPLE)
    shown("type 20, top bit set", 0x74, SAMPLE, SVC)
    shown("type 21, top bit set, picture set 256", 0x75, changed(SAMPLE, pic_parameter_set_id=256), SVC)
    for id in 256, 2**32 - 1, 200, 9:
        shown(f"picture set {id}", 0x65, changed(SAMPLE, pic_parameter_set_id=id))
    full = changed(SAMPLE, mods_l0=operations(count=67))
    shown("a count of 67, first byte e5", 0xE5, full)
    shown("a count of 67, type 7", 0x67, full)
    shown("a count of 67, type 20 without an extension", 0x74, full)
    shown("a count of 67, type 20, top bit set", 0x74, full, SVC)
    for id in 256, 200, 9:
        shown(f"a count of 67, picture set {id}", 0x65, changed(full, pic_parameter_set_id=id))
    shown("picture set 200, slice_type 10", 0x65, changed(SAMPLE, pic_parameter_set_id=200, slice_type=10))


def bad(name, r, first=0x01):
    shown(name, first, r)


def bad_fields():
    bad("a mark where there is no field", changed(INTRA, colour_plane_id=0))
    bad("a mark of 2", changed(SAMPLE, idr_pic_id=(2, 0)), 0x65)
    bad("a mark of 2 of a signed number", changed(SWITCHING, slice_qs_delta=(2, 0)))
    bad("a mark of 2 of deltas", changed(PLANES, delta_pic_order_cnt=(2, HIGH, LOW)))
    bad("a flag of 2", changed(PREDICTED, num_ref_idx_active_override_flag=(1, 2)))
    bad("a list's flag of 2", changed(PREDICTED, flag_l0=(1, 2)))
    bad("a value where there is no field", changed(INTRA, colour_plane_id=(0, 1)))
    bad("a flag where there is no field", changed(INTRA, direct_spatial_mv_pred_flag=(0, 1)))
    bad("an IDR picture without idr_pic_id", changed(SAMPLE, idr_pic_id=ABSENT), 0x65)
    bad("first_mb_in_slice 4294967295", changed(INTRA, first_mb_in_slice=2**32 - 1))
    bad("slice_type 10", changed(INTRA, slice_type=10))
    bad("sequence set 1", changed(INTRA, seq_parameter_set_id=1))
    bad("frame_num 16", changed(INTRA, frame_num=16))
    bad("QP 52", changed(INTRA, slice_qp_delta=26))
    bad("QP -1", changed(INTRA, slice_qp_delta=-27))
    bad("QS 52", changed(SWITCHING, slice_qs_delta=26))
    bad("QS -1", changed(SWITCHING, slice_qs_delta=-27))
    bad("colour plane 3", changed(PLANES, colour_plane_id=3))
    bad("a delta of -2147483648", changed(PLANES, delta_pic_order_cnt=(1, -(2**31), 0)))
    bad("a second delta of a field", changed(PLANES, field_pic_flag=1, bottom_field_flag=0))
    bad("offsets with deblocking idc 1", changed(PLANES, slice_alpha_c0_offset_div2=0, slice_beta_offset_div2=0))
    bad("pic_order_cnt_lsb 65536", changed(WIDE, pic_order_cnt_lsb=65536))
    bad("deblocking idc 7", changed(WIDE, disable_deblocking_filter_idc=7))
    bad("an offset of 7", changed(WIDE, slice_alpha_c0_offset_div2=7))
    bad("an offset of -7", changed(WIDE, slice_beta_offset_div2=-7))
    bad("slice_group_change_cycle 33554432", changed(WIDE, slice_group_change_cycle=2**25))
    bad("active minus1 32", changed(PREDICTED, num_ref_idx_active_override_flag=1, num_ref_idx_l0_active_minus1=32))
    bad("an active count without its flag", changed(PREDICTED, num_ref_idx_l0_active_minus1=0))


def bad_lists():
    flagged = changed(PREDICTED, flag_l0=1)
    bad("a count of 67", changed(flagged, mods_l0=operations(*[(0, 0)] * 66, count=67)))
    bad("a count of 4294967295", changed(flagged, mods_l0=operations(*[(0, 0)] * 66, count=2**32 - 1)))
    bad("a second list's count of 67", changed(BIPREDICTED, flag_l1=1, mods_l1=operations(*[(0, 0)] * 66, count=67)))
    bad("a count of 67 marking operations", changed(MARKED_BY, mmco=operations(*[(5,)] * 66, count=67)), 0x21)
    bad("a list without its flag", changed(PREDICTED, mods_l0=operations((0, 0))))
    bad("the closing code in a list", changed(flagged, mods_l0=operations((3, 0))))
    bad("modification idc 6", changed(flagged, mods_l0=operations((6, 0))))
    bad("modification idc 4 without MVC", changed(flagged, mods_l0=operations((4, 0))))
    bad("an operand of 4294967295", changed(flagged, mods_l0=operations((0, 2**32 - 1))))
    bad("a second operand of a modification", changed(flagged, mods_l0=operations((0, 0, 1))))
    bad("a second list of a P slice", changed(PREDICTED, flag_l1=0))
    bad("marking operation 0 in a list", changed(MARKED_BY, mmco=operations((0,))), 0x21)
    bad("marking operation 7", changed(MARKED_BY, mmco=operations((7,))), 0x21)
    bad("an operand of marking operation 5", changed(MARKED_BY, mmco=operations((5, 1))), 0x21)
    bad("marking of a picture that is no reference", MARKED_BY)
    bad("a weight too many", changed(GREY, weights_l0=weight_list(LUMA_ALONE, NO_WEIGHT)))
    bad("a weight without its flag", changed(GREY, weights_l0=weight_list((0,) + LUMA_ALONE[1:])))
    bad("a weight of -2147483648", changed(GREY, weights_l0=weight_list((1, -(2**31), HIGH, 0, 0, 0, 0, 0))))
    bad("chroma weights without chroma", changed(GREY, weights_l0=weight_list((1, LOW, HIGH, 1, 0, 0, 0, 0))))
    bad("weights of an I slice", changed(INTRA, luma_log2_weight_denom=0))
    bad("a count of 33 weights", changed(OVERRIDDEN, weights_l0=weight_list(*[FULL_WEIGHT] * 32, count=33)))
    bad("a second list's count of 33 weights", changed(OVERRIDDEN, weights_l1=weight_list(*[FULL_WEIGHT] * 32, count=33)))
    bad("a luma flag of 2", changed(GREY, weights_l0=weight_list((2, 1, 1, 0, 0, 0, 0, 0))))
    bad("a luma flag of -1", changed(GREY, weights_l0=weight_list((-1, 1, 1, 0, 0, 0, 0, 0))))
    bad("a chroma flag of 2 in the last of 32", changed(OVERRIDDEN, weights_l1=weight_list(*[FULL_WEIGHT] * 31, FULL_WEIGHT[:3] + (2, 1, 1, 1, 1))))


def rooms():
    for n in 0, 2, 3:
        shown(f"the sample, room for {n}", 0x65, SAMPLE, room=n)
    whole = changed(PREDICTED, slice_qp_delta=16)
    for n in 2, 3:
        shown(f"24 bits, room for {n}", 0x01, whole, room=n)
    for n in 5314, 5315:
        shown(f"the longest, room for {n}", 0x34, LONGEST, MVC, room=n)
    shown("a flag of 2, room for 0", 0x01, changed(PREDICTED, flag_l0=(1, 2)), room=0)
    shown("a count of 67, room for 0", 0x01, changed(PREDICTED, mods_l0=operations(count=67)), room=0)
    shown("slice_type 10, room for 0", 0x01, changed(INTRA, slice_type=10), room=0)
    shown("picture set 200, room for 0", 0x01, changed(INTRA, pic_parameter_set_id=200), room=0)


for part in fields, long, behind, refused, bad_fields, bad_lists, rooms:
    part()
hold("try_writer", [str(len(cases))] + cases, "stdin")
hold("try_writer", lines)
