"""Slice headers and prefix bodies made from field values, each a list of pieces, one for each field in reading order.

`off` names the one field that is out of range, where the header has it; `count`, where given, is the length of its lists.
"""
from codes import se, u, ue
from rules import B, I, P, SI, SP, change_cycle_width

OFF = ["slice_type", "set_id", "absent", "plane", "active", "modification", "mvc_code", "marking", "qp", "qs", "idc", "alpha", "beta", "long"]
EDGES = [0, 1, 2, 3, 254, 255, 256, 65_534, 65_535, 2**24, 2**31 - 2, 2**31 - 1, 2**31, 2**32 - 3, 2**32 - 2]


def number(r):
    """A ue(v) value: mostly small, now and then of any length or at an edge."""
    x = r.random()
    if x < 0.7:
        return r.getrandbits(2)
    if x < 0.9:
        return r.getrandbits(r.randint(1, 31))
    return r.choice(EDGES)


def signed(r):
    k = number(r)
    return (k + 1) // 2 if k & 1 else -(k // 2)


def beyond(r, most):
    """A value over the range's end: mostly the next one."""
    return most + 1 if r.random() < 0.5 else min(most + 1 + number(r), 2**32 - 2)


def outside(r, low, high):
    """A signed value outside low..high."""
    x = r.random()
    if x < 0.3:
        return high + 1
    if x < 0.6:
        return low - 1
    far = r.getrandbits(r.randint(1, 30))
    if x < 0.95:
        return high + 1 + far if r.getrandbits(1) else low - 1 - far
    return r.choice((2**31 - 1, 1 - 2**31, 2**31 - 1 - r.getrandbits(6), r.getrandbits(6) - 2**31 + 1))


def inside(r, low, high):
    return r.choice((low, high, r.randint(low, high), 0 if low <= 0 <= high else low))


def length(r, off):
    """A list's length: short, or around its limit of 66."""
    if off == "long":
        return r.choice((64, 65, 66, 66, 66, 67, 67, 68, 80))
    return r.choice((0, 0, 1, 1, 2, 3, 5))


def operations(r, codes, operands, closing, count, bad):
    out = []
    for i in range(count):
        code = r.choice(codes)
        if bad is not None and i == count - 1:
            return out + [ue(bad)]
        out.append(ue(code))
        out += [ue(number(r)) for _ in range(operands[code])]
    return out + [ue(closing)]


def modification(r, mvc, off):
    if r.random() < 0.4 and off not in ("modification", "mvc_code", "long"):
        return ["0"]
    bad = {"modification": beyond(r, 5), "mvc_code": r.choice((4, 5))}.get(off)
    count = length(r, off) or int(bad is not None)
    if bad is not None and r.random() < 0.1:
        count = 67  # a bad code where the 67th entry would start
    return ["1"] + operations(r, (0, 1, 2, 4, 5) if mvc else (0, 1, 2), [1, 1, 1, 0, 1, 1], 3, count, bad)


def weight_list(r, count, chroma):
    out = []
    wild = r.random() < 0.2
    value = signed if wild else lambda r: r.randint(-128, 127)
    for _ in range(count):
        for parts in (2, 4) if chroma else (2,):
            flag = r.getrandbits(1)
            out += [str(flag)] + [se(value(r)) for _ in range(parts * flag)]
    return out


def marking(r, idr, off):
    if idr:
        return [str(r.getrandbits(1)), str(r.getrandbits(1))]
    if r.random() < 0.4 and off not in ("marking", "long"):
        return ["0"]
    bad = beyond(r, 6) if off == "marking" else None
    count = length(r, off) or int(bad is not None)
    if bad is not None and r.random() < 0.1:
        count = 67
    return ["1"] + operations(r, (1, 2, 3, 4, 5, 6), [0, 1, 1, 2, 1, 0, 1], 0, count, bad)


def prefix_pieces(r, extension, off):
    """A prefix unit's body under an SVC extension."""
    store, adaptive = int(r.random() < 0.5), int(r.random() < 0.8)
    out = [str(store)]
    if (store or extension[2] & 0x10) and not extension[0] & 0x40:
        out.append(str(adaptive))
    if len(out) == 2 and adaptive:
        bad = beyond(r, 2) if off in ("marking", "modification") else None
        count = length(r, off) or int(bad is not None)
        if bad is not None and r.random() < 0.1:
            count = 67
        out += operations(r, (1, 2), [0, 1, 1], 0, count, bad)
    return out + [str(r.getrandbits(1))]


def slice_pieces(r, table, kind, ref_idc, extension, off):
    """A slice header under a table; a sequence set that is missing is made up."""
    mvc = kind >= 20
    type = r.randint(0, 9) if off != "slice_type" else beyond(r, 9)
    family = type % 5
    pictures = [p for (k, _), p in table.items() if k == "pps"]
    if not pictures:
        return [ue(number(r)), ue(type), ue(r.getrandbits(8))]
    pic = r.choice(pictures)
    id = pic.id
    if off == "set_id":
        id = beyond(r, 255)
    if off == "absent":
        id = r.getrandbits(8)
    out = [ue(number(r)), ue(type), ue(id)]
    seq = table.get(("sps", pic.sps_id)) or next((s for (k, _), s in table.items() if k == "sps"), None)
    if seq is None:
        return out + [u(16, r.getrandbits(16))]
    if seq.separate_colour_plane_flag:
        out.append("11" if off == "plane" else u(2, r.randint(0, 2)))
    out.append(u(seq.log2_max_frame_num, r.getrandbits(seq.log2_max_frame_num)))
    field = 0
    if not seq.frame_mbs_only_flag:
        field = r.getrandbits(1)
        out += ["1", str(r.getrandbits(1))] if field else ["0"]
    idr = kind == 5 or mvc and not extension[0] & 0x40
    if idr:
        out.append(ue(number(r)))
    both = pic.bottom_field_pic_order_in_frame_present_flag and not field
    if seq.pic_order_cnt_type == 0:
        n = seq.log2_max_pic_order_cnt_lsb_minus4 + 4
        out += [u(n, r.getrandbits(n))] + [se(signed(r))] * both
    if seq.pic_order_cnt_type == 1 and not seq.delta_pic_order_always_zero_flag:
        out += [se(signed(r))] + [se(signed(r)) for _ in range(both)]
    if pic.redundant_pic_cnt_present_flag:
        out.append(ue(number(r)))
    return out + lists(r, seq, pic, family, mvc, off) + levels(r, seq, pic, family, ref_idc, idr, off)


def lists(r, seq, pic, family, mvc, off):
    """From direct_spatial_mv_pred_flag to the weights."""
    out = []
    active = [pic.num_ref_idx_l0_default_active_minus1, pic.num_ref_idx_l1_default_active_minus1]
    count = {P: 1, SP: 1, B: 2}.get(family, 0)
    if family == B:
        out.append(str(r.getrandbits(1)))
    if count:
        override = off == "active" or r.random() < 0.6
        out.append(str(int(override)))
        if override:
            active = [r.choice((0, 0, 1, 2, 3, 31)) for _ in active]
            if off == "active":
                active[r.randrange(count)] = beyond(r, 31)
            out += [ue(n) for n in active[:count]]
    for _ in range(count):
        out += modification(r, mvc, off)
    if pic.weighted_pred_flag and family in (P, SP) or pic.weighted_bipred_idc == 1 and family == B:
        chroma = seq.chroma_format_idc and not seq.separate_colour_plane_flag
        out += [ue(number(r)) for _ in range(2 if chroma else 1)]
        for n in active[:count]:
            out += weight_list(r, min(n, 31) + 1, chroma)
    return out


def levels(r, seq, pic, family, ref_idc, idr, off):
    """From the marking to slice_group_change_cycle."""
    out = marking(r, idr, off) if ref_idc else []
    if pic.entropy_coding_mode_flag and family not in (I, SI):
        out.append(ue(number(r)))
    base = 26 + pic.pic_init_qp_minus26
    low, high = -6 * seq.bit_depth_luma_minus8 - base, 51 - base
    out.append(se((outside if off == "qp" else inside)(r, low, high)))
    if family == SP:
        out.append(str(r.getrandbits(1)))
    if family in (SP, SI):
        base = 26 + pic.pic_init_qs_minus26
        out.append(se((outside if off == "qs" else inside)(r, -base, 51 - base)))
    if pic.deblocking_filter_control_present_flag:
        idc = beyond(r, 6) if off == "idc" else r.choice((0, 0, 1, 2, 5, 6))
        out.append(ue(idc))
        if idc != 1:
            out.append(se((outside if off == "alpha" else inside)(r, -6, 6)))
            out.append(se((outside if off == "beta" else inside)(r, -6, 6)))
    if pic.change_rate:
        n = change_cycle_width(seq.pic_size_in_map_units, pic.change_rate)
        out.append(u(n, r.getrandbits(n) if n else 0))
    return out
