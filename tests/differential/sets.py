"""Parameter sets: drawn at random, and written as the units that the Rust reads."""
from codes import escaped, packed, se, u, ue
from rules import Picture, Sequence, set_of

MOST_UNITS = 139_264  # map units of the largest picture that the Rust's reader takes (level 6.2)

SIZES = [1, 2, 3, 5, 7, 8, 9, 63, 64, 99, 396, 1620, 8160, 36_864, MOST_UNITS - 1, MOST_UNITS]


def drawn_size(r):
    return r.choice(SIZES) if r.random() < 0.6 else r.randint(1, 2 ** r.randint(1, 17))


def drawn_sequence(r, id):
    chroma = r.randint(0, 3)
    return Sequence(
        id,
        chroma,
        int(chroma == 3 and r.random() < 0.6),
        r.choice((0, 0, 0, 1, 2, 3, 4, 5, 6)),
        r.choice((4, 4, 4, 5, 8, 9, 15, 16, r.randint(4, 16))),
        r.randint(0, 2),
        r.choice((0, 0, 1, 4, 11, 12, r.randint(0, 12))),
        r.getrandbits(1),
        int(r.random() < 0.6),
        drawn_size(r),
    )


def drawn_picture(r, id, sequence_id):
    return Picture(
        id,
        sequence_id,
        r.getrandbits(1),
        r.getrandbits(1),
        r.choice((0, 0, 1, 2, 15, 30, 31, r.randint(0, 31))),
        r.choice((0, 0, 1, 2, 15, 30, 31, r.randint(0, 31))),
        r.getrandbits(1),
        r.randint(0, 2),
        r.choice((0, 0, -26, 25, -62, -27, r.randint(-62, 25))),
        r.choice((0, 0, -26, 25, r.randint(-26, 25))),
        r.getrandbits(1),
        r.getrandbits(1),
        0 if r.random() < 0.6 else drawn_size(r),
    )


SEQUENCE_BEYOND = {
    "id": (32,),
    "chroma_format_idc": (4,),
    "bit_depth_luma_minus8": (7,),
    "log2_max_frame_num": (3, 17),
    "pic_order_cnt_type": (3,),
    "log2_max_pic_order_cnt_lsb_minus4": (13,),
    "pic_size_in_map_units": (0, 16_777_217),
    "separate_colour_plane_flag": (1,),
}
PICTURE_BEYOND = {
    "id": (256,),
    "sps_id": (32,),
    "num_ref_idx_l0_default_active_minus1": (32,),
    "num_ref_idx_l1_default_active_minus1": (32,),
    "weighted_bipred_idc": (3,),
    "pic_init_qp_minus26": (-63, 26),
    "pic_init_qs_minus26": (-27, 26),
    "change_rate": (16_777_217,),
}


def out_of_range(r, held):
    """The set with one field beyond the rules' sizes."""
    beyond = SEQUENCE_BEYOND if isinstance(held, Sequence) else PICTURE_BEYOND
    field = r.choice(sorted(beyond))
    held = held._replace(**{field: r.choice(beyond[field])})
    return held._replace(chroma_format_idc=2) if field == "separate_colour_plane_flag" else held


def drawn_table(r):
    """The words of a table: a few sets of each kind; now and then a set put twice, out of range, or a sequence set that is missing."""
    sequence_ids = r.sample((0, 1, 2, 5, 30, 31), r.choice((1, 1, 1, 2, 3)))
    picture_ids = r.sample((0, 0, 1, 2, 3, 4, 7, 254, 255), r.choice((1, 1, 2, 3, 5)))
    sequences = [drawn_sequence(r, id) for id in sequence_ids]
    pictures = [drawn_picture(r, id, r.choice(sequence_ids)) for id in picture_ids]
    if r.random() < 0.1:
        i = r.randrange(len(pictures))
        pictures[i] = pictures[i]._replace(sps_id=r.choice([x for x in (0, 3, 6, 29, 31) if x not in sequence_ids]))
    held = sequences + pictures
    if r.random() < 0.1:
        held.append(out_of_range(r, r.choice(held)))
    if r.random() < 0.1:
        again = r.choice(sequences)
        held.append(drawn_sequence(r, again.id))
    if r.random() < 0.2:
        r.shuffle(held)
    return [x.word() for x in held]


def sequence_unit(s):
    """A sequence parameter set unit (7.3.2.1.1), profile 244, level 6.2, one row of map units."""
    bits = u(8, 244) + u(8, 0) + u(8, 62) + ue(s.id) + ue(s.chroma_format_idc)
    if s.chroma_format_idc == 3:
        bits += u(1, s.separate_colour_plane_flag)
    bits += ue(s.bit_depth_luma_minus8) + ue(0) + "00" + ue(s.log2_max_frame_num - 4) + ue(s.pic_order_cnt_type)
    if s.pic_order_cnt_type == 0:
        bits += ue(s.log2_max_pic_order_cnt_lsb_minus4)
    if s.pic_order_cnt_type == 1:
        bits += u(1, s.delta_pic_order_always_zero_flag) + se(0) + se(0) + ue(0)
    bits += ue(1) + "0" + ue(s.pic_size_in_map_units - 1) + ue(0) + ("1" if s.frame_mbs_only_flag else "00")
    return b"\x67" + escaped(packed(bits + "1" + "0" + "0" + "1"))


def picture_unit(p):
    """A picture parameter set unit (7.3.2.2); a change rate makes two slice groups of map type 4."""
    bits = ue(p.id) + ue(p.sps_id) + u(1, p.entropy_coding_mode_flag) + u(1, p.bottom_field_pic_order_in_frame_present_flag)
    bits += ue(1) + ue(4) + "0" + ue(p.change_rate - 1) if p.change_rate else ue(0)
    bits += ue(p.num_ref_idx_l0_default_active_minus1) + ue(p.num_ref_idx_l1_default_active_minus1)
    bits += u(1, p.weighted_pred_flag) + u(2, p.weighted_bipred_idc)
    bits += se(p.pic_init_qp_minus26) + se(p.pic_init_qs_minus26) + se(0)
    bits += u(1, p.deblocking_filter_control_present_flag) + "0" + u(1, p.redundant_pic_cnt_present_flag)
    return b"\x68" + escaped(packed(bits + "1"))


def for_rust(words):
    """The oracle's words for the same table.

    The Rust reads a picture set under a sequence set and holds it to that one's depth and size, though either may
    be put anew later; so each picture set is read here under the deepest and largest one, which the table never
    holds (the oracle's ~).
    """
    out = []
    for word in words:
        held = set_of(word)
        if not held.good():
            continue
        if word.startswith("sps"):
            out.append(sequence_unit(held).hex())
        else:
            over = Sequence(held.sps_id, 1, 0, 6, 4, 2, 0, 0, 1, MOST_UNITS)
            out += ["~" + sequence_unit(over).hex(), picture_unit(held).hex()]
    return out


def held_by_rust(words):
    """What the oracle's `tables` must say of for_rust(words): what a field's type does not have is 0 there."""
    table = {}
    for word in words:
        held = set_of(word)
        if held.good():
            if word.startswith("sps"):
                held = held._replace(
                    log2_max_pic_order_cnt_lsb_minus4=held.log2_max_pic_order_cnt_lsb_minus4 * (held.pic_order_cnt_type == 0),
                    delta_pic_order_always_zero_flag=held.delta_pic_order_always_zero_flag * (held.pic_order_cnt_type == 1),
                )
            table[word[0] != "s", held.id] = held.word()
    return [table[key] for key in sorted(table)]
