//! What crosses the boundary arrives where it belongs: another number in each field.

use tuzmarghil::*;

fn sequence(n: u32) -> Sequence {
    let flag = |k: u32| n >> k & 1 == 1;
    let mut set = Sequence::default();
    set.chroma_format_idc = 3;
    set.separate_colour_plane_flag = flag(0);
    set.bit_depth_luma_minus8 = 6 - n % 2;
    set.log2_max_frame_num = 16 - n % 3;
    set.pic_order_cnt_type = n % 3;
    set.log2_max_pic_order_cnt_lsb_minus4 = 12 - n % 5;
    set.delta_pic_order_always_zero_flag = flag(1);
    set.frame_mbs_only_flag = flag(2);
    set.pic_size_in_map_units = 16_777_216 - n;
    set
}

fn picture(n: u32) -> Picture {
    let flag = |k: u32| n >> k & 1 == 1;
    let mut set = Picture::default();
    set.seq_parameter_set_id = n % 31;
    set.entropy_coding_mode_flag = flag(0);
    set.bottom_field_pic_order_in_frame_present_flag = flag(1);
    set.num_ref_idx_l0_default_active_minus1 = 30 - n % 29;
    set.num_ref_idx_l1_default_active_minus1 = 31 - n % 23;
    set.weighted_pred_flag = flag(2);
    set.weighted_bipred_idc = n % 3;
    set.pic_init_qp_minus26 = n as i32 % 88 - 62;
    set.pic_init_qs_minus26 = n as i32 % 52 - 26;
    set.deblocking_filter_control_present_flag = flag(3);
    set.redundant_pic_cnt_present_flag = flag(4);
    set.slice_group_change_rate = 16_777_216 - n;
    set
}

#[test]
fn sets_come_back() {
    let mut table = Table::new();
    for id in 0..32 {
        assert_eq!(table.sequence(id), None);
        table.put_sequence(id, sequence(id)).unwrap();
    }
    for id in 0..256 {
        assert_eq!(table.picture(id), None);
        table.put_picture(id, picture(id)).unwrap();
    }
    for id in 0..32 {
        assert_eq!(table.sequence(id), Some(sequence(id)));
    }
    for id in 0..256 {
        assert_eq!(table.picture(id), Some(picture(id)));
    }
    let refused = Err(Refusal::new(24, 0));
    assert_eq!(table.put_sequence(32, sequence(0)), refused);
    assert_eq!(table.put_picture(256, picture(0)), refused);
    assert_eq!((table.sequence(32), table.picture(256)), (None, None));
}

/// Bits, most significant first.
#[derive(Default)]
struct Bits(Vec<bool>);

impl Bits {
    fn u(&mut self, width: u32, n: u32) -> &mut Bits {
        self.0.extend((0..width).rev().map(|k| n >> k & 1 == 1));
        self
    }

    fn ue(&mut self, n: u32) -> &mut Bits {
        let width = 31 - (n + 1).leading_zeros();
        self.u(width, 0).u(width + 1, n + 1)
    }

    fn se(&mut self, n: i32) -> &mut Bits {
        let code = 2 * n.unsigned_abs() - u32::from(n > 0);
        self.ue(code)
    }

    /// A whole unit: escaped, behind a first byte and an extension.
    fn unit(&self, front: &[u8]) -> Vec<u8> {
        let (mut unit, mut zeros) = (front.to_vec(), 0);
        for byte in self.0.chunks(8) {
            let bits = byte.iter().enumerate();
            let byte = bits.fold(0u8, |b, (k, set)| b | u8::from(*set) << (7 - k));
            if zeros >= 2 && byte < 4 {
                unit.push(3);
                zeros = 0;
            }
            zeros = if byte == 0 { zeros + 1 } else { 0 };
            unit.push(byte);
        }
        unit
    }
}

/// A B field of type 20, with every list, by sets that ask for every field that a B slice can have: the table, the unit, the header's length in bits, the picture set.
fn b_field() -> (Table, Vec<u8>, usize, Picture) {
    let mut table = Table::new();
    let mut sequence = Sequence::default();
    sequence.chroma_format_idc = 1;
    sequence.log2_max_frame_num = 9;
    sequence.log2_max_pic_order_cnt_lsb_minus4 = 3;
    sequence.pic_size_in_map_units = 100;
    let mut picture = Picture::default();
    picture.seq_parameter_set_id = 5;
    picture.entropy_coding_mode_flag = true;
    picture.weighted_bipred_idc = 1;
    picture.pic_init_qp_minus26 = -4;
    picture.deblocking_filter_control_present_flag = true;
    picture.redundant_pic_cnt_present_flag = true;
    picture.slice_group_change_rate = 7;
    table.put_sequence(5, sequence).unwrap();
    table.put_picture(77, picture).unwrap();

    let mut b = Bits::default();
    b.ue(41).ue(6).ue(77).u(9, 300).u(1, 1).u(1, 1); // first macroblock, B, set, frame_num, bottom field
    b.u(7, 99).ue(13).u(1, 1); // order count, redundant_pic_cnt, direct flag
    b.u(1, 1).ue(1).ue(0); // two references, one
    b.u(1, 1).ue(0).ue(21).ue(5).ue(22).ue(3); // list 0
    b.u(1, 1).ue(1).ue(23).ue(2).ue(24).ue(4).ue(25).ue(3); // list 1
    b.ue(5).ue(6); // denominators
    b.u(1, 1).se(-31).se(32).u(1, 0); // luma alone
    b.u(1, 0).u(1, 1).se(33).se(-34).se(35).se(-36); // chroma alone
    b.u(1, 1).se(37).se(38).u(1, 1).se(39).se(40).se(41).se(42); // list 1: both
    b.u(1, 1).ue(1).ue(51).ue(2).ue(52).ue(3).ue(53).ue(54); // marking
    b.ue(4).ue(55).ue(5).ue(6).ue(56).ue(0);
    b.ue(2).se(-9).ue(3).se(-6).se(5).u(4, 11); // cabac_init_idc, QP, deblocking, change cycle
    let bits = b.0.len();
    b.u(8, 0xFF);
    (table, b.unit(&[0x74, 0x45, 0xA1, 0x57]), bits, picture)
}

/// A prefix unit with base marking.
fn prefix_unit() -> Vec<u8> {
    let mut b = Bits::default();
    b.u(1, 1).u(1, 1).ue(1).ue(61).ue(2).ue(62).ue(0).u(1, 1);
    b.unit(&[0x6E, 0x92, 0xA9, 0x74])
}

/// A sequence set as a unit (7.3.2.1.1) of profile 244; one row of map units.
fn sequence_unit(id: u32, s: &Sequence) -> Vec<u8> {
    let mut b = Bits::default();
    b.u(8, 244).u(8, 0).u(8, 62).ue(id).ue(s.chroma_format_idc);
    if s.chroma_format_idc == 3 {
        b.u(1, s.separate_colour_plane_flag.into());
    }
    b.ue(s.bit_depth_luma_minus8).ue(71).u(1, 0);
    // two scaling lists, of which one ends early
    b.u(1, 1).u(1, 1).se(-8).u(5, 0).u(1, 1);
    for _ in 0..64 {
        b.se(2);
    }
    b.u(if s.chroma_format_idc == 3 { 5 } else { 1 }, 0);
    b.ue(s.log2_max_frame_num - 4).ue(s.pic_order_cnt_type);
    match s.pic_order_cnt_type {
        0 => {
            b.ue(s.log2_max_pic_order_cnt_lsb_minus4);
        }
        1 => {
            b.u(1, s.delta_pic_order_always_zero_flag.into());
            b.se(-70_000).se(3).ue(2).se(5).se(-6);
        }
        _ => {}
    }
    b.ue(4).u(1, 0).ue(s.pic_size_in_map_units - 1).ue(0);
    b.u(1, s.frame_mbs_only_flag.into()).u(1, 1);
    b.unit(&[0x67])
}

/// A picture set as a unit (7.3.2.2); a change rate makes three slice groups of type 5.
fn picture_unit(id: u32, p: &Picture) -> Vec<u8> {
    let mut b = Bits::default();
    b.ue(id).ue(p.seq_parameter_set_id);
    b.u(1, p.entropy_coding_mode_flag.into());
    b.u(1, p.bottom_field_pic_order_in_frame_present_flag.into());
    match p.slice_group_change_rate {
        0 => b.ue(0),
        rate => b.ue(2).ue(5).u(1, 1).ue(rate - 1),
    };
    b.ue(p.num_ref_idx_l0_default_active_minus1);
    b.ue(p.num_ref_idx_l1_default_active_minus1);
    b.u(1, p.weighted_pred_flag.into());
    b.u(2, p.weighted_bipred_idc);
    b.se(p.pic_init_qp_minus26).se(p.pic_init_qs_minus26).se(-9);
    b.u(1, p.deblocking_filter_control_present_flag.into());
    b.u(1, 1)
        .u(1, p.redundant_pic_cnt_present_flag.into())
        .u(1, 1);
    b.unit(&[0x68])
}

/// Sets that are read from units are those that the units were made from, and print as the words that put them; the walk puts them, and reading alone does not.
#[test]
fn sets_arrive() {
    let mut by_walk = Table::new();
    for id in 0..256 {
        let mut want = sequence(id);
        // what an order count type does not have is zero
        if want.pic_order_cnt_type != 0 {
            want.log2_max_pic_order_cnt_lsb_minus4 = 0;
        }
        if want.pic_order_cnt_type != 1 {
            want.delta_pic_order_always_zero_flag = false;
        }
        let (sps, pps) = (
            sequence_unit(id % 32, &want),
            picture_unit(id, &picture(id)),
        );
        let mut by_word = Table::new();
        match read_unit(&Table::new(), &sps, &mut Vec::new()).unwrap() {
            Unit::Sequence(set) => {
                assert_eq!((set.seq_parameter_set_id, set.sequence), (id % 32, want));
                by_word.put_word(&set.to_string()).unwrap();
            }
            other => panic!("{other:?}"),
        }
        match read_unit(&Table::new(), &pps, &mut Vec::new()).unwrap() {
            Unit::Picture(set) => {
                assert_eq!((set.pic_parameter_set_id, set.picture), (id, picture(id)));
                by_word.put_word(&set.to_string()).unwrap();
            }
            other => panic!("{other:?}"),
        }
        assert_eq!(by_word.sequence(id % 32), Some(want));
        assert_eq!(by_word.picture(id), Some(picture(id)));
        let recording = [&[0, 0, 1][..], &sps, &[0, 0, 1], &pps].concat();
        assert_eq!(reports(&mut by_walk, &recording).unwrap().count(), 2);
        assert_eq!(by_walk.sequence(id % 32), Some(want));
        assert_eq!(by_walk.picture(id), Some(picture(id)));
    }

    // the lines of a listing
    let sps = sequence_unit(31, &sequence(2));
    let pps = picture_unit(255, &picture(2));
    let recording = [&[0, 0, 1][..], &sps, &[0, 0, 1], &pps].concat();
    let mut stream = Stream::new(&recording[..]);
    for told in ["sps id=31", "pps id=255"] {
        let r = stream.next_unit().unwrap().unwrap();
        let ((read, words), mut line) = (r.raw(), [0; 128]);
        let (table, place, length) = (r.table().as_raw(), r.place as usize, r.bytes().len());
        let line = raw::unit_line(&mut line, table, place, length, r.bytes(), read, words);
        let want = format!("unit place={place} length={length} {told}\n");
        assert_eq!(String::from_utf8_lossy(line), want);
    }
}

/// QP and QS of a slice are those of the table that it was read by: sets that come later do not change them.
#[test]
fn levels_of_the_table_in_force() {
    let sps = sequence_unit(0, &Table::sample().sequence(0).unwrap());
    let set = |qp, qs| {
        let mut set = Picture::default();
        (set.pic_init_qp_minus26, set.pic_init_qs_minus26) = (qp, qs);
        picture_unit(0, &set)
    };
    let mut b = Bits::default();
    b.ue(0)
        .ue(8)
        .ue(0)
        .u(4, 0)
        .u(1, 0)
        .u(1, 0)
        .se(3)
        .u(1, 0)
        .se(-2); // SP
    b.u(8, 0xFF);
    let slice = b.unit(&[0x01]);
    let units = [&sps, &set(4, -6), &slice, &set(-7, 9), &slice, &set(0, 0)];
    let recording: Vec<u8> = units
        .iter()
        .flat_map(|u| [&[0, 0, 1][..], u].concat())
        .collect();
    let mut table = Table::new();
    let found: Vec<_> = reports(&mut table, &recording).unwrap().collect();
    let levels: Vec<_> = found
        .iter()
        .filter_map(|r| match &r.unit {
            Ok(Unit::Slice(slice)) => Some((slice.qp, slice.qs)),
            Ok(_) => None,
            Err(refusal) => panic!("{refusal}"),
        })
        .collect();
    assert_eq!(levels, [(33, Some(18)), (22, Some(33))]);
}

/// A slice group map of type 6 names a group for each of 2^32 - 1 map units, and the body has a byte for them: the first that lacks bits is refused, at once.
#[test]
fn group_ids_are_not_counted_out() {
    for (groups, width) in [(1u32, 1), (2, 2), (3, 2), (4, 3), (7, 3)] {
        let mut b = Bits::default();
        b.ue(0).ue(0).u(2, 0).ue(groups).ue(6);
        b.u(31, 0).u(32, u32::MAX); // pic_size_in_map_units_minus1 is 2^32 - 2
        let from = b.0.len();
        b.u(32 - from as u32 % 8, 0xAAAA_AAAA);
        let whole = (b.0.len() - from) / width;
        let told = read_unit(&Table::new(), &b.unit(&[0x68]), &mut Vec::new());
        assert_eq!(told, Err(Refusal::at(5, 0, from + whole * width)));
    }
}

/// Entries of a list or of weights, over the front of words.
fn put<T: Copy, const N: usize>(words: &mut [T], entries: &[[T; N]]) {
    let entries = entries.concat();
    words[..entries.len()].copy_from_slice(&entries);
}

/// Zeroes the entries that the counts in words say are in use, at most as many as there are.
fn empty(words: &mut raw::Words) {
    fn zero<T: Default>(words: &mut [T], size: usize, count: u32) {
        for word in words.iter_mut().take(size * count as usize) {
            *word = T::default();
        }
    }
    let n = &words.numbers;
    zero(&mut words.l0, 3, n[29]);
    zero(&mut words.l1, 3, n[32]);
    zero(&mut words.marking, 3, n[45]);
    zero(&mut words.w0, 8, n[37]);
    zero(&mut words.w1, 8, n[38]);
}

/// What reading `b_field` does to words.
fn b_field_words(words: &mut raw::Words) {
    empty(words);
    words.numbers = [
        41, 6, 77, 5, // the lead
        0, 0, 300, 1, 1, 1, 1, 0, 0, // frame
        1, 99, 0, 0, 1, 13, // order count
        1, 1, 1, 1, 1, 1, 1, 0, // active counts
        1, 1, 2, 1, 1, 3, // modifications
        1, 5, 1, 6, 2, 1, // weights
        0, 0, 0, 0, 1, 1, 6, // marking
        1, 2, 0, 0, 0, // quantiser
        1, 3, 1, 1, 1, 11, // filter
    ];
    words.signed = [0, 0, 0, -9, 0, -6, 5];
    put(&mut words.l0, &[[0, 21, 0], [5, 22, 0]]);
    put(&mut words.l1, &[[1, 23, 0], [2, 24, 0], [4, 25, 0]]);
    put(&mut words.marking, &[[1, 51, 0], [2, 52, 0], [3, 53, 54]]);
    put(
        &mut words.marking[9..],
        &[[4, 55, 0], [5, 0, 0], [6, 56, 0]],
    );
    let (luma, chroma) = ([1, -31, 32, 0, 0, 0, 0, 0], [0, 0, 0, 1, 33, -34, 35, -36]);
    put(&mut words.w0, &[luma, chroma]);
    put(&mut words.w1, &[[1, 37, 38, 1, 39, 40, 41, 42]]);
}

#[test]
fn fields_arrive() {
    let (table, unit, bits, _) = b_field();
    let mut scratch = Vec::new();
    let slice = match read_unit(&table, &unit, &mut scratch) {
        Ok(Unit::Slice(slice)) => slice,
        other => panic!("{other:?}"),
    };
    assert_eq!(slice.bits, bits);
    assert_eq!(slice.nal_header.nal_ref_idc(), 3);
    assert_eq!(slice.nal_header.nal_unit_type(), UnitType::SliceExtension);
    let e = match slice.extension {
        Some(NalHeaderExtension::Mvc(e)) => e,
        other => panic!("{other:?}"),
    };
    assert!(e.non_idr_flag() && e.anchor_pic_flag() && e.inter_view_flag());
    assert_eq!((e.priority_id(), e.view_id(), e.temporal_id()), (5, 645, 2));

    let weight = |weight, offset| PredWeight { weight, offset };
    use MemoryManagementControlOperation::*;
    use ModificationOfPicNums::*;
    let want = SliceHeader {
        first_mb_in_slice: 41,
        slice_type: SliceType {
            family: SliceFamily::B,
            exclusive: SliceExclusive::Exclusive,
        },
        pic_parameter_set_id: 77,
        seq_parameter_set_id: 5,
        colour_plane: None,
        frame_num: 300,
        field_pic: FieldPic::Field(Field::Bottom),
        idr_pic_id: None,
        pic_order_cnt_lsb: Some(PicOrderCountLsb::Frame(99)),
        redundant_pic_cnt: Some(13),
        direct_spatial_mv_pred_flag: Some(true),
        num_ref_idx_active: Some(NumRefIdxActive::B {
            num_ref_idx_l0_active_minus1: 1,
            num_ref_idx_l1_active_minus1: 0,
        }),
        ref_pic_list_modification: RefPicListModifications::B {
            ref_pic_list_modification_l0: Some(vec![Subtract(21), AddViewIdx(22)]),
            ref_pic_list_modification_l1: Some(vec![Add(23), LongTermRef(24), SubtractViewIdx(25)]),
        },
        pred_weight_table: Some(PredWeightTable {
            luma_log2_weight_denom: 5,
            chroma_log2_weight_denom: Some(6),
            luma_weights: vec![Some(weight(-31, 32)), None],
            chroma_weights: vec![vec![], vec![weight(33, -34), weight(35, -36)]],
            luma_weights_l1: vec![Some(weight(37, 38))],
            chroma_weights_l1: vec![vec![weight(39, 40), weight(41, 42)]],
        }),
        dec_ref_pic_marking: Some(DecRefPicMarking::Adaptive(vec![
            ShortTermUnusedForRef {
                difference_of_pic_nums_minus1: 51,
            },
            LongTermUnusedForRef {
                long_term_pic_num: 52,
            },
            ShortTermUsedForLongTerm {
                difference_of_pic_nums_minus1: 53,
                long_term_frame_idx: 54,
            },
            MaxUsedLongTermFrameRef {
                max_long_term_frame_idx_plus1: 55,
            },
            AllRefPicturesUnused,
            CurrentUsedForLongTerm {
                long_term_frame_idx: 56,
            },
        ])),
        cabac_init_idc: Some(2),
        slice_qp_delta: -9,
        sp_for_switch_flag: None,
        slice_qs_delta: None,
        disable_deblocking_filter_idc: 3,
        slice_alpha_c0_offset_div2: Some(-6),
        slice_beta_offset_div2: Some(5),
        slice_group_change_cycle: Some(11),
    };
    assert_eq!(slice.header, want);
    assert_eq!((slice.qp, slice.qs), (13, None));

    // and back to the words that the library gave
    let (mut words, mut out) = (raw::Words::default(), raw::ReadOut::default());
    raw::read_unit(table.as_raw(), &unit, &mut scratch, &mut words, &mut out);
    assert_eq!(slice.header.to_words(&table), words);
}

/// Words that hold something everywhere, so that it shows what a reading does to them.
fn full() -> raw::Words {
    raw::Words {
        numbers: [5; 57],
        signed: [-5; 7],
        l0: [7; 198],
        l1: [8; 198],
        marking: [9; 198],
        w0: [-7; 256],
        w1: [-8; 256],
        base: [6; 198],
    }
}

/// What a reading does to words.
type Change = fn(&mut raw::Words);

/// Units of every answer, with the answer and what reading does to words.
fn answers(slice: &[u8]) -> [(Vec<u8>, u32, Change); 8] {
    let cleared = |words: &mut raw::Words| *words = raw::Words::default();
    let of_prefix = |words: &mut raw::Words| {
        words.base = [0; 198];
        put(&mut words.base, &[[1, 61, 0], [2, 62, 0]]);
    };
    // its bits run out after all lists are read
    let torn = slice[..slice.len() - 3].to_vec();
    [
        (slice.to_vec(), 1, b_field_words),
        (prefix_unit(), 2, of_prefix),
        (torn, 3, cleared),
        (vec![0x09, 0xF0], 0, |_| {}),
        (vec![], 3, cleared),
        (sequence_unit(5, &sequence(12)), 4, |_| {}),
        (picture_unit(77, &picture(77)), 5, |_| {}),
        (vec![0x68, 0xCE], 3, cleared),
    ]
}

/// A slice zeroes the entries in use and writes its fields and the entries of its lists, a prefix unit writes all words of its own list; other words stay as they
/// were, but a refusal clears all.
#[test]
fn words_arrive() {
    let (table, slice, ..) = b_field();
    let (mut scratch, mut out) = (vec![0; 200], raw::ReadOut::default());
    for (unit, answer, change) in answers(&slice) {
        let (mut words, mut want) = (full(), full());
        change(&mut want);
        raw::read_unit(table.as_raw(), &unit, &mut scratch, &mut words, &mut out);
        assert_eq!((out.answer, &words), (answer, &want));
        let markings = if answer == 2 { 2 } else { 0 };
        assert_eq!(out.prefix.base_markings, markings);
    }
}

/// A walk does the same to words, and so do those who keep words for many units.
#[test]
fn words_of_a_walk() {
    let (start, slice, ..) = b_field();
    let answers = answers(&slice);
    let recording: Vec<u8> = answers
        .iter()
        .flat_map(|(unit, ..)| [&[0, 0, 1][..], unit].concat())
        .collect();
    let mut scratch = vec![0; recording.len()];
    let (mut step, mut from) = (raw::WalkOut::default(), 0);
    let mut table = start.clone();
    let mut walk = |table: &mut Table, step: &mut raw::WalkOut, from| {
        let mut words = full();
        let (table, to) = (table.as_raw_mut(), &mut words);
        raw::walk(table, &recording, from, &mut scratch, to, step);
        words
    };
    let mut lent = start.clone();
    let mut reports = reports(&mut lent, &recording).unwrap();
    let mut stream = Stream::with_table(&recording[..], start);
    let mut kept = raw::Words::default();
    for (unit, answer, change) in &answers {
        let typed = read_unit(&table, unit, &mut Vec::new());
        let (words, mut want) = (walk(&mut table, &mut step, from), full());
        change(&mut want);
        assert_eq!((step.step, step.read.answer, words), (1, *answer, want));
        from = step.next;
        assert_eq!(reports.next().unwrap().unit, typed);
        assert_eq!(*reports.table(), table);
        let report = stream.next_unit().unwrap().unwrap();
        assert_eq!(*report.table(), table);
        change(&mut kept);
        let (read, words) = report.raw();
        assert_eq!((report.bytes(), words), (&unit[..], &kept));
        assert_eq!((*read, report.unit()), (step.read, typed));
    }
    let before = table.clone();
    let words = walk(&mut table, &mut step, from);
    assert_eq!((words, step.step, &table), (full(), 0, &before));
    assert!(reports.next().is_none() && stream.next_unit().unwrap().is_none());
    assert_eq!(table.sequence(5), Some(sequence(12)));
    assert_eq!(table.picture(77), Some(picture(77)));
    assert_eq!((stream.table(), &lent), (&table, &table));
}

/// What an earlier unit left in words does not show in the records of a later one.
#[test]
fn earlier_words_do_not_show() {
    let (table, earlier, ..) = b_field();
    let mut b = Bits::default();
    b.ue(0).ue(1).ue(77).u(9, 1).u(1, 0).u(7, 2).ue(0).u(1, 0); // B, a frame
    b.u(1, 0).u(1, 0).u(1, 0); // default counts, no modifications
    b.ue(0).ue(0).u(1, 0).u(1, 0).u(1, 0).u(1, 0); // one reference in each list, without weights
    b.u(1, 0).ue(0).se(0).ue(1).u(4, 0).u(8, 0xFF); // sliding window, and the rest
    let b_frame = b.unit(&[0x21]);
    let mut b = Bits::default();
    b.ue(0).ue(2).ue(77).u(9, 1).u(1, 0).u(7, 2).ue(0); // I, no reference
    b.se(0).ue(1).u(4, 0).u(8, 0xFF);
    let i_frame = b.unit(&[0x01]);
    let mut b = Bits::default();
    b.u(1, 0).u(1, 0);
    let bare_prefix = b.unit(&[0x6E, 0xD2, 0xA9, 0x74]);

    let (mut scratch, mut out) = (vec![0; earlier.len()], raw::ReadOut::default());
    let mut headers = vec![];
    for unit in [b_frame, i_frame, bare_prefix] {
        let (mut kept, mut fresh) = (raw::Words::default(), raw::Words::default());
        let mut reader = UnitReader::default();
        for before in [&earlier, &prefix_unit()] {
            raw::read_unit(table.as_raw(), before, &mut scratch, &mut kept, &mut out);
            reader.read(&table, before);
        }
        raw::read_unit(table.as_raw(), &unit, &mut scratch, &mut kept, &mut out);
        raw::read_unit(table.as_raw(), &unit, &mut scratch, &mut fresh, &mut out);
        let told = reader.read(&table, &unit).unit();
        assert_eq!(told, read_unit(&table, &unit, &mut Vec::new()));
        match told {
            Ok(Unit::Slice(slice)) => {
                fresh.base = kept.base;
                assert_eq!(kept, fresh);
                fresh.base = [0; 198];
                assert_eq!(slice.header.to_words(&table), fresh);
                headers.push(slice.header);
            }
            Ok(Unit::Prefix(prefix)) => {
                let body = prefix.ref_base_pic.unwrap();
                assert_eq!(body.dec_ref_base_pic_marking, None);
            }
            other => panic!("{other:?}"),
        }
    }
    let (b, i) = (&headers[0], &headers[1]);
    let without = RefPicListModifications::B {
        ref_pic_list_modification_l0: None,
        ref_pic_list_modification_l1: None,
    };
    assert_eq!(b.ref_pic_list_modification, without);
    let weights = b.pred_weight_table.as_ref().unwrap();
    assert_eq!(weights.luma_weights, [None]);
    assert_eq!(weights.chroma_weights, [vec![]]);
    assert_eq!(b.dec_ref_pic_marking, Some(DecRefPicMarking::SlidingWindow));
    assert_eq!(i.ref_pic_list_modification, RefPicListModifications::I);
    assert_eq!(
        (&i.pred_weight_table, &i.dec_ref_pic_marking),
        (&None, &None)
    );
}

#[test]
fn prefix_arrives() {
    let prefix = match read_unit(&Table::new(), &prefix_unit(), &mut Vec::new()) {
        Ok(Unit::Prefix(prefix)) => prefix,
        other => panic!("{other:?}"),
    };
    let e = match prefix.header_extension {
        NalHeaderExtension::Svc(e) => e,
        other => panic!("{other:?}"),
    };
    let flags = (e.idr_flag(), e.no_inter_layer_pred_flag(), e.output_flag());
    assert_eq!(flags, (false, true, true));
    assert_eq!(
        (e.priority_id(), e.dependency_id(), e.quality_id()),
        (18, 2, 9)
    );
    let body = prefix.ref_base_pic.unwrap();
    assert!(body.store_ref_base_pic_flag && body.additional_prefix_nal_unit_extension_flag);
    let want = [
        DecRefBasePicMarkingOp::ShortTermUnusedForRef {
            difference_of_base_pic_nums_minus1: 61,
        },
        DecRefBasePicMarkingOp::LongTermUnusedForRef {
            long_term_base_pic_num: 62,
        },
    ];
    let marking = body.dec_ref_base_pic_marking.unwrap();
    assert!(marking.adaptive_ref_base_pic_marking_mode_flag);
    assert_eq!(marking.operations, want);
}

/// What the extension says decides whether a prefix unit has a marking, and the marking's own flag whether it has a list.
#[test]
fn prefix_by_its_extension() {
    // first byte and extension, the body's bits, and the flags: store, adaptive (there or not), additional
    let cases = [
        ([0x6E, 0x80, 0, 0x07], "01", (false, None, true)),
        ([0x6E, 0x80, 0, 0x17], "001", (false, Some(false), true)),
        ([0x6E, 0x80, 0, 0x07], "101", (true, Some(false), true)),
        ([0x6E, 0xC0, 0, 0x17], "101", (true, None, false)),
        ([0x6E, 0x80, 0, 0x17], "0111", (false, Some(true), true)),
    ];
    for (front, bits, want) in cases {
        let mut b = Bits::default();
        for bit in bits.bytes() {
            b.u(1, u32::from(bit - b'0'));
        }
        let unit = b.unit(&front);
        let prefix = match read_unit(&Table::new(), &unit, &mut Vec::new()) {
            Ok(Unit::Prefix(prefix)) => prefix,
            other => panic!("{other:?}"),
        };
        let body = prefix.ref_base_pic.unwrap();
        let marking = body.dec_ref_base_pic_marking;
        let adaptive = marking.map(|m| {
            assert_eq!(m.operations, []);
            m.adaptive_ref_base_pic_marking_mode_flag
        });
        let more = body.additional_prefix_nal_unit_extension_flag;
        assert_eq!((body.store_ref_base_pic_flag, adaptive, more), want);
    }
}

/// The final QP and QS of an edited header, or by another set, wrap nowhere.
#[test]
fn sums_do_not_wrap() {
    let table = Table::sample();
    let mut slice = match read_unit(&table, &[0x65, 0x88, 0x84, 0xA0], &mut Vec::new()) {
        Ok(Unit::Slice(slice)) => slice,
        other => panic!("{other:?}"),
    };
    assert_eq!((slice.qp, slice.qs), (26, None));
    let header = &mut slice.header;
    assert_eq!((header.qp(&table), header.qs(&table)), (Some(26), None));
    for delta in [i32::MIN, i32::MAX] {
        header.slice_qp_delta = delta;
        header.slice_qs_delta = Some(delta);
        let sum = Some(26 + i64::from(delta));
        assert_eq!((header.qp(&table), header.qs(&table)), (sum, sum));
    }
    header.pic_parameter_set_id = 1;
    assert_eq!((header.qp(&table), header.qs(&table)), (None, None));
}

/// What no words can hold is refused by the library, in its place: every check that comes before 25 comes first.
#[test]
fn refusals_keep_their_order() {
    let (table, unit, ..) = b_field();
    let slice = match read_unit(&table, &unit, &mut Vec::new()) {
        Ok(Unit::Slice(slice)) => slice,
        other => panic!("{other:?}"),
    };
    let mut long = slice.header.clone();
    long.dec_ref_pic_marking = Some(DecRefPicMarking::Adaptive(vec![
        MemoryManagementControlOperation::AllRefPicturesUnused;
        67
    ]));
    let mut short_chroma = slice.header.clone();
    let weights = short_chroma.pred_weight_table.as_mut().unwrap();
    weights.chroma_weights.pop();
    let mut no_denominator = slice.header.clone();
    let weights = no_denominator.pred_weight_table.as_mut().unwrap();
    weights.chroma_log2_weight_denom = None;
    let mut one_of_two = slice.header.clone();
    let weights = one_of_two.pred_weight_table.as_mut().unwrap();
    weights.chroma_weights_l1[0].pop();

    let mut out = [0xA5; HEADER_BYTES];
    let mut number = |table: &Table, first: u8, extension, header: &SliceHeader| {
        let first = NalHeader::new(first).unwrap();
        let answer = write_header(table, first, extension, header, &mut out);
        assert!(out.iter().all(|b| *b == 0xA5));
        let refusal = answer.unwrap_err();
        assert_eq!(refusal.bit, None);
        refusal.number
    };
    for header in [&long, &short_chroma, &no_denominator, &one_of_two] {
        let mvc = slice.extension;
        let svc = Some(NalHeaderExtension::from_bytes([0x80, 0, 0]));
        let mut far = header.clone();
        far.pic_parameter_set_id = 256;
        let mut absent = header.clone();
        absent.pic_parameter_set_id = 3;
        let mut alone = Table::new();
        alone.put_picture(77, table.picture(77).unwrap()).unwrap();
        assert_eq!(number(&table, 0x69, None, header), 3);
        assert_eq!(number(&table, 0x74, None, header), 4);
        assert_eq!(number(&table, 0x74, svc, header), 13);
        assert_eq!(number(&table, 0x74, mvc, &far), 8);
        assert_eq!(number(&table, 0x74, mvc, &absent), 9);
        assert_eq!(number(&alone, 0x74, mvc, header), 10);
        assert_eq!(number(&table, 0x74, mvc, header), 25);
    }
}

/// A refusal that arises in a body has the bit where the refused field begins, by every way of reading; one that comes before has none.
#[test]
fn the_place_of_a_refusal() {
    let (empty, sample) = (Table::new(), Table::sample());
    let mut alone = Table::new();
    alone.put_picture(0, Picture::default()).unwrap();
    // a list of 67: the code of its last entry begins behind 66 entries of two bits
    let long = [&[0x01, 0xFE][..], &[0xFF; 17]].concat();
    let cases: [(&Table, &[u8], Refusal); 20] = [
        (&sample, &[], Refusal::new(1, 0)),
        (&sample, &[0xE5, 0x88], Refusal::new(2, 0)),
        (&sample, &[0x74, 0x40, 1], Refusal::new(4, 0)),
        (&sample, &[0x65], Refusal::at(5, 0, 0)),
        (&sample, &[0x65, 0x88], Refusal::at(5, 0, 8)),
        // the code's zeros and its one are there, and what follows them is not
        (&sample, &[0x65, 0x81], Refusal::at(5, 0, 1)),
        (
            &sample,
            &[1, 0x80, 0, 0, 3, 0, 0, 3, 0, 9],
            Refusal::at(6, 0, 1),
        ),
        (&sample, &[0x01, 0x8B, 0xFF], Refusal::at(7, 10, 1)),
        (&empty, &[0x65, 0x88, 0x84, 0xA0], Refusal::at(9, 0, 8)),
        (&alone, &[0x65, 0x88, 0x84, 0xA0], Refusal::at(10, 0, 8)),
        (
            &sample,
            &[0x74, 0x80, 0, 0, 0x88, 0x82],
            Refusal::at(13, 0, 13),
        ),
        (&sample, &long, Refusal::at(14, 0, 141)),
        (&sample, &[0x65, 0x88, 0x84, 0x80], Refusal::at(22, 0, 17)),
        (&sample, &[0x6E, 0x80, 0, 7, 0xC8], Refusal::at(23, 3, 2)),
        (&sample, &[0x6E, 0x80, 0, 7], Refusal::at(5, 0, 0)),
        (&sample, &[0x67], Refusal::at(5, 0, 0)),
        (&sample, &[0x67, 66, 192], Refusal::at(5, 0, 16)),
        // the id is 32
        (
            &sample,
            &[0x67, 66, 0, 10, 0x04, 0x20],
            Refusal::at(28, 0, 24),
        ),
        (&sample, &[0x68], Refusal::at(5, 0, 0)),
        // the sequence set's id is 32
        (&sample, &[0x68, 0x82, 0x10], Refusal::at(28, 0, 1)),
    ];
    for (table, unit, refusal) in cases {
        let refused = Err(refusal);
        assert_eq!(read_unit(table, unit, &mut Vec::new()), refused);
        assert_eq!(UnitReader::default().read(table, unit).unit(), refused);
        let recording = [&[0, 0, 1], unit].concat();
        let mut lent = table.clone();
        let found: Vec<_> = reports(&mut lent, &recording).unwrap().collect();
        assert_eq!((&found[0].unit, &lent), (&refused, table));
        let mut stream = Stream::with_table(&recording[..], table.clone());
        let report = stream.next_unit().unwrap().unwrap();
        assert_eq!((report.unit(), report.table()), (refused, table));

        // the listing tells it, and so does the refusal's own text
        let (read, words) = report.raw();
        let mut line = [0; 128];
        let line = raw::unit_line(&mut line, table.as_raw(), 3, unit.len(), unit, read, words);
        let (number, value) = (refusal.number, refusal.value);
        let bit = refusal.bit.map_or(String::new(), |b| format!(" bit={b}"));
        let told = format!("refused {number} value={value}{bit}\n");
        let place = format!("unit place=3 length={} ", unit.len());
        assert_eq!(String::from_utf8_lossy(line), place + &told);
        let bit = refusal
            .bit
            .map_or(String::new(), |b| format!(" at bit {b}"));
        let text = format!("refused {number}{bit}: {}", refusal.reason());
        assert_eq!(refusal.to_string(), text);
    }

    // scratch is too short: the body is not read
    let (mut words, mut out) = (raw::Words::default(), raw::ReadOut::default());
    for first in [0x65, 0x67, 0x68] {
        let (unit, mut scratch) = ([first, 0x88, 0x84, 0xA0], [7; 3]);
        raw::read_unit(sample.as_raw(), &unit, &mut scratch, &mut words, &mut out);
        assert_eq!((out.answer, out.refusal()), (3, Refusal::new(26, 4)));
        assert_eq!(scratch, [7; 3]);
    }
}

/// The longest line that there can be, of whatever numbers, ends in its buffer.
#[test]
fn the_longest_line() {
    let (table, words) = (Table::new(), raw::Words::default());
    let out = raw::ReadOut {
        answer: 3,
        number: 255,
        value: i64::MIN,
        has_bit: true,
        bit: usize::MAX,
        ..raw::ReadOut::default()
    };
    let (mut line, most) = ([0; 128], usize::MAX);
    let line = raw::unit_line(&mut line, table.as_raw(), most, most, &[], &out, &words);
    let told = format!(
        "unit place={most} length={most} refused 255 value={} bit={most}\n",
        i64::MIN
    );
    assert_eq!(String::from_utf8_lossy(line), told);
    assert_eq!(told.len(), 124);
}

/// Words with a mark or a flag over 1, or a count over its list's capacity, are those of no header; words behind a count are not looked at.
#[test]
fn words_that_no_reading_leaves() {
    let (table, unit, bits, _) = b_field();
    let (mut words, mut out) = (raw::Words::default(), raw::ReadOut::default());
    let mut scratch = vec![0; unit.len()];
    raw::read_unit(table.as_raw(), &unit, &mut scratch, &mut words, &mut out);
    let given = raw::ExtensionGiven {
        there: true,
        b1: unit[1],
        b2: unit[2],
        b3: unit[3],
    };
    let write = |words: &raw::Words| {
        let mut buffer = [0; HEADER_BYTES];
        let wrote = raw::write_header(table.as_raw(), unit[0], given, words, &mut buffer);
        (wrote.number, wrote.bits)
    };
    let mut noise = words.clone();
    (
        noise.l0[6],
        noise.l1[197],
        noise.marking[18],
        noise.w0[16],
        noise.w1[255],
    ) = (7, 7, 7, 7, 7);
    assert_eq!((write(&words), write(&noise)), ((0, bits), (0, bits)));
    for flag in [
        7, 8, 9, 10, 13, 17, 19, 20, 21, 22, 23, 27, 28, 30, 31, 33, 35, 43, 44,
    ] {
        let mut other = words.clone();
        other.numbers[flag] += 1;
        assert_eq!(write(&other), (25, 0), "{flag}");
    }
    for (count, capacity) in [(29, 66), (32, 66), (45, 66), (37, 32), (38, 32)] {
        for n in [capacity + 1, u32::MAX] {
            let mut other = words.clone();
            other.numbers[count] = n;
            assert_eq!(write(&other), (25, 0), "{count}");
        }
    }
    let mut other = words.clone();
    other.w0[0] = 2;
    assert_eq!(write(&other), (25, 0));
}

/// The longest B slice, a frame's of type 20: every list is full, every field that it can have is there, every number as long as it gets.
fn longest() -> (Table, raw::Words) {
    let mut sequence = Sequence::default();
    sequence.chroma_format_idc = 3;
    sequence.bit_depth_luma_minus8 = 6;
    sequence.log2_max_frame_num = 16;
    sequence.pic_order_cnt_type = 1;
    sequence.pic_size_in_map_units = 16_777_216;
    let mut picture = Picture::default();
    picture.entropy_coding_mode_flag = true;
    picture.bottom_field_pic_order_in_frame_present_flag = true;
    picture.num_ref_idx_l0_default_active_minus1 = 31;
    picture.num_ref_idx_l1_default_active_minus1 = 31;
    picture.weighted_bipred_idc = 1;
    picture.pic_init_qp_minus26 = -62;
    picture.deblocking_filter_control_present_flag = true;
    picture.redundant_pic_cnt_present_flag = true;
    picture.slice_group_change_rate = 1;
    let mut table = Table::new();
    table.put_sequence(0, sequence).unwrap();
    table.put_picture(255, picture).unwrap();

    const UE: u32 = u32::MAX - 1;
    const SE: i32 = i32::MAX;
    let mut words = raw::Words {
        numbers: [
            UE, 6, 255, 0, // the lead
            0, 0, 65535, 1, 0, 0, 0, 0, 0, // frame
            0, 0, 0, 1, 1, UE, // order count
            1, 1, 1, 1, 1, 31, 1, 31, // active counts
            1, 1, 66, 1, 1, 66, // modifications
            1, UE, 1, UE, 32, 32, // weights
            0, 0, 0, 0, 1, 1, 66, // marking
            1, UE, 0, 0, 0, // quantiser
            1, 6, 1, 1, 1, 33_554_431, // filter
        ],
        signed: [0, SE, SE, 87, 0, -6, -6],
        ..raw::Words::default()
    };
    put(&mut words.l0, &[[5, UE, 0]; 66]);
    put(&mut words.l1, &[[5, UE, 0]; 66]);
    put(&mut words.marking, &[[3, UE, UE]; 66]);
    put(&mut words.w0, &[[1, SE, SE, 1, SE, SE, SE, SE]; 32]);
    put(&mut words.w1, &[[1, SE, SE, 1, SE, SE, SE, SE]; 32]);
    (table, words)
}

/// No header is longer than a B slice that has everything, by more than the bits that only other slices have; `HEADER_BYTES` hold it.
#[test]
fn the_longest_header_fits() {
    let (table, words) = longest();
    let given = raw::ExtensionGiven {
        there: true,
        b1: 0x40,
        b2: 0,
        b3: 1,
    };
    let write = |room: usize| {
        let mut buffer = vec![0xA5; room];
        let wrote = raw::write_header(table.as_raw(), 0x74, given, &words, &mut buffer);
        (wrote.number, wrote.value, wrote.bits)
    };
    // colour_plane_id, bottom_field_flag, idr_pic_id, two bits of slice_type, sp_for_switch_flag and slice_qs_delta are not in it
    let bits = 42_601 - 2 - 1 - 63 - 2 - 1 - 13;
    assert_eq!(raw::header_bound(table.as_raw(), &words), 42_601);
    assert_eq!(write(HEADER_BYTES), (0, 0, bits));
    assert_eq!(write(5315), (0, 0, bits));
    assert_eq!(write(5314), (26, 5315, 0));
}

/// The bound goes by the lengths of lists and the active counts, the slice's own or the picture set's, and by nothing else. It does not wrap.
#[test]
fn bounds_by_lists_and_counts() {
    let (table, words) = longest();
    let bound = |change: &dyn Fn(&mut raw::Words)| {
        let mut other = words.clone();
        change(&mut other);
        raw::header_bound(table.as_raw(), &other)
    };
    for (count, bits) in [(29, 68), (32, 68), (45, 131), (24, 380), (26, 380)] {
        assert_eq!(bound(&|w| w.numbers[count] -= 1), 42_601 - bits, "{count}");
    }
    for k in (0..57).filter(|k| ![2, 23, 24, 25, 26, 29, 32, 45].contains(k)) {
        assert_eq!(bound(&|w| w.numbers[k] += 1), 42_601, "{k}");
    }
    for count in [29, 32, 45] {
        assert_eq!(bound(&|w| w.numbers[count] = u32::MAX), 42_601, "{count}");
    }
    // without counts of its own: the picture set's, or none where there is no such set
    let sets = |w: &mut raw::Words| (w.numbers[23], w.numbers[25]) = (0, 0);
    assert_eq!(bound(&sets), 42_601);
    let absent = |w: &mut raw::Words| {
        sets(w);
        w.numbers[2] = 7;
    };
    assert_eq!(bound(&absent), 42_601 - 2 * 31 * 380);
    let vast = |w: &mut raw::Words| (w.numbers[24], w.numbers[26]) = (u32::MAX, u32::MAX);
    assert_eq!(bound(&vast), 42_601 + 2 * (u32::MAX as usize - 31) * 380);

    let (table, unit, ..) = b_field();
    let slice = match read_unit(&table, &unit, &mut Vec::new()) {
        Ok(Unit::Slice(slice)) => slice,
        other => panic!("{other:?}"),
    };
    let (lists, references) = (68 * (2 + 3) + 131 * 6, 380 * (2 + 1));
    assert_eq!(slice.header.bound(&table), 659 + lists + references);
}

/// The first byte and the extension, each field by its bits.
#[test]
fn what_a_unit_starts_with() {
    for id in 0..=255 {
        match UnitType::for_id(id) {
            Ok(kind) => assert!(id < 32 && kind.id() == id),
            Err(UnitTypeError::ValueOutOfRange(n)) => assert!(id > 31 && n == id),
        }
        match NalHeader::new(id) {
            Ok(header) => {
                let fields = (header.nal_ref_idc(), header.nal_unit_type().id());
                assert_eq!((id < 128, fields), (true, (id >> 5, id & 31)));
            }
            Err(refusal) => assert_eq!((id > 127, refusal), (true, Refusal::new(2, 0))),
        }
    }
    for shift in 0..24 {
        let word = 1u32 << (23 - shift);
        let [_, a, b, c] = word.to_be_bytes();
        let of = |at: u32, bits: u32| word >> (24 - at - bits) & ((1 << bits) - 1);
        match NalHeaderExtension::from_bytes([a, b, c]) {
            NalHeaderExtension::Svc(_) => assert_eq!(shift, 0),
            NalHeaderExtension::Mvc(_) => assert!(shift > 0),
        }
        let e = NalHeaderMvcExtension([a, b, c]);
        assert_eq!(
            (e.non_idr_flag(), e.anchor_pic_flag()),
            (of(1, 1) == 1, of(21, 1) == 1)
        );
        assert_eq!(e.inter_view_flag(), of(22, 1) == 1);
        assert_eq!(
            (u32::from(e.priority_id()), u32::from(e.view_id())),
            (of(2, 6), of(8, 10))
        );
        assert_eq!(u32::from(e.temporal_id()), of(18, 3));
        let e = NalHeaderSvcExtension([a, b, c]);
        assert_eq!(
            (e.idr_flag(), e.no_inter_layer_pred_flag()),
            (of(1, 1) == 1, of(8, 1) == 1)
        );
        let ids = [
            e.priority_id(),
            e.dependency_id(),
            e.quality_id(),
            e.temporal_id(),
        ];
        assert_eq!(
            ids.map(u32::from),
            [of(2, 6), of(9, 3), of(12, 4), of(16, 3)]
        );
        let flags = (
            e.use_ref_base_pic_flag(),
            e.discardable_flag(),
            e.output_flag(),
        );
        assert_eq!(flags, (of(19, 1) == 1, of(20, 1) == 1, of(21, 1) == 1));
    }
}

/// A generator of small numbers.
fn random(mut state: u64) -> impl FnMut(usize) -> usize {
    move |most| {
        state ^= state << 13;
        state ^= state >> 7;
        state ^= state << 17;
        (state >> 33) as usize % most
    }
}

/// A unit's head and its body in turn are what a walk reads of it: answer, scratch and words. Each was lent the same remains.
#[test]
fn head_and_body_in_turn() {
    let (table, mut random) = (Table::sample(), random(88172645463325252));
    let firsts = [
        0x65, 0x41, 0x01, 0x6E, 0x0E, 0x74, 0x15, 0x67, 0x68, 0x09, 0xE5, 0x80,
    ];
    let mut met = [0; 40];
    for _ in 0..20_000 {
        let mut unit: Vec<u8> = (0..random(9)).map(|_| random(255) as u8 + 1).collect();
        if let Some(first) = unit.first_mut() {
            *first = firsts[random(firsts.len())];
        }
        let recording = [&[0, 0, 1], &unit[..]].concat();
        let mut remains = raw::Words::default();
        (remains.numbers[29], remains.l0[1], remains.base[2]) = (1, 7, 9);
        let (mut words, mut scratch) = (remains.clone(), [5; 12]);
        let mut walked = raw::WalkOut::default();
        let mut after = table.clone();
        raw::walk(
            after.as_raw_mut(),
            &recording,
            0,
            &mut scratch,
            &mut words,
            &mut walked,
        );

        let (mut own, mut own_scratch, mut out) = (remains, [5; 12], raw::ReadOut::default());
        let head = raw::head(&unit);
        match head.told() {
            Ok(head) => raw::body(
                table.as_raw(),
                head,
                &unit,
                &mut own_scratch,
                &mut own,
                &mut out,
            ),
            Err(refusal) => {
                assert!(matches!(refusal.number, 1 | 2 | 4));
                raw::read_unit(table.as_raw(), &unit, &mut own_scratch, &mut own, &mut out);
                assert_eq!((out.answer, out.refusal()), (3, refusal));
            }
        }
        assert_eq!(out, walked.read, "{unit:?}");
        assert_eq!((own_scratch, own == words), (scratch, true), "{unit:?}");
        let mut put = table.clone();
        raw::put_read(put.as_raw_mut(), &out);
        assert_eq!(put, after, "{unit:?}");
        assert_eq!(
            Unit::head(&unit).and_then(|head| Unit::body(&table, head, &unit, &mut Vec::new())),
            read_unit(&table, &unit, &mut Vec::new())
        );
        met[if out.answer == 3 {
            out.number as usize
        } else {
            30 + out.answer as usize
        }] += 1;
    }
    for kind in [1, 2, 4, 5, 28, 30, 31, 32, 35] {
        assert!(met[kind] > 0, "{kind}");
    }
}

/// A head is compared whole, before scratch is: 34, with scratch untouched and all words zeros.
#[test]
fn another_units_head() {
    let (table, unit) = (Table::sample(), [0x6E, 0x80, 0, 7, 0xBF, 0xF0]);
    let head = raw::head(&unit).head;
    let others = [
        raw::UnitHead {
            nal_unit_type: 20,
            ..head
        },
        raw::UnitHead {
            nal_ref_idc: 2,
            ..head
        },
        raw::UnitHead { b1: 0x81, ..head },
        raw::UnitHead { b2: 1, ..head },
        raw::UnitHead { b3: 6, ..head },
        raw::UnitHead {
            nal_unit_type: 255,
            nal_ref_idc: 255,
            b1: 255,
            b2: 255,
            b3: 255,
        },
    ];
    let read = |head, unit: &[u8], length: usize| {
        let (mut words, mut out) = (raw::Words::default(), raw::ReadOut::default());
        (words.l0[3], words.base[2]) = (7, 9);
        let mut scratch = vec![5; length];
        raw::body(
            table.as_raw(),
            head,
            unit,
            &mut scratch,
            &mut words,
            &mut out,
        );
        let clear = words == raw::Words::default() && scratch == vec![5; length];
        (out.answer, out.number, out.value, out.has_bit, clear)
    };
    let refused = (3, 34, 0, false, true);
    for other in others {
        assert_eq!(read(other, &unit, 6), refused, "{other:?}");
        // 26 comes behind it
        assert_eq!(read(other, &unit, 0), refused, "{other:?}");
    }
    assert_eq!(read(head, &unit, 5), (3, 26, 6, false, true));
    assert_eq!(read(head, &unit, 6).0, 2);
    // units that have no head
    let none = raw::UnitHead::default();
    for unit in [&[][..], &[0x80], &[0x6E, 0x80, 0]] {
        assert_eq!(read(head, unit, 6), refused, "{unit:?}");
        assert_eq!(read(none, unit, 6), refused, "{unit:?}");
    }
    let told = Unit::body(&table, Unit::head(&[0x65]).unwrap(), &unit, &mut Vec::new());
    assert_eq!(told, Err(Refusal::new(34, 0)));
    assert_eq!(
        told.unwrap_err().to_string(),
        "refused 34: the head is not the unit's own"
    );
}

/// Every first byte, with its extension and without.
#[test]
fn heads_and_their_lines() {
    for first in 0..=255 {
        let unit = [first, 0x8D, 0x40, 0x07];
        for length in 0..=4 {
            let unit = &unit[..length];
            let (kind, has) = (first & 31, matches!(first & 31, 14 | 20 | 21));
            let number = match length {
                0 => 1,
                _ if first > 127 => 2,
                1..=3 if has => 4,
                _ => 0,
            };
            let (mut line, out) = ([0; 128], raw::head(unit));
            let line =
                String::from_utf8_lossy(raw::head_line(&mut line, 3, length, out)).into_owned();
            let told = match Unit::head(unit) {
                Err(refusal) => {
                    assert_eq!(refusal, Refusal::new(number, 0));
                    assert_eq!(out.head, raw::UnitHead::default());
                    format!("refused {number} value=0")
                }
                Ok(head) => {
                    assert_eq!((number, head.nal_unit_type().id()), (0, kind));
                    assert_eq!(head.nal_ref_idc(), first >> 5);
                    let bytes = head.extension().map(NalHeaderExtension::to_bytes);
                    assert_eq!(bytes, has.then_some([0x8D, 0x40, 0x07]));
                    let ext = if has { " ext=svc 8d4007" } else { "" };
                    format!("type={kind} nal_ref_idc={}{ext}", first >> 5)
                }
            };
            assert_eq!(line, format!("unit place=3 length={length} {told}\n"));
        }
    }
    let (mut line, most) = ([0; 128], usize::MAX);
    let head = raw::UnitHead {
        nal_unit_type: 20,
        nal_ref_idc: 255,
        b1: 0x7F,
        b2: 0xA0,
        b3: 0x09,
    };
    let out = raw::HeadOut {
        head,
        ..raw::HeadOut::default()
    };
    let told = format!("unit place={most} length={most} type=20 nal_ref_idc=255 ext=mvc 7fa009\n");
    assert_eq!(
        String::from_utf8_lossy(raw::head_line(&mut line, most, most, out)),
        told
    );
    let out = raw::HeadOut {
        number: 255,
        value: i64::MIN,
        head,
    };
    let told = format!(
        "unit place={most} length={most} refused 255 value={}\n",
        i64::MIN
    );
    assert_eq!(
        String::from_utf8_lossy(raw::head_line(&mut line, most, most, out)),
        told
    );
}

/// A step without reading is the walk's.
#[test]
fn steps_without_reading() {
    let (mut table, mut random) = (Table::new(), random(1442695040888963407));
    for _ in 0..2_000 {
        let s: Vec<u8> = (0..random(60))
            .map(|_| [0, 0, 0, 1, 3, 0x65][random(6)])
            .collect();
        for from in 0..=s.len() + 1 {
            let (mut words, mut scratch) = (raw::Words::default(), vec![0; s.len()]);
            let mut out = raw::WalkOut::default();
            let table = table.as_raw_mut();
            raw::walk(table, &s, from, &mut scratch, &mut words, &mut out);
            let step = raw::next_unit(&s, from);
            assert_eq!(
                (step.step, step.number, step.value),
                (out.step, out.number, out.value)
            );
            assert_eq!(
                (step.place, step.length, step.next),
                (out.place, out.length, out.next)
            );
        }
    }
}
