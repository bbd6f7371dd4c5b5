//! Look-ups of picture sets through the exported function, on a table that is lent, puts of a sequence set, which set the widths of picture sets anew, and sets that are
//! read from units.

use std::hint::black_box;
use std::mem::MaybeUninit;

use tuzmarghil::raw::{put_picture, put_sequence, read_unit};
use tuzmarghil::raw::{Picture, PictureOut, ReadOut, Sequence, Table, Words};

use crate::cpu::nanoseconds;

extern "C" {
    /// A struct result goes through a pointer that stands first, on x86-64 by the C convention; written out, the call is the same on other machines (native-archive).
    fn tuz_picture_at(out: *mut PictureOut, table: &Table, id: u32);
}

fn picture_at<'a>(table: &Table, id: u32, out: &'a mut MaybeUninit<PictureOut>) -> &'a PictureOut {
    // SAFETY: the function fills all of `out`; the table lives through the call, which only reads it.
    unsafe {
        tuz_picture_at(out.as_mut_ptr(), table, id);
        out.assume_init_ref()
    }
}

/// The words of an entry, as crates/table/specs/Tables.antt, `pictureWords`, has them.
fn words(set: &Picture, width: u32) -> [u32; 9] {
    let flags = [
        set.entropy_coding_mode_flag,
        set.bottom_field_pic_order_in_frame_present_flag,
        set.weighted_pred_flag,
        set.deblocking_filter_control_present_flag,
        set.redundant_pic_cnt_present_flag,
    ];
    [
        flags
            .iter()
            .fold(1, |word, &flag| word * 2 + u32::from(flag)),
        set.seq_parameter_set_id,
        set.num_ref_idx_l0_default_active_minus1,
        set.num_ref_idx_l1_default_active_minus1,
        set.weighted_bipred_idc,
        (set.pic_init_qp_minus26 + 62) as u32,
        (set.pic_init_qs_minus26 + 26) as u32,
        set.slice_group_change_rate,
        width,
    ]
}

/// The set that is put at an id: every field another.
fn picture(id: u32) -> Picture {
    let mut set = Picture::default();
    set.seq_parameter_set_id = id % 32;
    set.entropy_coding_mode_flag = id % 2 == 1;
    set.bottom_field_pic_order_in_frame_present_flag = id % 3 == 1;
    set.num_ref_idx_l0_default_active_minus1 = id % 31;
    set.num_ref_idx_l1_default_active_minus1 = id % 29;
    set.weighted_pred_flag = id % 5 == 1;
    set.weighted_bipred_idc = id % 3;
    set.pic_init_qp_minus26 = (id % 88) as i32 - 62;
    set.pic_init_qs_minus26 = (id % 52) as i32 - 26;
    set.deblocking_filter_control_present_flag = id % 7 == 1;
    set.redundant_pic_cnt_present_flag = id % 11 == 1;
    set.slice_group_change_rate = id * 65_536;
    set
}

/// Fills a table, holds each look-up to what was put, and gives the nanoseconds that a look-up takes, best of several rounds.
pub fn lookup() -> f64 {
    let mut table = Table::default();
    for id in 0..256 {
        let at = id as usize * 9;
        table.pictures[at..at + 9].copy_from_slice(&words(&picture(id), id % 26));
    }
    let mut out = MaybeUninit::uninit();
    for id in 0..260 {
        let found = picture_at(&table, id, &mut out);
        assert_eq!(found.there, id < 256);
        assert_eq!(
            found.picture,
            if id < 256 {
                picture(id)
            } else {
                Picture::default()
            }
        );
    }
    let rounds = 4_000_000u32;
    let mut best = f64::MAX;
    for _ in 0..7 {
        let start = nanoseconds();
        let mut sum = 0u32;
        for i in 0..rounds {
            let found = picture_at(&table, i % 256, &mut out);
            sum = sum.wrapping_add(found.picture.slice_group_change_rate);
        }
        black_box(sum);
        best = best.min((nanoseconds() - start) / f64::from(rounds));
    }
    best
}

/// The nanoseconds that a put of a sequence set takes where all 256 picture sets name it, best of several rounds. Two sizes by turns, so that every width is another.
pub fn put() -> f64 {
    let mut table = Table::default();
    let sizes = [99, 4_000].map(|size| Sequence {
        log2_max_frame_num: 4,
        pic_size_in_map_units: size,
        ..Sequence::default()
    });
    for id in 0..256 {
        let mut set = picture(id);
        (set.seq_parameter_set_id, set.slice_group_change_rate) = (0, 1 + id % 8);
        assert_eq!(put_picture(&mut table, id, set).number, 0);
    }
    let rounds = 20_000u32;
    let mut best = f64::MAX;
    for _ in 0..7 {
        let start = nanoseconds();
        for i in 0..rounds {
            let done = put_sequence(&mut table, 0, sizes[i as usize % 2]);
            assert_eq!(black_box(done).number, 0);
        }
        best = best.min((nanoseconds() - start) / f64::from(rounds));
    }
    // 4,000 ÷ 1 and ÷ 8, rounded up, and what they take in binary
    assert_eq!((table.pictures[8], table.pictures[7 * 9 + 8]), (12, 9));
    best
}

/// Sets as units, as x264 writes them: main profile, and 4:4:4 with 10 bits.
pub fn units() -> [(&'static str, &'static [u8]); 3] {
    [
        ("a sequence set", &MAIN),
        ("a sequence set of 4:4:4, 10 bit", &HIGH),
        ("a picture set", &PICTURE),
    ]
}

const MAIN: [u8; 22] = [
    0x67, 0x4D, 0x40, 0x0B, 0xEC, 0xA1, 0x62, 0x74, 0x20, 0, 0, 3, 0, 0x20, 0, 0, 6, 0x51, 0xE2,
    0x85, 0x32, 0xC0,
];
const HIGH: [u8; 23] = [
    0x67, 0xF4, 0, 0x0B, 0x90, 0xD9, 0xB2, 0x85, 0x89, 0xD0, 0x80, 0, 0, 3, 0, 0x80, 0, 0, 0x19,
    0x47, 0x8A, 0x14, 0xCB,
];
const PICTURE: [u8; 5] = [0x68, 0xEB, 0xE3, 0xCB, 0x20];

/// A sequence set in which all twelve scaling lists are there, each entry the one before it and 1, or less 1: profile 244, chroma format 3.
pub fn scaled() -> Vec<u8> {
    let mut bits = String::from("111101000000000000111110"); // 244, 0, 62
    bits += concat!("1", "00100", "0", "1", "1", "0", "1"); // id 0, format 3, planes together, depths, bypass, a matrix
    for list in 0..12 {
        bits += "1";
        for entry in 0..if list < 6 { 16 } else { 64 } {
            bits += if entry % 2 == 0 { "010" } else { "011" };
        }
    }
    bits += concat!("1", "011", "010", "0", "0001011", "0001001", "1", "1"); // order count type 2, 99 map units
    let (mut unit, mut zeros) = (vec![0x67], 0);
    for byte in bits.as_bytes().chunks(8) {
        let set = byte.iter().enumerate();
        let byte = set.fold(0, |b, (k, bit)| b | (bit - b'0') << (7 - k));
        if zeros == 2 && byte < 4 {
            unit.push(3);
            zeros = 0;
        }
        zeros = if byte == 0 { zeros + 1 } else { 0 };
        unit.push(byte);
    }
    unit
}

/// The nanoseconds that reading a set takes, best of several rounds.
pub fn read(unit: &[u8]) -> f64 {
    let (table, mut words, mut out) = (Table::default(), Words::default(), ReadOut::default());
    let mut scratch = vec![0; unit.len()];
    let rounds = 200_000u32;
    let mut best = f64::MAX;
    for _ in 0..7 {
        let start = nanoseconds();
        for _ in 0..rounds {
            read_unit(&table, black_box(unit), &mut scratch, &mut words, &mut out);
            assert!(matches!(black_box(&out).answer, 4 | 5));
        }
        best = best.min((nanoseconds() - start) / f64::from(rounds));
    }
    best
}
