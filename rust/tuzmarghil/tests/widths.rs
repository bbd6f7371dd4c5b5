//! The width of slice_group_change_cycle stands in the table with each picture set: puts keep it true, and reading and writing use it as it stands.

use tuzmarghil::raw::{self, ExtensionGiven, ReadOut, Words};
use tuzmarghil::*;

/// The rules' sample header, and ones behind it: a field of n bits reads as 2^n - 1.
const UNIT: [u8; 8] = [0x65, 0x88, 0x84, 0xFF, 0xFF, 0xFF, 0xFF, 0xFF];
const HEADER: usize = 17;
const NONE: ExtensionGiven = ExtensionGiven {
    there: false,
    b1: 0,
    b2: 0,
    b3: 0,
};

fn sequence(size: u32) -> Sequence {
    let mut set = Sequence::default();
    set.chroma_format_idc = 1;
    set.log2_max_frame_num = 4;
    set.pic_order_cnt_type = 2;
    set.frame_mbs_only_flag = true;
    set.pic_size_in_map_units = size;
    set
}

fn picture(rate: u32) -> Picture {
    let mut set = Picture::default();
    set.slice_group_change_rate = rate;
    set
}

/// How many bits of the unit are slice_group_change_cycle.
fn width(table: &Table) -> usize {
    match read_unit(table, &UNIT, &mut Vec::new()) {
        Ok(Unit::Slice(slice)) => {
            let n = slice.bits - HEADER;
            let cycle = slice.header.slice_group_change_cycle;
            assert_eq!(cycle, Some((1u32 << n) - 1));
            n
        }
        other => panic!("{other:?}"),
    }
}

#[test]
fn puts_keep_widths() {
    let mut table = Table::new();
    table.put_picture(0, picture(11)).unwrap();
    table.put_sequence(0, sequence(99)).unwrap();
    assert_eq!(width(&table), 4);
    // another sequence set, and one that is refused
    table.put_sequence(1, sequence(8)).unwrap();
    table.put_sequence(0, sequence(0)).unwrap_err();
    assert_eq!(width(&table), 4);
    table.put_sequence(0, sequence(8)).unwrap();
    assert_eq!(width(&table), 1);
    table.put_picture(0, picture(1)).unwrap();
    assert_eq!(width(&table), 4);
    table.put_sequence(0, sequence(16_777_216)).unwrap();
    assert_eq!(width(&table), 25);
}

/// What reading the unit and writing its words say by a table with a width that no put writes: the refusal's number, and the bits.
fn lent(width: u32) -> [(u32, usize); 2] {
    let mut table = Table::new();
    table.put_sequence(0, sequence(99)).unwrap();
    table.put_picture(0, picture(11)).unwrap();
    let mut other = *table.as_raw();
    assert_eq!(other.pictures[8], 4);
    other.pictures[8] = width;
    let (mut words, mut out, mut scratch) = (Words::default(), ReadOut::default(), UNIT);
    raw::read_unit(table.as_raw(), &UNIT, &mut scratch, &mut words, &mut out);
    let wrote = raw::write_header(&other, UNIT[0], NONE, &words, &mut [0; 8]);
    raw::read_unit(&other, &UNIT, &mut scratch, &mut words, &mut out);
    [(out.number, out.bits), (wrote.number, wrote.bits)]
}

#[test]
fn lent_widths_are_used_as_they_stand() {
    assert_eq!(lent(4), [(0, HEADER + 4); 2]);
    assert_eq!(lent(25), [(0, HEADER + 25); 2]);
    assert_eq!(lent(26), [(9, 0); 2]);
}
