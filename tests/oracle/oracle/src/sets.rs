//! Units of types 7 and 8, read by the Rust's own readers over a reader that notes every element: what the Rust says, and what the rules say of the same elements.
use crate::refusals::refused;
use crate::table::{picture_word, sequence_word};
use h264_reader::nal::pps::PicParameterSet;
use h264_reader::nal::sps::SeqParameterSet;
use h264_reader::nal::{Nal, RefNal};
use h264_reader::rbsp::{BitRead, BitReader, BitReaderError, Integer, Primitive};
use h264_reader::Context;
use std::fmt::Write as _;
use std::io::ErrorKind;
use std::panic::{catch_unwind, AssertUnwindSafe};

/// An element as the Rust asked for it: where it begins, and its value, unless it could not be read.
struct Note {
    name: &'static str,
    start: u64,
    value: Option<i64>,
}

#[derive(Default)]
pub struct Notes {
    elements: Vec<Note>,
    /// Bits taken so far.
    pos: u64,
    /// Why the last element could not be read.
    failed: Option<ErrorKind>,
    too_large: bool,
    golomb: bool,
}

/// The crate's own reader with every call passed on. `from_bits` takes a reader and keeps it, so the notes lie elsewhere.
struct Noted<'a, R> {
    inner: R,
    notes: &'a mut Notes,
}

impl<R: BitRead> Noted<'_, R> {
    fn note<T: Copy>(
        &mut self,
        name: &'static str,
        golomb: bool,
        read: impl FnOnce(&mut R) -> Result<T, BitReaderError>,
        told: impl FnOnce(T) -> (i64, u64),
    ) -> Result<T, BitReaderError> {
        let (got, notes) = (read(&mut self.inner), &mut *self.notes);
        let (start, value) = (notes.pos, got.as_ref().ok().map(|v| told(*v)));
        notes.golomb = golomb;
        notes.pos += value.map_or(0, |v| v.1);
        notes.elements.push(Note {
            name,
            start,
            value: value.map(|v| v.0),
        });
        match &got {
            Err(BitReaderError::ReaderError(_, e)) => notes.failed = Some(e.kind()),
            Err(BitReaderError::ExpGolombTooLarge(_)) => notes.too_large = true,
            _ => {}
        }
        got
    }
}

/// How many bits the code of a value has.
fn code(k: u64) -> u64 {
    2 * (63 - u64::from((k + 1).leading_zeros())) + 1
}

impl<R: BitRead> BitRead for Noted<'_, R> {
    fn read_ue(&mut self, name: &'static str) -> Result<u32, BitReaderError> {
        self.note(name, true, |r| r.read_ue(name), |v| (v.into(), code(v.into())))
    }
    fn read_se(&mut self, name: &'static str) -> Result<i32, BitReaderError> {
        let k = |v: i32| u64::from(v.unsigned_abs()) * 2 - u64::from(v > 0);
        self.note(name, true, |r| r.read_se(name), |v| (v.into(), code(k(v))))
    }
    fn read_bit(&mut self, name: &'static str) -> Result<bool, BitReaderError> {
        self.note(name, false, |r| r.read_bit(name), |v| (v.into(), 1))
    }
    fn read<const BITS: u32, I: Integer>(&mut self, name: &'static str) -> Result<I, BitReaderError> {
        let bits = u64::from(BITS);
        self.note(name, false, |r| r.read::<BITS, I>(name), |v| (number(v, BITS), bits))
    }
    fn read_var<I: Integer>(&mut self, bits: u32, name: &'static str) -> Result<I, BitReaderError> {
        self.note(name, false, |r| r.read_var::<I>(bits, name), |v| (number(v, bits), bits.into()))
    }
    fn read_to<V: Primitive>(&mut self, name: &'static str) -> Result<V, BitReaderError> {
        let bits = 8 * std::mem::size_of::<V>() as u64;
        self.note(name, false, |r| r.read_to::<V>(name), |_| (0, bits))
    }
    fn skip(&mut self, bits: u32, name: &'static str) -> Result<(), BitReaderError> {
        self.note(name, false, |r| r.skip(bits, name), |()| (0, bits.into()))
    }
    fn byte_aligned(&self) -> bool {
        self.inner.byte_aligned()
    }
    fn has_more_rbsp_data(&mut self, name: &'static str) -> Result<bool, BitReaderError> {
        self.note(name, false, |r| r.has_more_rbsp_data(name), |v| (v.into(), 0))
    }
    fn finish_rbsp(self) -> Result<(), BitReaderError> {
        self.inner.finish_rbsp()
    }
    fn finish_sei_payload(self) -> Result<(), BitReaderError> {
        self.inner.finish_sei_payload()
    }
}

/// A number of so many bits, bit by bit: the trait says no more of it than that it can be shifted and compared.
fn number<I: Integer>(v: I, bits: u32) -> i64 {
    let top = I::BITS_SIZE - 1;
    let bit = |k: u32| (v << (top - k)) >> top == I::ONE;
    (0..bits).fold(0, |n, k| n | i64::from(bit(k)) << k)
}

/// What the rules say of the elements that were noted.
enum Ruled {
    Set(String),
    /// 28, at the place of an element, its name, and whether it is the last which the Rust asked for
    Field(u64, &'static str, bool),
    /// an element could not be read
    Cut(u64),
    /// the Rust stopped at an element that the rules pass over, or allow more of
    Stopped(u64),
}

/// The range of an element of a sequence set by the rules; others have none.
fn sequence_range(name: &str) -> Option<(i64, i64)> {
    Some(match name {
        "seq_parameter_set_id" => (0, 31),
        "chroma_format_idc" => (0, 3),
        "bit_depth_luma_minus8" => (0, 6),
        "delta_scale" => (-128, 127),
        "log2_max_frame_num_minus4" | "log2_max_pic_order_cnt_lsb_minus4" => (0, 12),
        "pic_order_cnt_type" => (0, 2),
        "num_ref_frames_in_pic_order_cnt_cycle" => (0, 255),
        "pic_size_in_map_units" => (1, 16_777_216),
        _ => return None,
    })
}

/// The same for a picture set.
fn picture_range(name: &str) -> Option<(i64, i64)> {
    Some(match name {
        "pic_parameter_set_id" => (0, 255),
        "seq_parameter_set_id" => (0, 31),
        "num_slice_groups_minus1" => (0, 7),
        "slice_group_map_type" => (0, 6),
        "slice_group_change_rate_minus1" => (0, 16_777_215),
        "num_ref_idx_l0_default_active_minus1" | "num_ref_idx_l1_default_active_minus1" => (0, 31),
        "weighted_bipred_idc" => (0, 2),
        "pic_init_qp_minus26" => (-62, 25),
        "pic_init_qs_minus26" => (-26, 25),
        _ => return None,
    })
}

/// The elements one after the other, up to the last that the table needs.
fn ruled(
    notes: &Notes,
    range: fn(&str) -> Option<(i64, i64)>,
    last: &str,
    word: impl Fn(&dyn Fn(&str) -> i64) -> String,
) -> Ruled {
    let (mut met, mut depths): (Vec<(&'static str, i64)>, _) = (vec![], 0);
    for (i, note) in notes.elements.iter().enumerate() {
        let value = match note.value {
            Some(value) => value,
            None => return Ruled::Cut(note.start),
        };
        // both depths have one name in the Rust
        let mut name = note.name;
        if name == "read_bit_depth_minus8" {
            name = ["bit_depth_luma_minus8", "bit_depth_chroma_minus8"][depths];
            depths += 1;
        }
        met.push((name, value));
        let mut tried = (name, value);
        if name == "pic_height_in_map_units_minus1" {
            let width = met.iter().find(|m| m.0 == "pic_width_in_mbs_minus1").map_or(0, |m| m.1);
            tried = ("pic_size_in_map_units", (width + 1).saturating_mul(value + 1));
            met.push(tried);
        }
        if range(tried.0).map_or(false, |(least, most)| tried.1 < least || tried.1 > most) {
            return Ruled::Field(note.start, tried.0, i + 1 == notes.elements.len());
        }
        if name == last {
            return Ruled::Set(word(&|name| met.iter().rev().find(|m| m.0 == name).map_or(0, |m| m.1)));
        }
    }
    Ruled::Stopped(notes.elements.last().map_or(0, |n| n.start))
}

fn sequence_of(of: &dyn Fn(&str) -> i64, high: bool) -> String {
    format!(
        "sps sps:{}:{}:{}:{}:{}:{}:{}:{}:{}:{}",
        of("seq_parameter_set_id"),
        if high { of("chroma_format_idc") } else { 1 },
        of("separate_colour_plane_flag"),
        of("bit_depth_luma_minus8"),
        of("log2_max_frame_num_minus4") + 4,
        of("pic_order_cnt_type"),
        of("log2_max_pic_order_cnt_lsb_minus4"),
        of("delta_pic_order_always_zero_flag"),
        of("frame_mbs_only_flag"),
        of("pic_size_in_map_units"),
    )
}

fn picture_of(of: &dyn Fn(&str) -> i64, changing: bool) -> String {
    format!(
        "pps pps:{}:{}:{}:{}:{}:{}:{}:{}:{}:{}:{}:{}:{}",
        of("pic_parameter_set_id"),
        of("seq_parameter_set_id"),
        of("entropy_coding_mode_flag"),
        of("bottom_field_pic_order_in_frame_present_flag"),
        of("num_ref_idx_l0_default_active_minus1"),
        of("num_ref_idx_l1_default_active_minus1"),
        of("weighted_pred_flag"),
        of("weighted_bipred_idc"),
        of("pic_init_qp_minus26"),
        of("pic_init_qs_minus26"),
        of("deblocking_filter_control_present_flag"),
        of("redundant_pic_cnt_present_flag"),
        if changing { of("slice_group_change_rate_minus1") + 1 } else { 0 },
    )
}

/// Sequence sets under every id, the deepest and the largest that the Rust takes, for picture sets to be read under.
pub fn broad() -> Context {
    let mut ctx = Context::new();
    for id in 0..32u64 {
        let ue = |v: u64| format!("{:0width$b}", v + 1, width = code(v) as usize);
        // profile 244, level 6.2, 4:2:0, depth 14, order count type 2, one row
        let bits = format!("{:08b}{:08b}{:08b}{}{}{}{}00", 244, 0, 62, ue(id), ue(1), ue(6), ue(0));
        let bits = bits + &format!("{}{}{}0{}{}11001", ue(0), ue(2), ue(1), ue(139_263), ue(0));
        let bytes = bits.as_bytes().chunks(8);
        let bytes = bytes.map(|b| b.iter().enumerate().fold(0, |n, (k, c)| n | (c - b'0') << (7 - k)));
        let bytes: Vec<u8> = bytes.collect();
        ctx.put_seq_param_set(SeqParameterSet::from_bits(BitReader::new(&bytes[..])).unwrap());
    }
    ctx
}

/// The name of an error, without what it holds.
fn variant(e: &dyn std::fmt::Debug) -> String {
    let text = format!("{e:?}");
    let named = text.contains("pic_size_in_map_units");
    let end = text.find(['(', ' ', '{'].as_slice()).unwrap_or(text.len());
    format!("{}{}", &text[..end], if named { ":pic_size_in_map_units" } else { "" })
}

/// The answer line of a unit of type 7 or 8.
pub fn set_line(broad: &Context, unit: &[u8], body: Option<Vec<u8>>, trace: bool) -> String {
    let sequence = unit[0] & 31 == 7;
    let nal = RefNal::new(unit, &[], true);
    let read = |notes: Option<&mut Notes>| {
        let got = catch_unwind(AssertUnwindSafe(|| match (sequence, notes) {
            (true, None) => SeqParameterSet::from_bits(nal.rbsp_bits())
                .map(|s| format!("sps {}", sequence_word(&s)))
                .map_err(|e| variant(&e)),
            (true, Some(notes)) => SeqParameterSet::from_bits(Noted { inner: nal.rbsp_bits(), notes })
                .map(|s| format!("sps {}", sequence_word(&s)))
                .map_err(|e| variant(&e)),
            (false, None) => PicParameterSet::from_bits(broad, nal.rbsp_bits())
                .map(|p| format!("pps {}", picture_word(&p)))
                .map_err(|e| variant(&e)),
            (false, Some(notes)) => PicParameterSet::from_bits(broad, Noted { inner: nal.rbsp_bits(), notes })
                .map(|p| format!("pps {}", picture_word(&p)))
                .map_err(|e| variant(&e)),
        }));
        got.unwrap_or_else(|_| Err("panic".to_string()))
    };
    let mut notes = Notes::default();
    let (plain, noted) = (read(None), read(Some(&mut notes)));
    if plain != noted {
        return format!("unexpected two readers differ: {plain:?} / {noted:?}");
    }
    let has = |name: &str| notes.elements.iter().any(|n| n.name == name);
    let ruled = if sequence {
        let high = has("chroma_format_idc");
        ruled(&notes, sequence_range, "frame_mbs_only_flag", |of| sequence_of(of, high))
    } else {
        let changing = has("slice_group_change_rate_minus1");
        ruled(&notes, picture_range, "redundant_pic_cnt_present_flag", |of| picture_of(of, changing))
    };
    let place = |line: String, bit: u64| if trace { format!("{line} bit={bit}") } else { line };
    match (plain, ruled) {
        (Ok(word), Ruled::Set(same)) if word == same => word,
        (Ok(word), Ruled::Field(bit, name, _)) => format!("{word} field={name} | doc: {}", place(refused(28, 0), bit)),
        (Err(why), Ruled::Set(word)) => format!("error {why} | doc: {word}"),
        (Err(_), Ruled::Field(bit, _, true)) => place(refused(28, 0), bit),
        (Err(why), Ruled::Field(bit, name, false)) => format!("error {why} field={name} | doc: {}", place(refused(28, 0), bit)),
        (Err(why), Ruled::Stopped(bit)) => format!("error {why} at={bit}"),
        (Err(_), Ruled::Cut(bit)) => {
            if notes.too_large {
                return place(refused(6, 0), bit);
            }
            let name = notes.elements.last().map_or("", |n| n.name);
            match notes.failed {
                Some(ErrorKind::UnexpectedEof) => {}
                kind => return format!("ioerror {:?} field={name}", kind.unwrap_or(ErrorKind::Other)),
            }
            let mut out = place(refused(5, 0), bit);
            if let (true, Some(body)) = (notes.golomb, body) {
                let zero = |i: u64| body[(i / 8) as usize] >> (7 - i % 8) & 1 == 0;
                if 8 * body.len() as u64 - bit >= 32 && (bit..bit + 32).all(zero) {
                    write!(out, " | doc: {}", place(refused(6, 0), bit)).unwrap();
                }
            }
            out
        }
        (got, _) => format!("unexpected set: {got:?}"),
    }
}
