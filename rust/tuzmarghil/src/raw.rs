//! The records as the proved library has them, and its functions.
//!
//! The structs are taken from the Rattle sources by build.rs: nothing is declared twice. What is absent is zero, with its mark `there` clear.
#![allow(missing_docs)]

use crate::{PicParameterSet, Refusal, SeqParameterSet};
use std::sync::atomic::{AtomicBool, Ordering::Relaxed};

pub use crate::words::{List, ListWords, NumberWords, SignedWords, WeightWords, Weights, Words};

include!(concat!(env!("OUT_DIR"), "/records.rs"));

pub type MarkedNumber = Marked<u32>;
pub type MarkedSigned = Marked<i32>;
pub type MarkedFlag = Marked<bool>;

// A struct result of over 16 bytes goes through a pointer that stands first: on x86-64 by the C convention, elsewhere because bench/native-archive compiles the
// module made for x86-64. So it is written out here, and the same text serves both. A slice is a pointer and a length.
extern "C" {
    fn tuz_layout() -> u32;
    fn tuz_nal_header(first: u8) -> NalHeaderOut;
    fn tuz_unit_type(id: u8) -> u32;
    fn tuz_extension(out: *mut ExtensionOut, b1: u8, b2: u8, b3: u8);
    fn tuz_final_qp(pictures: *const [u32; 2304], id: u32, delta: i32) -> i64;
    fn tuz_final_qs(pictures: *const [u32; 2304], id: u32, delta: i32) -> i64;
    fn tuz_unit_line(
        line: *mut Line,
        pictures: *const [u32; 2304],
        place: usize,
        length: usize,
        unit: *const u8,
        unit_len: usize,
        answer: u32,
        number: u8,
        value: i64,
        has_bit: bool,
        bit: usize,
        numbers: *const NumberWords,
        signed: *const SignedWords,
    ) -> usize;
    fn tuz_head_line(line: *mut Line, place: usize, length: usize, out: HeadOut) -> usize;
    fn tuz_end_line(line: *mut Line, units: usize, refused: usize) -> usize;
    fn tuz_broken_line(line: *mut Line, place: usize) -> usize;
    fn tuz_sequence_at(out: *mut SequenceOut, table: *const Table, id: u32);
    fn tuz_picture_at(out: *mut PictureOut, table: *const Table, id: u32);
    fn tuz_put_sequence(table: *mut Table, id: u32, set: Sequence) -> ChangedOut;
    fn tuz_put_picture(table: *mut Table, id: u32, set: Picture) -> ChangedOut;
    fn tuz_head(unit: *const u8, unit_len: usize) -> HeadOut;
    fn tuz_body(
        out: *mut ReadOut,
        head: UnitHead,
        sequences: *const [u32; 224],
        pictures: *const [u32; 2304],
        unit: *const u8,
        unit_len: usize,
        scratch: *mut u8,
        scratch_len: usize,
        numbers: *mut NumberWords,
        signed: *mut SignedWords,
        l0: *mut ListWords,
        l1: *mut ListWords,
        marking: *mut ListWords,
        w0: *mut WeightWords,
        w1: *mut WeightWords,
        base: *mut ListWords,
    );
    fn tuz_walk(
        out: *mut WalkOut,
        sequences: *mut [u32; 224],
        pictures: *mut [u32; 2304],
        recording: *const u8,
        recording_len: usize,
        from: usize,
        scratch: *mut u8,
        scratch_len: usize,
        numbers: *mut NumberWords,
        signed: *mut SignedWords,
        l0: *mut ListWords,
        l1: *mut ListWords,
        marking: *mut ListWords,
        w0: *mut WeightWords,
        w1: *mut WeightWords,
        base: *mut ListWords,
    );
    fn tuz_next_unit(out: *mut StepOut, recording: *const u8, recording_len: usize, from: usize);
    fn tuz_next_framed(out: *mut StepOut, recording: *const u8, recording_len: usize, from: usize);
    fn tuz_to_start_codes(
        result: *mut ConvertedOut,
        recording: *const u8,
        recording_len: usize,
        out: *mut u8,
        out_len: usize,
    );
    fn tuz_to_lengths(
        result: *mut ConvertedOut,
        recording: *const u8,
        recording_len: usize,
        out: *mut u8,
        out_len: usize,
    );
    fn tuz_exposures_start(
        state_sizes: *mut [usize; 11],
        state_numbers: *mut [u32; 13],
        state_levels: *mut [i64; 7],
    );
    fn tuz_take(
        out: *mut ClosedOut,
        state_sizes: *mut [usize; 11],
        state_numbers: *mut [u32; 13],
        state_levels: *mut [i64; 7],
        sequences: *const [u32; 224],
        pictures: *const [u32; 2304],
        place: usize,
        nal_unit_type: u8,
        nal_ref_idc: u8,
        answer: u32,
        numbers: *const NumberWords,
        signed: *const SignedWords,
    );
    fn tuz_finish(
        out: *mut ClosedOut,
        state_sizes: *const [usize; 11],
        state_numbers: *const [u32; 13],
        state_levels: *const [i64; 7],
    );
    fn tuz_counts(out: *mut Counts, state_sizes: *const [usize; 11]);
    fn tuz_header_bound(pictures: *const [u32; 2304], numbers: *const NumberWords) -> usize;
    fn tuz_write_header(
        out: *mut WroteOut,
        sequences: *const [u32; 224],
        pictures: *const [u32; 2304],
        first: u8,
        extension: ExtensionGiven,
        numbers: *const NumberWords,
        signed: *const SignedWords,
        l0: *const ListWords,
        l1: *const ListWords,
        marking: *const ListWords,
        w0: *const WeightWords,
        w1: *const WeightWords,
        buffer: *mut u8,
        buffer_len: usize,
    );
}

/// A record of numbers and flags alone, which zero bytes are a value of.
///
/// # Safety
///
/// The type is made of integers and bools only.
pub(crate) unsafe trait Plain: Sized {
    fn zero() -> Self {
        // SAFETY: zero bytes are a value of every integer and of bool.
        unsafe { std::mem::MaybeUninit::zeroed().assume_init() }
    }
}

/// A header without its lists: what its words are taken up as. Of each list it has the count: how many entries of the lent words are used.
#[derive(Clone, Copy, Debug, PartialEq, Eq)]
#[repr(C)]
pub struct HeaderShort {
    pub first_mb_in_slice: u32,
    pub slice_type: u32,
    pub pic_parameter_set_id: u32,
    pub seq_parameter_set_id: u32,
    pub frame: Frame,
    pub order_count: OrderCount,
    pub active_counts: ActiveCounts,
    pub ref_pic_list_modification_flag_l0: MarkedFlag,
    pub modifications_l0: u32,
    pub ref_pic_list_modification_flag_l1: MarkedFlag,
    pub modifications_l1: u32,
    pub weights: WeightsShort,
    pub no_output_of_prior_pics_flag: MarkedFlag,
    pub long_term_reference_flag: MarkedFlag,
    pub adaptive_ref_pic_marking_mode_flag: MarkedFlag,
    pub markings: u32,
    pub quantiser: Quantiser,
    pub filter: Filter,
}

macro_rules! plain {
    ($($name:ident)*) => { $(
        // SAFETY: the struct is declared above, of integers, bools and such structs and arrays.
        unsafe impl Plain for $name {}
        impl Default for $name {
            /// Zeros.
            fn default() -> $name {
                Plain::zero()
            }
        }
    )* };
}

plain!(Table Sequence Picture SequenceOut PictureOut HeaderShort HeadOut UnitHead ReadOut StepOut WalkOut ConvertedOut WroteOut ExtensionOut State ClosedOut Counts);

impl ReadOut {
    /// What tells of a refusal.
    pub(crate) fn refused(refusal: Refusal) -> ReadOut {
        ReadOut {
            answer: 3,
            number: refusal.number,
            value: refusal.value,
            has_bit: refusal.bit.is_some(),
            bit: refusal.bit.unwrap_or(0),
            ..ReadOut::default()
        }
    }

    /// The sequence set, where that is the answer.
    pub fn sequence_set(&self) -> SeqParameterSet {
        SeqParameterSet {
            seq_parameter_set_id: self.number,
            sequence: crate::Sequence::from_raw(self.sequence),
        }
    }

    /// The picture set, where that is the answer.
    pub fn picture_set(&self) -> PicParameterSet {
        PicParameterSet {
            pic_parameter_set_id: self.number,
            picture: crate::Picture::from_raw(self.picture),
        }
    }

    /// The refusal, where that is the answer.
    pub fn refusal(&self) -> Refusal {
        Refusal {
            bit: self.has_bit.then_some(self.bit),
            ..Refusal::new(self.number, self.value)
        }
    }
}

/// The words of the state that units are taken by, as the library lays them down. Any words are a state.
#[derive(Clone, Copy, Debug, PartialEq, Eq)]
#[repr(C)]
pub struct State {
    /// Places and counts.
    pub sizes: [usize; 11],
    /// Numbers and flags; the first is whether a picture has begun.
    pub numbers: [u32; 13],
    /// QPs and order count deltas.
    pub levels: [i64; 7],
}

/// The state after a unit, and the exposure that the unit closed.
#[derive(Clone, Copy, Debug, PartialEq, Eq)]
pub struct Taken {
    pub state: State,
    pub closed: ClosedOut,
}

/// The state before the first unit, for [`take`]; nothing is closed.
pub fn exposures_start() -> Taken {
    asked();
    let mut state = State::default();
    let (s, n, l) = (&mut state.sizes, &mut state.numbers, &mut state.levels);
    // SAFETY: the arrays live through the call, which requires nothing.
    unsafe { tuz_exposures_start(s, n, l) };
    let closed = ClosedOut::default();
    Taken { state, closed }
}

/// Takes a unit, by the table in force, its place, its first byte and what reading it gave: the state is changed where it stands, and beside it stands the exposure that
/// the unit closes.
#[inline]
pub fn take(
    taken: &mut Taken,
    table: &Table,
    place: usize,
    first: u8,
    out: &ReadOut,
    words: &Words,
) {
    asked();
    let Taken { state, closed } = taken;
    let (sizes, marks, levels) = (&mut state.sizes, &mut state.numbers, &mut state.levels);
    let (q, p, n, s) = (
        &table.sequences,
        &table.pictures,
        &words.numbers,
        &words.signed,
    );
    let (kind, reference, answer) = (first & 31, first >> 5 & 3, out.answer);
    // SAFETY: the result and the arrays live through the call, which requires nothing.
    unsafe {
        tuz_take(
            closed, sizes, marks, levels, q, p, place, kind, reference, answer, n, s,
        )
    };
}

/// The last exposure.
pub fn finish(state: &State) -> ClosedOut {
    asked();
    let mut out = ClosedOut::default();
    // SAFETY: the result and the arrays live through the call, which requires nothing.
    unsafe { tuz_finish(&mut out, &state.sizes, &state.numbers, &state.levels) };
    out
}

/// How many units of each kind were taken.
pub fn counts(state: &State) -> Counts {
    asked();
    let mut out = Counts::default();
    // SAFETY: the result and the array live through the call, which requires nothing.
    unsafe { tuz_counts(&mut out, &state.sizes) };
    out
}

/// A line of a listing.
pub type Line = [u8; 128];

/// Whether the archive that is linked has been asked for its layout.
static ASKED: AtomicBool = AtomicBool::new(false);

/// Comes before every call of the archive: one that was built from other sources could take the arguments for something else.
#[inline(always)]
fn asked() {
    if !ASKED.load(Relaxed) {
        ask();
    }
}

#[cold]
fn ask() {
    // SAFETY: it takes nothing, and has had no other form.
    let layout = unsafe { tuz_layout() };
    assert_eq!(
        layout, LAYOUT,
        "the archive that is linked has another layout than this crate: does TUZ_ARCHIVE name an old one?"
    );
    ASKED.store(true, Relaxed);
}

pub fn nal_header(first: u8) -> NalHeaderOut {
    asked();
    // SAFETY: it takes a number and requires nothing.
    unsafe { tuz_nal_header(first) }
}

pub fn unit_type(id: u8) -> u32 {
    asked();
    // SAFETY: it takes a number and requires nothing.
    unsafe { tuz_unit_type(id) }
}

pub fn extension([b1, b2, b3]: [u8; 3]) -> ExtensionOut {
    asked();
    let mut out = ExtensionOut::default();
    // SAFETY: the result lives through the call, which requires nothing.
    unsafe { tuz_extension(&mut out, b1, b2, b3) };
    out
}

pub fn final_qp(table: &Table, id: u32, delta: i32) -> i64 {
    asked();
    // SAFETY: the array lives through the call, which only reads it and requires nothing.
    unsafe { tuz_final_qp(&table.pictures, id, delta) }
}

pub fn final_qs(table: &Table, id: u32, delta: i32) -> i64 {
    asked();
    // SAFETY: the array lives through the call, which only reads it and requires nothing.
    unsafe { tuz_final_qs(&table.pictures, id, delta) }
}

/// A unit's line in a listing: its place and length in the recording, its bytes, and what reading it gave.
pub fn unit_line<'a>(
    line: &'a mut Line,
    table: &Table,
    place: usize,
    length: usize,
    unit: &[u8],
    out: &ReadOut,
    words: &Words,
) -> &'a [u8] {
    asked();
    let (u, un) = (unit.as_ptr(), unit.len());
    let (answer, number, value) = (out.answer, out.number as u8, out.value);
    let (has_bit, bit) = (out.has_bit, out.bit);
    let (p, n, s) = (&table.pictures, &words.numbers, &words.signed);
    // SAFETY: the pointer and the length are those of a live slice, the arrays live through the call, and it requires nothing.
    let end = unsafe {
        tuz_unit_line(
            line, p, place, length, u, un, answer, number, value, has_bit, bit, n, s,
        )
    };
    &line[..end]
}

/// A unit's line in a listing of kinds: its place and length in the recording, and what its head said.
pub fn head_line(line: &mut Line, place: usize, length: usize, out: HeadOut) -> &[u8] {
    asked();
    // SAFETY: the line lives through the call, which requires nothing.
    let end = unsafe { tuz_head_line(line, place, length, out) };
    &line[..end]
}

/// A listing's last line.
pub fn end_line(line: &mut Line, units: usize, refused: usize) -> &[u8] {
    asked();
    // SAFETY: the line lives through the call, which requires nothing.
    let end = unsafe { tuz_end_line(line, units, refused) };
    &line[..end]
}

/// The line of a broken length, before the last one.
pub fn broken_line(line: &mut Line, place: usize) -> &[u8] {
    asked();
    // SAFETY: the line lives through the call, which requires nothing.
    let end = unsafe { tuz_broken_line(line, place) };
    &line[..end]
}

pub fn sequence_at(table: &Table, id: u32) -> SequenceOut {
    asked();
    let mut out = SequenceOut::default();
    // SAFETY: both live through the call, which only reads the table and requires nothing.
    unsafe { tuz_sequence_at(&mut out, table, id) };
    out
}

pub fn picture_at(table: &Table, id: u32) -> PictureOut {
    asked();
    let mut out = PictureOut::default();
    // SAFETY: both live through the call, which only reads the table and requires nothing.
    unsafe { tuz_picture_at(&mut out, table, id) };
    out
}

pub fn put_sequence(table: &mut Table, id: u32, set: Sequence) -> ChangedOut {
    asked();
    // SAFETY: the table is borrowed for this call alone, which requires nothing.
    unsafe { tuz_put_sequence(table, id, set) }
}

pub fn put_picture(table: &mut Table, id: u32, set: Picture) -> ChangedOut {
    asked();
    // SAFETY: the table is borrowed for this call alone, which requires nothing.
    unsafe { tuz_put_picture(table, id, set) }
}

/// Puts the set that a unit was read as, if it is one: what a step of the walk does by itself.
pub fn put_read(table: &mut Table, read: &ReadOut) {
    match read.answer {
        4 => put_sequence(table, read.number, read.sequence),
        5 => put_picture(table, read.number, read.picture),
        _ => return,
    };
}

/// A call that is lent words, which come last in it.
macro_rules! lending {
    ($words:expr, $call:ident($($given:expr),*)) => {{
        let Words { numbers, signed, l0, l1, marking, w0, w1, base } = $words;
        $call($($given,)* numbers, signed, l0, l1, marking, w0, w1, base)
    }};
}

pub fn head(unit: &[u8]) -> HeadOut {
    asked();
    // SAFETY: the pointer and the length are those of a live slice, which the call only reads, and it requires nothing.
    unsafe { tuz_head(unit.as_ptr(), unit.len()) }
}

impl HeadOut {
    /// The head, or its refusal.
    pub fn told(&self) -> Result<UnitHead, Refusal> {
        match self.number {
            0 => Ok(self.head),
            number => Err(Refusal::new(number.into(), self.value)),
        }
    }
}

/// A unit's head, and then its body.
pub fn read_unit(
    table: &Table,
    unit: &[u8],
    scratch: &mut [u8],
    words: &mut Words,
    out: &mut ReadOut,
) {
    match head(unit).told() {
        Ok(head) => body(table, head, unit, scratch, words, out),
        Err(refusal) => {
            *words = Words::default();
            *out = ReadOut::refused(refusal);
        }
    }
}

/// The body of a unit, for whoever has its head.
pub fn body(
    table: &Table,
    head: UnitHead,
    unit: &[u8],
    scratch: &mut [u8],
    words: &mut Words,
    out: &mut ReadOut,
) {
    asked();
    let (q, p) = (&table.sequences, &table.pictures);
    let (u, un) = (unit.as_ptr(), unit.len());
    let (s, sn) = (scratch.as_mut_ptr(), scratch.len());
    // SAFETY: each pointer and length is that of a live slice, the arrays live through the call and lie apart, and it requires nothing.
    unsafe { lending!(words, tuz_body(out, head, q, p, u, un, s, sn)) }
}

/// The step without reading.
pub fn next_unit(recording: &[u8], from: usize) -> StepOut {
    asked();
    let mut out = StepOut::default();
    let (r, rn) = (recording.as_ptr(), recording.len());
    // SAFETY: the pointer and the length are those of a live slice, which the call only reads, and it requires nothing.
    unsafe { tuz_next_unit(&mut out, r, rn, from) };
    out
}

/// The same in a recording framed by length.
pub fn next_framed(recording: &[u8], from: usize) -> StepOut {
    asked();
    let mut out = StepOut::default();
    let (r, rn) = (recording.as_ptr(), recording.len());
    // SAFETY: the pointer and the length are those of a live slice, which the call only reads, and it requires nothing.
    unsafe { tuz_next_framed(&mut out, r, rn, from) };
    out
}

/// One step of the walk: a set that is read is put into the table.
pub fn walk(
    table: &mut Table,
    recording: &[u8],
    from: usize,
    scratch: &mut [u8],
    words: &mut Words,
    out: &mut WalkOut,
) {
    asked();
    let (q, p) = (&mut table.sequences, &mut table.pictures);
    let (r, rn) = (recording.as_ptr(), recording.len());
    let (s, sn) = (scratch.as_mut_ptr(), scratch.len());
    // SAFETY: each pointer and length is that of a live slice, the arrays live through the call and lie apart, and it requires nothing.
    unsafe { lending!(words, tuz_walk(out, q, p, r, rn, from, s, sn)) }
}

/// The step of a walk that reads headers alone, under its name in the proved library.
macro_rules! walks {
    ($($(#[$told:meta])* $name:ident: $call:ident;)*) => { $(
        $(#[$told])*
        pub fn $name(
            table: &mut Table,
            recording: &[u8],
            from: usize,
            words: &mut Words,
            out: &mut WalkOut,
        ) {
            extern "C" {
                fn $call(
                    out: *mut WalkOut,
                    sequences: *mut [u32; 224],
                    pictures: *mut [u32; 2304],
                    recording: *const u8,
                    recording_len: usize,
                    from: usize,
                    numbers: *mut NumberWords,
                    signed: *mut SignedWords,
                    l0: *mut ListWords,
                    l1: *mut ListWords,
                    marking: *mut ListWords,
                    w0: *mut WeightWords,
                    w1: *mut WeightWords,
                    base: *mut ListWords,
                );
            }
            asked();
            let (q, p) = (&mut table.sequences, &mut table.pictures);
            let (r, rn) = (recording.as_ptr(), recording.len());
            // SAFETY: the pointer and length are those of a live slice, the arrays live through the call and lie apart, and it requires nothing.
            unsafe { lending!(words, $call(out, q, p, r, rn, from)) }
        }
    )* };
}

walks! {
    /// One step of the walk, with headers alone: no body is handed on, and no scratch is lent.
    walk_headers: tuz_walk_headers;
    /// The same in a recording framed by length.
    walk_framed_headers: tuz_walk_framed_headers;
}

impl ConvertedOut {
    /// How many bytes the result has, or the refusal.
    pub fn told(&self) -> Result<usize, Refusal> {
        match self.number {
            0 => Ok(self.bytes),
            number => Err(Refusal::new(number, self.value)),
        }
    }
}

/// From lengths to start codes.
pub fn to_start_codes(recording: &[u8], out: &mut [u8]) -> ConvertedOut {
    asked();
    let mut result = ConvertedOut::default();
    let (r, rn) = (recording.as_ptr(), recording.len());
    let (o, on) = (out.as_mut_ptr(), out.len());
    // SAFETY: each pointer and length is that of a live slice, the two lie apart, and the call requires nothing.
    unsafe { tuz_to_start_codes(&mut result, r, rn, o, on) };
    result
}

/// From start codes to lengths.
pub fn to_lengths(recording: &[u8], out: &mut [u8]) -> ConvertedOut {
    asked();
    let mut result = ConvertedOut::default();
    let (r, rn) = (recording.as_ptr(), recording.len());
    let (o, on) = (out.as_mut_ptr(), out.len());
    // SAFETY: each pointer and length is that of a live slice, the two lie apart, and the call requires nothing.
    unsafe { tuz_to_lengths(&mut result, r, rn, o, on) };
    result
}

/// How many bits the header in words has at most, by the lengths of its lists and its active counts.
pub fn header_bound(table: &Table, words: &Words) -> usize {
    asked();
    // SAFETY: both arrays live through the call, which only reads them and requires nothing.
    unsafe { tuz_header_bound(&table.pictures, &words.numbers) }
}

pub fn write_header(
    table: &Table,
    first: u8,
    extension: ExtensionGiven,
    words: &Words,
    buffer: &mut [u8],
) -> WroteOut {
    asked();
    let mut out = WroteOut::default();
    let (q, p) = (&table.sequences, &table.pictures);
    let Words {
        numbers,
        signed,
        l0,
        l1,
        marking,
        w0,
        w1,
        base: _,
    } = words;
    let (b, n) = (buffer.as_mut_ptr(), buffer.len());
    // SAFETY: the pointer and the length are those of a live slice, the arrays live through the call, and it requires nothing.
    unsafe {
        tuz_write_header(
            &mut out, q, p, first, extension, numbers, signed, l0, l1, marking, w0, w1, b, n,
        )
    };
    out
}
