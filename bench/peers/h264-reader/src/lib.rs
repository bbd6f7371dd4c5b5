//! h264-reader 0.9.0, unchanged, behind peers/peer.h. Its Annex B reader is not among the sources at hand, and pushes bytes one state at a time; memmem, which it uses
//! for escapes itself, splits faster.

use std::slice::from_raw_parts;

use h264_reader::nal::pps::PicParameterSet;
use h264_reader::nal::slice::SliceHeader;
use h264_reader::nal::sps::SeqParameterSet;
use h264_reader::nal::{Nal, RefNal, UnitType};
use h264_reader::rbsp::{decode_nal, BitReader};
use h264_reader::Context;
use memchr::memmem::Finder;

/// peers/peer.h, `struct found`.
#[repr(C)]
pub struct Found {
    units: u64,
    lengths: u64,
    slices: u64,
    fields: u64,
    bodies: u64,
}

/// peers/peer.h, `struct span`.
#[repr(C)]
pub struct Span {
    bytes: *const u8,
    length: usize,
}

/// Split and headers.
const LAZY: i32 = 0;
/// Headers by the reader that steps over escapes, then the whole body unescaped.
const HEADER_THEN_BODY: i32 = 1;
/// The whole body unescaped, then the header out of it.
const BODY_THEN_HEADER: i32 = 2;

impl Found {
    fn take(&mut self, slice: &SliceHeader) {
        self.slices += 1;
        self.fields += u64::from(slice.first_mb_in_slice)
            + 7 * u64::from(slice.frame_num)
            + 11 * (i64::from(slice.slice_qp_delta) + 128) as u64;
    }

    fn unit(&mut self, context: &Context, unit: &[u8], job: i32) {
        self.units += 1;
        self.lengths += unit.len() as u64;
        let nal = RefNal::new(unit, &[], true);
        let Ok(header) = nal.header() else { return };
        match header.nal_unit_type() {
            UnitType::SliceLayerWithoutPartitioningNonIdr
            | UnitType::SliceLayerWithoutPartitioningIdr => {}
            _ => return,
        }
        if job == BODY_THEN_HEADER {
            let Ok(body) = decode_nal(unit) else { return };
            self.bodies += body.len() as u64;
            let mut bits = BitReader::new(&body[..]);
            if let Ok((slice, _, _)) = SliceHeader::from_bits(context, &mut bits, header, None) {
                self.take(&slice);
            }
            return;
        }
        if let Ok((slice, _, _)) =
            SliceHeader::from_bits(context, &mut nal.rbsp_bits(), header, None)
        {
            self.take(&slice);
        }
        if job == HEADER_THEN_BODY {
            if let Ok(body) = decode_nal(unit) {
                self.bodies += body.len() as u64;
            }
        }
    }
}

/// Hands each unit of a recording to `take`: after a start code, up to the next or the end, without trailing zeros.
fn split(recording: &[u8], mut take: impl FnMut(&[u8])) {
    let finder = Finder::new(b"\x00\x00\x01");
    let mut next = finder.find(recording);
    while let Some(code) = next {
        let at = code + 3;
        next = finder.find(&recording[at..]).map(|n| at + n);
        let mut end = next.unwrap_or(recording.len());
        while end > at && recording[end - 1] == 0 {
            end -= 1;
        }
        if at < end {
            take(&recording[at..end]);
        }
    }
}

/// # Safety
///
/// The pointer and the length are those of a live slice.
#[no_mangle]
pub unsafe extern "C" fn peer_open(sets: *const u8, length: usize) -> *mut Context {
    let mut context = Context::new();
    split(from_raw_parts(sets, length), |unit| {
        let nal = RefNal::new(unit, &[], true);
        match nal.header().unwrap().nal_unit_type() {
            UnitType::SeqParameterSet => context
                .put_seq_param_set(SeqParameterSet::from_bits(nal.rbsp_bits()).expect("a sequence set")),
            _ => {
                let set = PicParameterSet::from_bits(&context, nal.rbsp_bits());
                context.put_pic_param_set(set.expect("a picture set"));
            }
        }
    });
    Box::into_raw(Box::new(context))
}

/// # Safety
///
/// `peer` comes from `peer_open`; the pointer and the length are those of a live slice.
#[no_mangle]
pub unsafe extern "C" fn peer_walk(
    peer: *const Context,
    recording: *const u8,
    length: usize,
    job: i32,
    found: &mut Found,
) {
    // a constant in each, so that no unit pays for the choice
    let (context, recording) = (&*peer, from_raw_parts(recording, length));
    match job {
        LAZY => split(recording, |unit| found.unit(context, unit, LAZY)),
        HEADER_THEN_BODY => split(recording, |unit| found.unit(context, unit, HEADER_THEN_BODY)),
        _ => split(recording, |unit| found.unit(context, unit, BODY_THEN_HEADER)),
    }
}

/// # Safety
///
/// `peer` comes from `peer_open`; the spans are live.
#[no_mangle]
pub unsafe extern "C" fn peer_heads(
    peer: *const Context,
    units: *const Span,
    count: usize,
    found: &mut Found,
) {
    for unit in from_raw_parts(units, count) {
        found.unit(&*peer, from_raw_parts(unit.bytes, unit.length), LAZY);
    }
}
