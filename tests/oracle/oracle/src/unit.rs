//! One unit read as a user of the crate would, and once more with every read noted.
use crate::refusals::{io_error, refused, slice_error};
use crate::sets::set_line;
use crate::trace::Tracer;
use crate::words::{b, prefix_words, slice_words};
use h264_reader::nal::pps::PicParameterSet;
use h264_reader::nal::prefix::PrefixNalUnit;
use h264_reader::nal::slice::*;
use h264_reader::nal::sps::SeqParameterSet;
use h264_reader::nal::{
    extended_rbsp_bytes, parse_nal_header_extension, Nal, NalHeader, NalHeaderExtension, RefNal, UnitType,
};
use h264_reader::rbsp::{BitRead, BitReader, BitReaderError};
use h264_reader::Context;
use std::fmt::Write as _;
use std::io::{ErrorKind, Read};
use std::panic::{catch_unwind, AssertUnwindSafe};

/// As a user of the crate would.
pub fn plain_slice(ctx: &Context, nal: &RefNal<'_>, hdr: NalHeader, extended: bool) -> String {
    let show = |r: Result<(SliceHeader, &SeqParameterSet, &PicParameterSet), SliceHeaderError>,
                ext: Option<&NalHeaderExtension>| match r {
        Ok((h, sps, pps)) => slice_words(hdr, ext, &h, sps, pps),
        Err(e) => slice_error(&e),
    };
    if !extended {
        return show(SliceHeader::from_bits(ctx, &mut nal.rbsp_bits(), hdr, None), None);
    }
    let (ext, bytes) = match parse_nal_header_extension(nal) {
        Ok(v) => v,
        Err(e) if e.kind() == ErrorKind::UnexpectedEof => return refused(4, 0),
        Err(e) => return io_error("header extension", &e),
    };
    let one = show(
        SliceHeader::from_bits(ctx, &mut BitReader::new(bytes), hdr, Some(&ext)),
        Some(&ext),
    );
    let other = show(
        SliceHeader::from_bits(ctx, &mut BitReader::new(extended_rbsp_bytes(nal)), hdr, Some(&ext)),
        Some(&ext),
    );
    if one != other {
        return format!("unexpected two readers differ: {one} / {other}");
    }
    one
}

/// `prefix.rs`'s reading order over a tracer, for the doc: column only; the answer isn't used.
pub fn shadow_prefix<R: BitRead>(t: &mut Tracer<R>) -> Result<(), BitReaderError> {
    if t.read_bit("store_ref_base_pic_flag")? {
        loop {
            match t.read_ue("memory_management_base_control_operation")? {
                0 => break,
                1 | 2 => t.read_ue("operand")?,
                _ => return Ok(()),
            };
        }
    }
    t.read_bit("additional_prefix_nal_unit_extension_flag")?;
    Ok(())
}

/// What the rules answer where the Rust's own answer cannot be it.
pub fn doc_column<R: BitRead>(
    answer: &str,
    t: &Tracer<R>,
    body: impl FnOnce() -> Option<Vec<u8>>,
) -> Option<(String, u64)> {
    if let Some(at) = t.over {
        return Some((refused(14, 0), at));
    }
    if answer == "panic" && t.name == "slice_qp_delta" {
        return Some((refused(16, i64::from(t.last_se)), t.start));
    }
    if answer == "panic" && t.name == "slice_qs_delta" {
        return Some((refused(17, i64::from(t.last_se)), t.start));
    }
    if answer == "refused 5 value=0" && t.golomb {
        let body = body()?;
        let total = 8 * body.len() as u64;
        let bit = |i: u64| body[(i / 8) as usize] >> (7 - i % 8) & 1;
        if total - t.start >= 32 && (t.start..t.start + 32).all(|i| bit(i) == 0) {
            return Some((refused(6, 0), t.start));
        }
    }
    None
}
pub fn push_doc(out: &mut String, doc: Option<(String, u64)>, trace: bool) {
    if let Some((d, at)) = doc {
        write!(out, " | doc: {d}").unwrap();
        if trace {
            write!(out, " bit={at}").unwrap();
        }
    }
}
pub fn all_bytes(mut r: impl Read) -> Option<Vec<u8>> {
    let mut v = vec![];
    r.read_to_end(&mut v).ok()?;
    Some(v)
}

/// A unit's line; picture sets are read under `broad`.
pub fn unit_line(ctx: &Context, broad: &Context, unit: &[u8], trace: bool) -> String {
    if unit.is_empty() {
        // RefNal::new panics here; the rules have 1.
        return refused(1, 0);
    }
    let nal = RefNal::new(unit, &[], true);
    let hdr = match nal.header() {
        Ok(h) => h,
        Err(_) => return refused(2, 0),
    };
    let ty = hdr.nal_unit_type();
    let caught =
        |f: &mut dyn FnMut() -> String| catch_unwind(AssertUnwindSafe(f)).unwrap_or_else(|_| "panic".to_string());
    match ty {
        UnitType::SliceLayerWithoutPartitioningNonIdr
        | UnitType::SliceLayerWithoutPartitioningIdr
        | UnitType::SliceExtension
        | UnitType::SliceExtensionViewComponent => {
            let extended = unit[0] & 31 >= 20;
            let line = caught(&mut || plain_slice(ctx, &nal, hdr, extended));
            let (ext, bytes) = if extended {
                match parse_nal_header_extension(&nal) {
                    Ok((e, r)) => (Some(e), r),
                    Err(_) => return line,
                }
            } else {
                (None, nal.rbsp_bytes())
            };
            let mut t = Tracer::new(BitReader::new(bytes), matches!(ext, Some(NalHeaderExtension::Mvc(_))));
            let traced = caught(&mut || match SliceHeader::from_bits(ctx, &mut t, hdr, ext.as_ref()) {
                Ok((h, sps, pps)) => slice_words(hdr, ext.as_ref(), &h, sps, pps),
                Err(e) => slice_error(&e),
            });
            if traced != line {
                return format!("unexpected traced run differs: {line} / {traced}");
            }
            let doc = doc_column(&line, &t, || {
                if extended {
                    all_bytes(extended_rbsp_bytes(&nal))
                } else {
                    all_bytes(nal.rbsp_bytes())
                }
            });
            let mut out = line;
            if trace {
                if out.starts_with("slice") {
                    for (i, f) in t.flags.iter().enumerate() {
                        write!(out, " ref_pic_list_modification_flag_l{i}={}", b(*f)).unwrap();
                    }
                    write!(out, " bits={}", t.pos).unwrap();
                } else if out.starts_with("refused") {
                    let place = match &out[8..10] {
                        "13" | "22" => t.pos,
                        _ => t.start,
                    };
                    write!(out, " bit={place}").unwrap();
                }
            }
            push_doc(&mut out, doc, trace);
            out
        }
        UnitType::PrefixNALUnit => {
            let line = caught(&mut || prefix_words(hdr, &PrefixNalUnit::from_nal(&nal)));
            let mut out = line;
            if let Ok((NalHeaderExtension::Svc(_), bytes)) = parse_nal_header_extension(&nal) {
                if hdr.nal_ref_idc() != 0 {
                    let mut t = Tracer::new(BitReader::new(bytes), false);
                    let _ = shadow_prefix(&mut t);
                    let doc = doc_column(&out, &t, || all_bytes(extended_rbsp_bytes(&nal)));
                    if trace && out.starts_with("refused") {
                        write!(out, " bit={}", t.start).unwrap();
                    }
                    push_doc(&mut out, doc, trace);
                }
            }
            out
        }
        UnitType::SeqParameterSet | UnitType::PicParameterSet => {
            set_line(broad, unit, all_bytes(nal.rbsp_bytes()), trace)
        }
        _ => format!("other type={}", ty.id()),
    }
}
