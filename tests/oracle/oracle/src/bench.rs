//! Times of the Rust over a recording.
use crate::table::put;
use h264_reader::nal::slice::SliceHeader;
use h264_reader::nal::{parse_nal_header_extension, Nal, RefNal, UnitType};
use h264_reader::rbsp::BitReader;
use h264_reader::Context;
use std::time::{Duration, Instant};

/// Units of an Annex B recording: after each 00 00 01, up to the next 00 00 00 / 00 00 01 or the end.
pub fn split<'a>(data: &'a [u8], finder: &memchr::memmem::Finder<'_>, units: &mut Vec<&'a [u8]>) {
    units.clear();
    let Some(first) = finder.find(data) else { return };
    let mut at = first + 3;
    loop {
        let next = finder.find(&data[at..]).map(|n| at + n);
        let mut end = next.unwrap_or(data.len());
        while end > at && data[end - 1] == 0 {
            end -= 1;
        }
        units.push(&data[at..end]);
        match next {
            Some(n) => at = n + 3,
            None => return,
        }
    }
}

/// Returns (slices, refused, a number that depends on the answers).
pub fn parse_all(ctx: &mut Context, aux: &mut Context, units: &[&[u8]]) -> (u64, u64, u64) {
    let (mut n, mut bad, mut sum) = (0, 0, 0u64);
    for u in units {
        if u.is_empty() {
            continue;
        }
        let nal = RefNal::new(u, &[], true);
        let Ok(hdr) = nal.header() else { continue };
        let r = match hdr.nal_unit_type() {
            UnitType::SliceLayerWithoutPartitioningNonIdr | UnitType::SliceLayerWithoutPartitioningIdr => {
                SliceHeader::from_bits(ctx, &mut nal.rbsp_bits(), hdr, None)
            }
            UnitType::SliceExtension | UnitType::SliceExtensionViewComponent => {
                let Ok((ext, bytes)) = parse_nal_header_extension(&nal) else {
                    continue;
                };
                SliceHeader::from_bits(ctx, &mut BitReader::new(bytes), hdr, Some(&ext))
            }
            UnitType::SeqParameterSet | UnitType::PicParameterSet => {
                let _ = put(ctx, aux, false, u);
                continue;
            }
            _ => continue,
        };
        n += 1;
        match r {
            Ok((h, _, _)) => sum = sum.wrapping_add(u64::from(h.frame_num) + u64::from(h.first_mb_in_slice)),
            Err(_) => bad += 1,
        }
    }
    (n, bad, sum)
}

pub fn bench(path: &str, rounds: u32) {
    let data = std::fs::read(path).unwrap();
    let finder = memchr::memmem::Finder::new(b"\x00\x00\x01");
    let mut units = vec![];
    let (mut t_split, mut t_parse, mut t_both) = (vec![], vec![], vec![]);
    let mut got = (0, 0, 0);
    for _ in 0..rounds {
        let (mut ctx, mut aux) = (Context::new(), Context::new());
        let t0 = Instant::now();
        split(&data, &finder, &mut units);
        let t1 = Instant::now();
        got = parse_all(&mut ctx, &mut aux, &units);
        let t2 = Instant::now();
        t_split.push(t1 - t0);
        t_parse.push(t2 - t1);
        t_both.push(t2 - t0);
    }
    let mid = |v: &mut Vec<Duration>| {
        v.sort();
        (v[v.len() / 2].as_secs_f64(), v[0].as_secs_f64())
    };
    let mb = data.len() as f64 / 1e6;
    println!(
        "bytes={} units={} slices={} refused={} rounds={} checksum={}",
        data.len(),
        units.len(),
        got.0,
        got.1,
        rounds,
        got.2
    );
    for (name, v) in [("split", &mut t_split), ("parse", &mut t_parse), ("both", &mut t_both)] {
        let (m, least) = mid(v);
        println!(
            "{name}: median {:.3} ms, least {:.3} ms; {:.1} ns/slice (least {:.1}); {:.1} MB/s (most {:.1})",
            m * 1e3,
            least * 1e3,
            m * 1e9 / got.0.max(1) as f64,
            least * 1e9 / got.0.max(1) as f64,
            mb / m,
            mb / least
        );
    }
}
