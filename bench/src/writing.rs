//! Writing headers: against reading them, and reading and writing a recording of small units against ffmpeg's filter.

use std::hint::black_box;

use crate::bars::Bars;
use crate::heads::LONGEST;
use crate::ours;
use crate::peers::Span;
use crate::race::{print, race, Lane};
use crate::recording::Recording;
use crate::{Measure, Peers};

/// A few headers, over and over: their words have some 5,000 bytes each, and a recording's would not fit the cache.
const HEADERS: usize = 64;

pub fn headers(made: &Recording, measure: &Measure, bars: &mut Bars) {
    let heads = made.slices().map(|unit| &unit[..unit.len().min(LONGEST)]);
    let units: Vec<&[u8]> = heads.take(HEADERS).collect();
    let headers = ours::headers(&made.table, &units);
    let (times, bits) = (measure.size / 320_000, ours::bits(&headers));
    let mut read = ours::heads(&made.table, &units);
    let mut write = ours::write(&made.table, &headers);
    let mut lanes = [
        Lane::new("ours, written", times * bits, || {
            (0..times).map(|_| write()).sum::<usize>()
        }),
        Lane::new("ours, read", times * bits, || {
            for _ in 0..times {
                black_box(read());
            }
            times * bits
        }),
    ];
    race(&mut lanes, measure.rounds);
    println!(
        "\nheaders of {}, {:.1} bytes on the average",
        made.name,
        bits as f64 / 8.0 / headers.len() as f64
    );
    print(&lanes, (times * headers.len()) as u64, "header", None);
    let text = format!("a header of {} written, in readings of it", made.name);
    bars.at_most(&text, lanes[0].best / lanes[1].best, 2.5);
}

/// Units in a packet that goes to ffmpeg: the slices of a picture.
const TOGETHER: usize = 12;

pub fn recording(made: &Recording, peers: &Peers, measure: &Measure, bars: &mut Bars) {
    let recording = made.sized(measure.size / 16);
    let (bytes, longest) = (&recording.bytes[..], recording.longest());
    let mut ours = ours::rewrite(&recording.table, bytes, longest);
    let (want, bits) = ours();
    let mut lanes = vec![Lane::new("ours: read, header written", bits, || ours().1)];
    if let Some(peer) = &peers.ffmpeg {
        let runs: Vec<Span> = recording
            .units
            .chunks(TOGETHER)
            .map(|run| {
                let (last, length) = run[run.len() - 1];
                Span::new(&bytes[run[0].0 - 3..last + length])
            })
            .collect();
        let mut rewrite = peer.open(&recording.sets).rewrite(&runs);
        // once with all that it writes kept: our walk finds the same slices in it
        let mut out = vec![0; 2 * bytes.len()];
        let written = rewrite(&mut out);
        let mut found = ours::walk(&recording.table, &out[..written], 2 * longest)();
        found.lengths = want.lengths;
        assert_eq!(found, want, "what ffmpeg wrote reads otherwise");
        let name = "ffmpeg's h264_metadata: read, unit written";
        lanes.push(Lane::new(name, written, move || rewrite(&mut [])));
    }
    race(&mut lanes, measure.rounds);
    println!(
        "\nread and written, {}: {:.1} MB",
        made.name,
        bytes.len() as f64 / 1e6
    );
    print(&lanes, want.units, "unit", None);
    for lane in &lanes[1..] {
        let text = format!("{} read and written, over ffmpeg", made.name);
        bars.at_least(&text, lane.best / lanes[0].best, 2.0);
    }
}
