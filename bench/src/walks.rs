//! Walks over a recording: ours, the peers', and the floor, which is what reading or copying every byte takes.

use std::hint::black_box;

use crate::bars::Bars;
use crate::ours;
use crate::peers::{Found, Job};
use crate::race::{print, race, Lane};
use crate::recording::Recording;
use crate::{Measure, Peers};

const MOST_UNITS: usize = 100_000;
const HEADERS: &str = "ours, headers alone";

fn read(bytes: &[u8]) -> u64 {
    bytes.chunks_exact(8).fold(0, |sum, eight| {
        sum.wrapping_add(u64::from_ne_bytes(eight.try_into().unwrap()))
    })
}

/// The lanes of a recording. Each has to find the same; where it unescapes bodies and says how long they are, those too.
fn lanes<'a>(
    recording: &'a Recording,
    peers: &'a Peers,
    copy: &'a mut [u8],
) -> Vec<Lane<'a, Found>> {
    let (bytes, longest) = (&recording.bytes[..], recording.longest());
    let bodies = ours::compared(&recording.table, bytes, &recording.units);
    let want = ours::walk(&recording.table, bytes, longest)();
    let slices = recording.slices().count() as u64;
    assert_eq!(want.slices, slices, "slices of {}", recording.name);
    let whole = Found { bodies, ..want };
    let nothing = Found::default();

    let walk = ours::walk(&recording.table, bytes, longest);
    let headers = ours::headers_walk(&recording.table, bytes);
    let mut lanes = vec![
        Lane::new("ours", want, walk),
        Lane::new(HEADERS, want, headers),
    ];
    let kinds = Found {
        units: want.units,
        lengths: want.lengths,
        ..nothing
    };
    lanes.push(Lane::new("kinds alone", kinds, ours::kinds(bytes)));
    for (name, peer) in &peers.h264_reader {
        let open = peer.open(&recording.sets);
        for (job, text, want) in [
            (Job::HeaderThenBody, "same job, body last", whole),
            (Job::BodyThenHeader, "same job, body first", whole),
            (Job::Lazy, "lazily", want),
        ] {
            let walk = open.walk(bytes, job);
            lanes.push(Lane::new(format!("{name}: {text}"), want, walk));
        }
    }
    if let Some(peer) = &peers.gstreamer {
        let walk = peer.open(&recording.sets).walk(bytes, Job::Lazy);
        lanes.push(Lane::new("GStreamer: lazily", want, walk));
    }
    lanes.push(Lane::new("floor: every byte read", nothing, move || {
        black_box(read(black_box(bytes)));
        nothing
    }));
    lanes.push(Lane::new("floor: memcpy", nothing, move || {
        copy.copy_from_slice(black_box(bytes));
        black_box(&copy);
        nothing
    }));
    lanes
}

pub fn measure(made: &Recording, peers: &Peers, measure: &Measure, bars: &mut Bars) {
    // enough units for the clock, and no more
    let size = made.bytes.len() * MOST_UNITS / made.units.len();
    let recording = made.sized(measure.size.min(size));
    let bytes = recording.bytes.len();
    let mut copy = vec![0; bytes];
    let mut lanes = lanes(&recording, peers, &mut copy);
    race(&mut lanes, measure.rounds);

    let (units, slices) = (recording.units.len(), recording.slices().count());
    println!(
        "\n{}: {:.1} MB, {units} units, {slices} slices of {} bytes on the average",
        made.name,
        bytes as f64 / 1e6,
        recording.slices().map(<[u8]>::len).sum::<usize>() / slices
    );
    print(&lanes, units as u64, "unit", Some(bytes));
    bar(made.name, &lanes, peers, bars);
}

/// The least of the times of lanes whose names begin with one word, over that of a lane.
fn ratio(lanes: &[Lane<Found>], begin: &str, of: &str) -> f64 {
    let own = lanes.iter().find(|l| l.name == of).map_or(0.0, |l| l.best);
    let times = lanes.iter().filter(|l| l.name.starts_with(begin));
    times.map(|l| l.best / own).fold(f64::MAX, f64::min)
}

fn bar(name: &str, lanes: &[Lane<Found>], peers: &Peers, bars: &mut Bars) {
    // of headers alone over h264-reader, lazily, and over GStreamer
    let (lazily, gstreamer) = match name {
        "small" => (1.5, None),
        "large" => (1.0, Some(2.5)),
        "zeros" => (0.7, Some(2.0)),
        _ => (1.5, None),
    };
    for (build, _) in &peers.h264_reader {
        let text = format!("{name}, headers alone, over {build}, lazily");
        let got = ratio(lanes, &format!("{build}: lazily"), HEADERS);
        if matches!(name, "small" | "large") {
            bars.at_least(&text, got, lazily);
        } else {
            bars.over_build(&text, build, got, lazily);
        }
        if name == "large" {
            bars.goal(&text, got, 1.2);
        }
        if name == "small" {
            let text = format!("{name}, over {build}, same job");
            let got = ratio(lanes, &format!("{build}: same job"), "ours");
            bars.over_build(&text, build, got, 1.2);
        }
    }
    if let (Some(bar), Some(_)) = (gstreamer, &peers.gstreamer) {
        let text = format!("{name}, headers alone, over GStreamer");
        bars.at_least(&text, ratio(lanes, "GStreamer", HEADERS), bar);
    }
    if name == "large" {
        let text = format!("{name}, of memcpy's speed");
        let got = ratio(lanes, "floor: memcpy", "ours");
        bars.at_least(&text, got, 0.85);
        bars.goal(&text, got, 0.92);
    }
}
