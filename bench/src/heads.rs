//! Slice headers alone, from many small units whose ends are known: no search for start codes.

use std::hint::black_box;

use crate::bars::Bars;
use crate::ours;
use crate::peers::Span;
use crate::race::{print, race, Lane};
use crate::recording::Recording;
use crate::{Measure, Peers};

/// Units are cut here: all of the header, and next to nothing of the body.
pub const LONGEST: usize = 60;

pub fn measure(made: &Recording, peers: &Peers, measure: &Measure, bars: &mut Bars) {
    // each after a start code, which GStreamer looks at
    let (mut bytes, mut places) = (Vec::new(), Vec::new());
    for unit in made.slices().cycle().take(measure.size / 3_200) {
        let unit = &unit[..unit.len().min(LONGEST)];
        bytes.extend_from_slice(&[0, 0, 1]);
        places.push((bytes.len(), unit.len()));
        bytes.extend_from_slice(unit);
    }
    let units: Vec<&[u8]> = places.iter().map(|&(p, n)| &bytes[p..p + n]).collect();
    let spans: Vec<Span> = units.iter().map(|unit| Span::new(unit)).collect();
    let want = ours::heads(&made.table, &units)();
    assert_eq!(want.slices, units.len() as u64, "headers were refused");

    let read = ours::heads(&made.table, &units);
    let mut lanes = vec![Lane::new("ours", want, read)];
    for (name, peer) in &peers.h264_reader {
        lanes.push(Lane::new(name, want, peer.open(&made.sets).heads(&spans)));
    }
    if let Some(peer) = &peers.gstreamer {
        let read = peer.open(&made.sets).heads(&spans);
        lanes.push(Lane::new("GStreamer", want, read));
    }
    race(&mut lanes, measure.rounds);
    println!(
        "\nheaders alone, of {}: {} units of {} bytes on the average",
        made.name,
        want.units,
        want.lengths / want.units
    );
    print(&lanes, want.units, "header", None);
    for (lane, (name, _)) in lanes[1..].iter().zip(&peers.h264_reader) {
        let text = format!("headers of {}, over {name}", made.name);
        let bar = if made.name == "small" { 2.2 } else { 2.0 };
        bars.over_build(&text, name, lane.best / lanes[0].best, bar);
    }
}

/// The generated units by a table whose picture set has slice groups: 4 bits of slice_group_change_cycle behind the rest of each header. The table has their width;
/// the last lane works it out for each header too, as readers do that do not keep it.
pub fn groups(measure: &Measure) {
    let made = Recording::generated("headers", LONGEST);
    let groups = Recording::with_slice_groups();
    let units: Vec<&[u8]> = made.slices().cycle().take(measure.size / 3_200).collect();
    let want = ours::heads(&made.table, &units)();
    assert_eq!(want.slices, units.len() as u64, "headers were refused");

    let mut read = ours::heads(&groups, &units);
    let worked = || {
        for _ in &units {
            black_box(change_cycle_width(black_box(99), black_box(11)));
        }
        read()
    };
    let mut lanes = [
        Lane::new("slice groups", want, ours::heads(&groups, &units)),
        Lane::new("no slice groups", want, ours::heads(&made.table, &units)),
        Lane::new("slice groups, each width worked out", want, worked),
    ];
    race(&mut lanes, measure.rounds);
    println!("\nheaders with and without slice_group_change_cycle");
    print(&lanes, want.units, "header", None);
}

/// The binary digits of size ÷ rate, rounded up.
fn change_cycle_width(size: u64, rate: u64) -> u32 {
    u64::BITS - size.div_ceil(rate).leading_zeros()
}
