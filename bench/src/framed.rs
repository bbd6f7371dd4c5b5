//! Recordings framed by length: converted there and back, beside memcpy of the same bytes; and walked over, beside the search for start codes.

use std::hint::black_box;

use tuzmarghil::raw;

use crate::bars::Bars;
use crate::ours;
use crate::race::{print, race, Lane};
use crate::recording::Recording;
use crate::Measure;

pub fn convert(made: &Recording, measure: &Measure, bars: &mut Bars) {
    let recording = made.sized(measure.size);
    let coded = &recording.bytes[..];
    let framed = tuzmarghil::to_lengths(coded).unwrap();
    let (units, bytes) = (recording.units.len(), framed.len());
    // output long enough for every result of a recording with start codes
    let [mut first, mut second, mut third] = [0; 3].map(|_| vec![0; coded.len() / 3 * 4 + 2]);
    let mut lanes = [
        Lane::new("floor: memcpy", bytes, || {
            first[..bytes].copy_from_slice(black_box(&framed));
            black_box(&first);
            bytes
        }),
        Lane::new("to start codes", bytes, || {
            raw::to_start_codes(&framed, &mut second).bytes
        }),
        Lane::new("to lengths", bytes, || {
            raw::to_lengths(coded, &mut third).bytes
        }),
    ];
    race(&mut lanes, measure.rounds);
    println!(
        "\n{} converted: {:.1} MB, {units} units",
        made.name,
        bytes as f64 / 1e6
    );
    print(&lanes, units as u64, "unit", Some(bytes));
    for lane in &lanes[1..] {
        let text = format!("{}, {}, of memcpy's speed", made.name, lane.name);
        bars.at_least(&text, lanes[0].best / lane.best, 0.5);
    }
    drop(lanes);
    assert_eq!(third[..bytes], framed);
    assert_eq!(tuzmarghil::to_lengths(&second[..bytes]).unwrap(), framed);
}

pub fn walk(made: &Recording, measure: &Measure, bars: &mut Bars) {
    let recording = made.sized(measure.size);
    let framed = tuzmarghil::to_lengths(&recording.bytes).unwrap();
    let (table, units) = (&recording.table, recording.units.len() as u64);
    let want = ours::headers_walk(table, &recording.bytes)();
    let mut lanes = [
        Lane::new("by length", want, ours::framed_walk(table, &framed)),
        Lane::new(
            "by search",
            want,
            ours::headers_walk(table, &recording.bytes),
        ),
    ];
    race(&mut lanes, measure.rounds);
    println!("\n{} walked over, headers alone: {units} units", made.name);
    print(&lanes, units, "unit", Some(framed.len()));
    if made.name == "large" {
        let got = lanes[1].best / lanes[0].best;
        bars.at_least("large, walked by length, over the search", got, 10.0);
    }
}
