//! Whether the walk's cost grows as the recording does.

use crate::bars::Bars;
use crate::ours;
use crate::race::{race, Lane};
use crate::recording::Recording;
use crate::Measure;
use tuzmarghil::raw;

/// More than the caches hold.
const MEMORY: usize = 64_000_000;

/// Copies of a recording that fill this memory, walked one after the other: so a short recording stands in a cache no more than a long one does.
fn copies(recording: &Recording) -> Vec<Vec<u8>> {
    vec![recording.bytes.clone(); MEMORY.div_ceil(recording.bytes.len())]
}

pub fn measure(made: &Recording, measure: &Measure, bars: &mut Bars) {
    let mut size = 1_000_000;
    let mut recordings = Vec::new();
    while size <= measure.longest {
        let recording = made.sized(size);
        let copies = copies(&recording);
        recordings.push((recording, copies));
        size *= 4;
    }
    let mut lanes = Vec::new();
    for (recording, copies) in &recordings {
        let want = (copies.len() * recording.units.len()) as u64;
        let bytes = copies.iter().map(|copy| &copy[..]).collect();
        let mut walk = ours::walk_all(raw::walk, &recording.table, bytes, recording.longest());
        lanes.push(Lane::new("ours", want, move || walk().units));
    }
    race(&mut lanes, measure.rounds);
    println!("\ncost by length, {}", made.name);
    let mut costs = Vec::new();
    for ((recording, copies), lane) in recordings.iter().zip(&lanes) {
        let bytes = recording.bytes.len();
        let cost = lane.best / (copies.len() * bytes) as f64;
        println!("  {:7.1} MB {cost:.4} ns a byte", bytes as f64 / 1e6);
        costs.push(cost);
    }
    let least = costs.iter().copied().fold(f64::MAX, f64::min);
    let most = costs.iter().copied().fold(0.0, f64::max);
    let name = format!("{}, greatest departure from linear in percent", made.name);
    bars.at_most(&name, 100.0 * (most / least - 1.0), 10.0);
}
