//! The benchmark: our walk, our header reading and writing against peers and against what the machine can do, on the same recordings in one process.
//! Processor time, best of several rounds, contenders taking turns. It fails where contenders disagree on what they found, and where a bar does not hold.
//!
//!     bench FOLDER [--quick] [--only NAME]..
//!
//! FOLDER is where `run` puts recordings and peers.

use std::path::{Path, PathBuf};

use crate::bars::Bars;
use crate::peers::Peer;
use crate::recording::Recording;

mod bars;
mod codes;
mod cpu;
mod framed;
mod heads;
mod linear;
mod ours;
mod peers;
mod pictures;
mod race;
mod random;
mod recording;
mod sets;
mod walks;
mod writing;

const PARTS: [&str; 8] = [
    "walk",
    "heads",
    "exposures",
    "writing",
    "framed",
    "linear",
    "codes",
    "sets",
];

/// How much is measured.
pub struct Measure {
    /// Bytes of a recording.
    pub size: usize,
    pub rounds: u32,
    /// The longest recording that linearity is measured on.
    pub longest: usize,
}

/// The peers that are at hand.
pub struct Peers {
    /// Its builds, each with its name: as the oracle is built, and with the newest memchr.
    pub h264_reader: Vec<(String, Peer)>,
    pub gstreamer: Option<Peer>,
    pub ffmpeg: Option<Peer>,
}

fn peer(folder: &Path, name: &str, title: &str) -> Option<Peer> {
    match Peer::load(&folder.join("peers"), name) {
        Ok(peer) => Some(peer),
        Err(why) => {
            println!("{title}: skipped ({why})");
            None
        }
    }
}

/// A recording by x264, or one that is generated.
fn recording(folder: &Path, name: &'static str, length: usize) -> Recording {
    Recording::load(&folder.join("recordings"), name).unwrap_or_else(|| {
        println!("{name}: no recording by x264 at hand, generated instead: one header, random bytes without a zero");
        Recording::generated(name, length)
    })
}

fn main() {
    let mut words = std::env::args().skip(1);
    let folder = PathBuf::from(words.next().expect("bench/run starts this program"));
    let (mut quick, mut only) = (false, Vec::new());
    while let Some(word) = words.next() {
        match word.as_str() {
            "--quick" => quick = true,
            _ => only.extend(words.next()),
        }
    }
    if let Some(name) = only.iter().find(|name| !PARTS.contains(&name.as_str())) {
        eprintln!("bench: there is no part {name}: {}", PARTS.join(", "));
        std::process::exit(2);
    }
    let asked = |name: &str| only.is_empty() || only.iter().any(|o| o == name);
    let measure = if quick {
        Measure {
            size: 8_000_000,
            rounds: 5,
            longest: 16_000_000,
        }
    } else {
        Measure {
            size: 64_000_000,
            rounds: 11,
            longest: 256_000_000,
        }
    };
    let peers = Peers {
        h264_reader: ["h264-reader", "h264-reader+"]
            .into_iter()
            .filter_map(|name| Some((name.to_string(), peer(&folder, name, name)?)))
            .collect(),
        gstreamer: peer(&folder, "gstreamer", "GStreamer"),
        ffmpeg: peer(&folder, "ffmpeg", "ffmpeg's h264_metadata"),
    };
    let small = recording(&folder, "small", 1_400);
    let large = recording(&folder, "large", 100_000);
    let tiny = recording(&folder, "tiny", 20);
    let mut bars = Bars::default();
    if asked("walk") {
        for made in [&small, &large, &small.zero_heavy(), &tiny] {
            walks::measure(made, &peers, &measure, &mut bars);
        }
    }
    if asked("heads") {
        for made in [&small, &tiny] {
            heads::measure(made, &peers, &measure, &mut bars);
        }
        heads::groups(&measure);
    }
    if asked("exposures") {
        for made in [&small, &tiny] {
            pictures::measure(made, &measure, &mut bars);
        }
    }
    if asked("writing") {
        writing::headers(&small, &measure, &mut bars);
        writing::recording(&tiny, &peers, &measure, &mut bars);
    }
    if asked("framed") {
        for made in [&small, &large] {
            framed::convert(made, &measure, &mut bars);
            framed::walk(made, &measure, &mut bars);
        }
    }
    if asked("linear") {
        for made in [&small, &large] {
            linear::measure(made, &measure, &mut bars);
        }
    }
    if asked("codes") {
        bars.at_most("codes, of plain Rust by windows", codes::measure(), 1.3);
    }
    if asked("sets") {
        bars.at_most("a look-up of a picture set, ns", sets::lookup(), 10.0);
        let name = "a put of a sequence set that 256 picture sets name, ns";
        bars.at_most(name, sets::put(), 2_000.0);
        for (name, unit) in sets::units() {
            bars.at_most(&format!("{name}, read, ns"), sets::read(unit), 2_000.0);
        }
        let took = sets::read(&sets::scaled());
        println!("\na sequence set with 480 entries of scaling lists, read: {took:.0} ns");
    }
    std::process::exit(if bars.print() { 0 } else { 1 });
}
