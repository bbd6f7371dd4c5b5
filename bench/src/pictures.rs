//! What taking slices for exposures costs above reading them.

use crate::bars::Bars;
use crate::heads::LONGEST;
use crate::ours;
use crate::race::{print, race, Lane};
use crate::recording::Recording;
use crate::Measure;

pub fn measure(made: &Recording, measure: &Measure, bars: &mut Bars) {
    let slices = made.slices().map(|unit| &unit[..unit.len().min(LONGEST)]);
    let units: Vec<&[u8]> = slices.cycle().take(measure.size / 3_200).collect();
    let want = ours::heads(&made.table, &units)();
    assert_eq!(want.slices, units.len() as u64, "headers were refused");
    let pictures = ours::taken(&made.table, &units)().1;
    let mut read = ours::heads(&made.table, &units);
    let mut lanes = [
        Lane::new("ours, read and taken", (want, pictures), {
            ours::taken(&made.table, &units)
        }),
        Lane::new("ours, read", (want, pictures), || (read(), pictures)),
    ];
    race(&mut lanes, measure.rounds);
    println!(
        "\nexposures of {}: {} slices in {pictures} pictures",
        made.name, want.slices
    );
    print(&lanes, want.slices, "slice", None);
    let more = (lanes[0].best - lanes[1].best) / want.slices as f64;
    let text = format!("a slice of {} taken for exposures, ns", made.name);
    bars.at_most(&text, more, 30.0);
}
