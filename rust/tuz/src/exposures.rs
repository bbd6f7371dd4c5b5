//! `tuz exposures`: a line for each picture, as a stacker weighs it.

use crate::band::Band;
use crate::form::Format;
use crate::input::{Clip, Each, Framing, Passed};
use crate::output::{Output, Stdout};
use crate::sets::Sets;
use crate::totals::Totals;
use crate::units::tell_missing;
use crate::Ending;
use anyhow::Result;
use std::fmt::Write;
use std::path::Path;
use tuzmarghil::{Exposure, Stacker, StreamReport};

const COLUMNS: &str =
    "number,place,slices,qp_least,qp_mean,qp_greatest,frame_num,gap,refused_before\n";

/// Runs it; the exit status.
pub fn run(
    clip: &Clip,
    framing: Framing,
    format: Format,
    plot: Option<&Path>,
    ending: &Ending,
    out: &mut Stdout,
) -> Result<u8> {
    let table = clip.table()?;
    let recording = clip.open_by(framing)?;
    let plot = Output::open(&clip.inputs(), &[plot])?.pop().flatten();
    let mut pictures = Pictures {
        name: clip.name(),
        format,
        strict: ending.strict,
        sets: Sets::new(clip.name(), table.clone()),
        // standard output holds one thing
        lines: !plot.as_ref().map_or(false, Output::is_stdout),
        begun: false,
        line: String::new(),
        totals: Totals::default(),
        stacker: Stacker::default(),
        band: plot.is_some().then(Band::default),
        plot,
        out,
    };
    let passed = recording.units(table, ending.quiet, &mut pictures, Pictures::take)?;
    if !pictures.wanted() {
        return Ok(0);
    }
    pictures.end(&passed, ending.quiet)
}

struct Pictures<'a> {
    name: String,
    format: Format,
    strict: bool,
    sets: Sets,
    /// Whether exposures are told on standard output.
    lines: bool,
    begun: bool,
    line: String,
    totals: Totals,
    stacker: Stacker,
    band: Option<Band>,
    plot: Option<Output>,
    out: &'a mut Stdout,
}

impl Each for Pictures<'_> {
    fn out(&mut self) -> &mut Stdout {
        self.out
    }

    fn strict(&self) -> bool {
        self.strict
    }

    fn files(&self) -> bool {
        self.plot.as_ref().map_or(false, |to| !to.is_stdout())
    }
}

impl Pictures<'_> {
    fn take(&mut self, r: &StreamReport<'_>) -> Result<()> {
        self.begin()?;
        self.totals.take(r);
        self.sets.take(r);
        tell_missing(&self.name, &self.totals, r.place, r.raw().0);
        match self.stacker.take(r) {
            None => Ok(()),
            Some(exposure) => self.tell(&exposure),
        }
    }

    /// The columns' names, once there is anything to tell.
    fn begin(&mut self) -> Result<()> {
        let begun = std::mem::replace(&mut self.begun, true);
        if !begun && self.lines && self.format == Format::Csv {
            self.out.write(COLUMNS.as_bytes())?;
        }
        Ok(())
    }

    /// An exposure's line, object or row.
    fn tell(&mut self, e: &Exposure) -> Result<()> {
        if let Some(band) = &mut self.band {
            band.take(e);
        }
        if !self.lines {
            return Ok(());
        }
        let mean = format!("{:.2}", e.qp_mean);
        let cells: [&dyn std::fmt::Display; 9] = [
            &e.number,
            &e.place,
            &e.slices,
            &e.qp_least,
            &mean,
            &e.qp_greatest,
            &e.frame_num,
            &u8::from(e.gap),
            &e.refused_before,
        ];
        let (before, around, between, after) = match self.format {
            Format::Text => ("exposure ", ("", "="), " ", "\n"),
            Format::Json => ("{", ("\"", "\":"), ",", "}\n"),
            Format::Csv => ("", ("", ""), ",", "\n"),
        };
        self.line.clear();
        self.line.push_str(before);
        for (k, (name, cell)) in COLUMNS.trim_end().split(',').zip(cells).enumerate() {
            let between = if k == 0 { "" } else { between };
            let name = if self.format == Format::Csv { "" } else { name };
            let _ = write!(self.line, "{between}{}{name}{}{cell}", around.0, around.1);
        }
        self.line.push_str(after);
        self.out.write(self.line.as_bytes())
    }

    /// All units were taken: the last exposure, the file, the totals.
    fn end(mut self, passed: &Passed, quiet: bool) -> Result<u8> {
        self.begin()?;
        let broken = passed.tell_broken(&self.name, None)?;
        if let Some(last) = self.stacker.finish() {
            self.tell(&last)?;
        }
        let t = self.stacker.totals();
        if let (Some(band), Some(plot)) = (&self.band, &mut self.plot) {
            plot.write(band.svg(&self.name, &t).as_bytes(), self.out)?;
        }
        if let Some(file) = self.plot.take() {
            file.finish()?;
        }
        self.out.finish()?;
        self.sets.end();
        if !quiet {
            eprintln!(
                "{}: {} exposures, {} gaps, {} refused, {} redundant, {} views",
                self.name, t.exposures, t.gaps, t.refused, t.redundant, t.views
            );
        }
        Ok(u8::from(self.strict && (t.refused > 0 || broken)))
    }
}
