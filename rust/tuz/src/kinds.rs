//! `tuz kinds`: what the first bytes of each unit say, without its body.

use crate::answer::{self, KINDS};
use crate::form::{self, Format};
use crate::input::{Clip, Each, Framing, Passed};
use crate::output::Stdout;
use crate::Ending;
use anyhow::Result;
use std::fmt::Write;
use tuzmarghil::raw;
use tuzmarghil::StreamHead;

/// Runs it; the exit status.
pub fn run(
    clip: &Clip,
    framing: Framing,
    format: Format,
    ending: &Ending,
    out: &mut Stdout,
) -> Result<u8> {
    let recording = clip.open_by(framing)?;
    let mut kinds = Kinds {
        format,
        strict: ending.strict,
        terminal: console::user_attended(),
        begun: false,
        line: Vec::new(),
        units: 0,
        types: [0; 32],
        refused: 0,
        within: 0,
        out,
    };
    let passed = recording.heads(ending.quiet, &mut kinds, Kinds::take)?;
    if !kinds.wanted() {
        return Ok(0);
    }
    let name = clip.name();
    kinds.end(&name, &passed)?;
    if !ending.quiet {
        eprintln!("{name}: {}", kinds.told(passed.bytes));
    }
    Ok(u8::from(ending.strict && kinds.refused > 0))
}

struct Kinds<'a> {
    format: Format,
    strict: bool,
    terminal: bool,
    begun: bool,
    line: Vec<u8>,
    /// How many units there are, how many have each type, how many are refused, and how many bytes they all have.
    units: u64,
    types: [u64; 32],
    refused: u64,
    within: u64,
    out: &'a mut Stdout,
}

impl Each for Kinds<'_> {
    fn out(&mut self) -> &mut Stdout {
        self.out
    }

    fn strict(&self) -> bool {
        self.strict
    }
}

impl Kinds<'_> {
    fn take(&mut self, unit: &StreamHead<'_>) -> Result<()> {
        self.begin()?;
        let (out, place, length) = (unit.raw(), unit.place as i64, unit.length as i64);
        self.units += 1;
        self.within += unit.length;
        match out.number {
            0 => self.types[usize::from(out.head.nal_unit_type)] += 1,
            _ => self.refused += 1,
        }
        let line = &mut self.line;
        line.clear();
        match self.format {
            Format::Text => {
                let mut text = [0; 128];
                let (place, length) = (unit.place as usize, unit.length as usize);
                line.extend_from_slice(raw::head_line(&mut text, place, length, out));
                if let (true, Err(why)) = (self.terminal, unit.head()) {
                    line.pop();
                    line.extend_from_slice(b": ");
                    line.extend_from_slice(why.reason().as_bytes());
                    line.push(b'\n');
                }
            }
            Format::Json => form::json(line, place, length, |form| answer::head(unit.head(), form)),
            Format::Csv => form::row(line, &KINDS, place, length, |form| {
                answer::head(unit.head(), form)
            }),
        }
        self.out.write(&self.line)
    }

    /// The columns' names, once there is anything to tell.
    fn begin(&mut self) -> Result<()> {
        let begun = std::mem::replace(&mut self.begun, true);
        if !begun && self.format == Format::Csv {
            self.out.write(form::head(&KINDS).as_bytes())?;
        }
        Ok(())
    }

    /// All units were told.
    fn end(&mut self, name: &str, passed: &Passed) -> Result<()> {
        self.begin()?;
        let text = self.format == Format::Text;
        let broken = passed.tell_broken(name, text.then_some(&mut *self.out))?;
        self.refused += u64::from(broken);
        if text {
            let mut line = [0; 128];
            let (units, refused) = (self.units as usize, self.refused as usize);
            self.out.write(raw::end_line(&mut line, units, refused))?;
        }
        self.out.finish()
    }

    /// The totals in words, over a recording of so many bytes.
    fn told(&self, bytes: u64) -> String {
        let (units, outside) = (self.units, bytes.saturating_sub(self.within));
        let mut told = format!("{bytes} bytes, {outside} of them in no unit; {units} units: ");
        for (id, count) in self.types.iter().enumerate().filter(|(_, n)| **n > 0) {
            let _ = write!(told, "{count} of type {id}, ");
        }
        told + &format!("{} refused", self.refused)
    }
}
