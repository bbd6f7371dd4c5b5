//! `tuz list`, `tuz headers` and `tuz qp`: each unit of a recording, in one of three forms.

use crate::answer::{self, number, Form, Slice, LIST, NAMES, QP};
use crate::form::{self, Format, Text};
use crate::input::{Clip, Each, Framing, Passed};
use crate::output::{Output, Stdout};
use crate::plot::Course;
use crate::sets::Sets;
use crate::totals::{Quantisers, Totals};
use crate::Ending;
use anyhow::Result;
use std::path::Path;
use tuzmarghil::raw::{self, ReadOut};
use tuzmarghil::StreamReport;

/// Which command it is.
#[derive(Clone, Copy, PartialEq, Eq)]
pub enum Kind {
    List,
    Headers,
    Qp,
}

/// What is asked for.
pub struct Asked<'a> {
    pub kind: Kind,
    pub clip: &'a Clip,
    pub framing: Framing,
    pub format: Format,
    pub csv: Option<&'a Path>,
    pub plot: Option<&'a Path>,
    pub ending: &'a Ending,
}

/// Runs it; the exit status.
pub fn run(asked: &Asked<'_>, out: &mut Stdout) -> Result<u8> {
    let (clip, ending) = (asked.clip, asked.ending);
    let table = clip.table()?;
    let recording = clip.open_by(asked.framing)?;
    let mut outputs = Output::open(&clip.inputs(), &[asked.csv, asked.plot])?;
    let (plot, csv) = (outputs.pop().flatten(), outputs.pop().flatten());
    let to_stdout = |output: &Option<Output>| output.as_ref().map_or(false, Output::is_stdout);
    let mut units = Units {
        asked,
        sets: Sets::new(clip.name(), table.clone()),
        // standard output holds one thing
        lines: !to_stdout(&csv) && !to_stdout(&plot),
        terminal: console::user_attended(),
        begun: false,
        line: Vec::new(),
        totals: Totals::default(),
        quantisers: Quantisers::default(),
        course: plot.is_some().then(Course::default),
        csv,
        plot,
        out,
    };
    let passed = recording.units(table, ending.quiet, &mut units, Units::take)?;
    if !units.wanted() {
        return Ok(0);
    }
    units.end(&passed)
}

struct Units<'a> {
    asked: &'a Asked<'a>,
    sets: Sets,
    /// Whether units are told on standard output.
    lines: bool,
    terminal: bool,
    begun: bool,
    line: Vec<u8>,
    totals: Totals,
    quantisers: Quantisers,
    course: Option<Course>,
    csv: Option<Output>,
    plot: Option<Output>,
    out: &'a mut Stdout,
}

impl Each for Units<'_> {
    fn out(&mut self) -> &mut Stdout {
        self.out
    }

    fn strict(&self) -> bool {
        self.asked.ending.strict
    }

    fn files(&self) -> bool {
        let files = [&self.csv, &self.plot];
        files.into_iter().flatten().any(|to| !to.is_stdout())
    }
}

impl Units<'_> {
    fn take(&mut self, r: &StreamReport<'_>) -> Result<()> {
        self.begin()?;
        let (read, words) = r.raw();
        self.totals.take(r);
        self.sets.take(r);
        if read.answer == 3 {
            tell_missing(&self.asked.clip.name(), &self.totals, r.place, read);
        }
        let slice = (read.answer == 1).then(|| Slice::of(r.table(), words));
        if self.asked.kind == Kind::Qp {
            if read.answer != 1 && read.answer != 3 {
                return Ok(());
            }
            self.note(r, slice)?;
        }
        if self.lines {
            self.line.clear();
            self.tell(r, slice.unwrap_or_default());
            self.out.write(&self.line)?;
        }
        Ok(())
    }

    /// The columns' names, once there is anything to tell.
    fn begin(&mut self) -> Result<()> {
        if std::mem::replace(&mut self.begun, true) {
            return Ok(());
        }
        if self.lines && self.asked.format == Format::Csv {
            self.out.write(form::head(self.columns()).as_bytes())?;
        }
        match &mut self.csv {
            None => Ok(()),
            Some(csv) => csv.write(form::head(&QP).as_bytes(), self.out),
        }
    }

    fn columns(&self) -> &'static [&'static str] {
        match self.asked.kind {
            Kind::List => &LIST,
            Kind::Headers => &NAMES,
            Kind::Qp => &QP,
        }
    }

    /// A unit's line, object or row.
    fn tell(&mut self, r: &StreamReport<'_>, slice: Slice) {
        let (columns, kind, read) = (self.columns(), self.asked.kind, r.raw().0);
        let (place, length) = (r.place as i64, r.length as i64);
        let line = &mut self.line;
        match self.asked.format {
            Format::Text if kind == Kind::List => self.list(r),
            Format::Text => {
                line.extend_from_slice(b"unit place=");
                number(line, place);
                line.extend_from_slice(b" length=");
                number(line, length);
                line.push(b' ');
                if read.answer == 1 && kind == Kind::Qp {
                    slice_text(&slice, line);
                } else {
                    let (to, more, why) = (&mut *line, true, self.terminal);
                    fields(kind, r, &slice, &mut Text { to, more, why });
                }
                line.push(b'\n');
            }
            Format::Json => form::json(line, place, length, |form| fields(kind, r, &slice, form)),
            Format::Csv => form::row(line, columns, place, length, |form| {
                fields(kind, r, &slice, form)
            }),
        }
    }

    /// A unit's line of the listing, as the proved library has it; a refusal's reason behind it, for who reads it.
    fn list(&mut self, r: &StreamReport<'_>) {
        let (read, words) = r.raw();
        let (place, length) = (r.place as usize, r.length as usize);
        let mut line = [0; 128];
        let table = r.table().as_raw();
        let text = raw::unit_line(&mut line, table, place, length, r.bytes(), read, words);
        self.line.extend_from_slice(text);
        if self.terminal && read.answer == 3 {
            self.line.pop();
            self.line.extend_from_slice(b": ");
            let why = read.refusal().reason();
            self.line.extend_from_slice(why.as_bytes());
            self.line.push(b'\n');
        }
    }

    /// What `tuz qp` keeps of a slice or a refused unit.
    fn note(&mut self, r: &StreamReport<'_>, slice: Option<Slice>) -> Result<()> {
        let point = slice.map(|s| (s.slice_type % 5, s.qp));
        self.quantisers.take(point);
        if let Some(course) = &mut self.course {
            course.take(r.place, point.ok_or(r.raw().0.number));
        }
        if let Some(csv) = &mut self.csv {
            let (place, length) = (r.place as i64, r.length as i64);
            let slice = slice.unwrap_or_default();
            self.line.clear();
            form::row(&mut self.line, &QP, place, length, |form| {
                fields(Kind::Qp, r, &slice, form)
            });
            csv.write(&self.line, self.out)?;
        }
        Ok(())
    }

    /// All units were told: the last lines, the files, the totals.
    fn end(mut self, passed: &Passed) -> Result<u8> {
        self.begin()?;
        let (kind, ending) = (self.asked.kind, self.asked.ending);
        let text = self.lines && self.asked.format == Format::Text;
        let name = self.asked.clip.name();
        if passed.tell_broken(&name, text.then_some(&mut *self.out))? {
            self.totals.refused += 1;
            self.quantisers.take(None);
        }
        if text && kind == Kind::List {
            let (units, refused) = (self.totals.units, self.totals.refused);
            let mut line = [0; 128];
            let end = raw::end_line(&mut line, units as usize, refused as usize);
            self.out.write(end)?;
        }
        let sums = match kind {
            Kind::Qp => self.quantisers.lines(),
            _ => String::new(),
        };
        if text {
            self.out.write(sums.as_bytes())?;
        }
        if let (Some(course), Some(plot)) = (&self.course, &mut self.plot) {
            plot.write(course.svg(&name).as_bytes(), self.out)?;
        }
        for file in [self.csv.take(), self.plot.take()].into_iter().flatten() {
            file.finish()?;
        }
        self.out.finish()?;
        self.sets.end();
        if !ending.quiet {
            if !text {
                eprint!("{sums}");
            }
            eprintln!("{name}: {}", self.totals.told(passed.bytes));
        }
        Ok(u8::from(ending.strict && self.totals.refused > 0))
    }
}

/// Says once that a slice lacks its sets, where none was read before it.
pub fn tell_missing(name: &str, totals: &Totals, place: u64, read: &ReadOut) {
    let first = totals.first_is_missing() && read.answer == 3;
    if first && matches!(read.number, 9 | 10) {
        let why = read.refusal().reason();
        eprintln!("tuz: {name}: place {place}: {why}: it has not come so far; `--table FILE` gives sets to start with (`tuz help cases`)");
    }
}

fn fields(kind: Kind, r: &StreamReport<'_>, slice: &Slice, form: &mut impl Form) {
    let (bytes, (read, words)) = (r.bytes(), r.raw());
    match kind {
        Kind::Headers => answer::write(bytes, read, words, Some(slice.qp), form),
        _ => answer::brief(bytes, read, slice, form),
    }
}

/// A slice as `tuz qp` tells it: as in the listing, with its type by name.
fn slice_text(slice: &Slice, to: &mut Vec<u8>) {
    to.extend_from_slice(b"slice type=");
    number(to, slice.slice_type.into());
    to.extend_from_slice(b" family=");
    to.extend_from_slice(slice.family().as_bytes());
    to.extend_from_slice(b" frame=");
    number(to, slice.frame_num.into());
    to.extend_from_slice(b" qp=");
    number(to, slice.qp);
}
