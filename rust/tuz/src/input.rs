//! Recordings and tables from files or standard input, with messages that name the file and the cause.

use crate::output::{Input, Stdout};
use crate::{shown, stop, words};
use anyhow::{bail, ensure, Context, Result};
use clap::{Args, ValueEnum};
use indicatif::{ProgressBar, ProgressStyle};
use std::fs::{self, File};
use std::io::{self, BufRead, BufReader, Cursor, ErrorKind, Read};
use std::path::{Path, PathBuf};
use tuzmarghil::{container, container_needs, in_container, looks_framed, raw, CONTAINER_LOOK};
use tuzmarghil::{LengthFramed, Refusal, Stream, StreamHead, StreamReport, Table, Units, LIMIT};

/// The sample sets of the rules, both with id 0.
const SAMPLE: &str = "sps:0:1:0:0:4:2:0:0:1:99 pps:0:0:0:0:0:0:0:0:0:0:0:0:0";

/// Where no start code has come by here, it is told.
const NO_START_CODE: u64 = 1 << 20;

/// Progress is shown for recordings from this length on, and told this often.
const LONG: u64 = 32 << 20;

/// The greatest length of a table file: 288 sets have less than 20 KB.
const TABLE: u64 = 1 << 20;

/// A recording, and the sets that the walk starts with.
#[derive(Args)]
pub struct Clip {
    /// The recording; `-` is standard input
    clip: PathBuf,
    /// Parameter sets to start with, for a recording that lacks them: a file of `sps:` and `pps:` words, separated by white space
    #[arg(long, value_name = "FILE", conflicts_with = "sample")]
    table: Option<PathBuf>,
    /// The sample sets to start with: 4:2:0, 8 bit, frames only, 99 map units
    #[arg(long)]
    sample: bool,
    /// Read it as a byte stream whatever it looks like
    #[arg(long)]
    force: bool,
}

/// A recording alone.
#[derive(Args)]
pub struct Bare {
    /// The recording; `-` is standard input
    clip: PathBuf,
    /// Read it as a byte stream whatever it looks like
    #[arg(long)]
    force: bool,
}

impl From<&Bare> for Clip {
    fn from(bare: &Bare) -> Clip {
        Clip {
            clip: bare.clip.clone(),
            table: None,
            sample: false,
            force: bare.force,
        }
    }
}

/// What stands before each unit of a recording.
#[derive(Args, Clone, Copy)]
pub struct Framing {
    /// What stands before each unit
    #[arg(long, value_enum, default_value = "start-codes")]
    framing: By,
}

#[derive(Clone, Copy, ValueEnum)]
enum By {
    /// 00 00 01
    StartCodes,
    /// Its length, 4 bytes
    Length,
    /// What the first units look like, which is told on standard error
    Auto,
}

/// What is done with the units of a recording, one after the other.
pub trait Each {
    /// Where their lines go.
    fn out(&mut self) -> &mut Stdout;

    /// Whether the exit status tells of refused units.
    fn strict(&self) -> bool;

    /// Whether a file is written besides.
    fn files(&self) -> bool {
        false
    }

    /// Whether anything is left to be done. A closed standard output ends the printing, not the work: files, and what the exit status tells.
    fn wanted(&mut self) -> bool {
        !self.out().closed() || self.strict() || self.files()
    }
}

impl Clip {
    pub fn name(&self) -> String {
        shown::name(&self.clip, "standard input")
    }

    /// The files that are read.
    pub fn inputs(&self) -> Vec<Input<'_>> {
        let mut inputs = vec![Input {
            what: "the recording",
            path: &self.clip,
        }];
        inputs.extend(self.table.as_deref().map(|path| Input {
            what: "the table",
            path,
        }));
        inputs
    }

    /// The table of `--table` or `--sample`; empty without them.
    pub fn table(&self) -> Result<Table> {
        if self.sample {
            return words::table(SAMPLE.split(' '));
        }
        match &self.table {
            None => Ok(Table::new()),
            Some(path) => table_of(path),
        }
    }

    /// The recording, once its beginning looks like one with start codes.
    pub fn open(&self) -> Result<Recording> {
        self.opened(By::StartCodes)
    }

    /// The recording, framed by length.
    pub fn open_framed(&self) -> Result<Recording> {
        self.opened(By::Length)
    }

    /// The recording, framed as is asked for.
    pub fn open_by(&self, framing: Framing) -> Result<Recording> {
        self.opened(framing.framing)
    }

    fn opened(&self, by: By) -> Result<Recording> {
        let mut source = open(&self.clip)?;
        let mut front = Vec::new();
        let whole = look(&mut source, &mut front).with_context(|| self.name())?;
        ensure!(!front.is_empty(), "{}: is empty", self.name());
        let framed = match by {
            By::StartCodes => false,
            By::Length => true,
            By::Auto => in_container(&front).is_none() && looks_framed(&front, whole),
        };
        let told = match framed {
            true => in_container(&front),
            false => container(&front, whole),
        };
        if let (Some(told), false) = (told, self.force) {
            bail!("{}: {told}; --force reads it all the same", self.name());
        }
        if let By::Auto = by {
            let how = match framed {
                true => "lengths of 4 bytes (--framing length)",
                false => "start codes (--framing start-codes)",
            };
            eprintln!("tuz: {}: units stand behind {how}", self.name());
        }
        Ok(Recording {
            framed,
            name: self.name(),
            length: fs::metadata(&self.clip).map_or(0, |m| m.len()),
            source: Box::new(Cursor::new(front).chain(source)),
            force: self.force,
            passed: 0,
            // a start code is looked for where one is needed
            seen: framed,
            last: [255; 2],
        })
    }
}

/// Reads until a beginning can be told; whether that is all.
fn look(source: &mut dyn Read, front: &mut Vec<u8>) -> io::Result<bool> {
    let mut piece = [0; CONTAINER_LOOK];
    while front.len() < container_needs(front) {
        stop::check()?;
        match source.read(&mut piece) {
            Ok(0) => return Ok(true),
            Ok(n) => front.extend_from_slice(&piece[..n]),
            Err(e) if e.kind() == ErrorKind::Interrupted => {}
            Err(e) => return Err(e),
        }
    }
    Ok(false)
}

/// A recording that is open. It looks for a start code as it is read: without one, all of it is in no unit.
pub struct Recording {
    /// By length, not by start codes.
    framed: bool,
    name: String,
    length: u64,
    source: Box<dyn Read>,
    force: bool,
    passed: u64,
    seen: bool,
    last: [u8; 2],
}

/// What a recording came to: its length in bytes, and the broken length that ended it, if one did.
pub struct Passed {
    pub bytes: u64,
    broken: Option<Refusal>,
}

impl Passed {
    /// Whether a length is broken, which is no unit, and is told: by a line of its own in a listing, and elsewhere on standard error.
    pub fn tell_broken(&self, name: &str, listing: Option<&mut Stdout>) -> Result<bool> {
        match (self.broken, listing) {
            (None, _) => return Ok(false),
            (Some(refusal), None) => eprintln!("tuz: {name}: {refusal}"),
            (Some(refusal), Some(out)) => {
                let mut line = [0; 128];
                out.write(raw::broken_line(&mut line, refusal.value as usize))?;
            }
        }
        Ok(true)
    }
}

impl Recording {
    /// Its units, one after the other.
    fn into_units(self, table: Table) -> Units<Recording> {
        match self.framed {
            true => Units::Length(LengthFramed::with_table(self, table)),
            false => Units::StartCodes(Stream::with_table(self, table)),
        }
    }

    /// Hands each unit to `each` by `take`, with a table to start with.
    pub fn units<E: Each>(
        self,
        table: Table,
        quiet: bool,
        each: &mut E,
        take: fn(&mut E, &StreamReport<'_>) -> Result<()>,
    ) -> Result<Passed> {
        self.steps(table, quiet, each, |each, units| {
            let unit = units.next_unit_at_hand();
            unit.map(|unit| take(each, &unit)).transpose()
        })
    }

    /// The same, with the units' heads alone.
    pub fn heads<E: Each>(
        self,
        quiet: bool,
        each: &mut E,
        take: fn(&mut E, &StreamHead<'_>) -> Result<()>,
    ) -> Result<Passed> {
        self.steps(Table::new(), quiet, each, |each, units| {
            let unit = units.next_head_at_hand();
            unit.map(|unit| take(each, &unit)).transpose()
        })
    }

    /// Takes unit after unit by `step`, which says nothing where more must be read. A bar is shown on a terminal where the recording is long and the lines go elsewhere.
    fn steps<E: Each>(
        self,
        table: Table,
        quiet: bool,
        each: &mut E,
        step: impl Fn(&mut E, &mut Units<Recording>) -> Result<Option<()>>,
    ) -> Result<Passed> {
        let bar = match self.length {
            0..=LONG => ProgressBar::hidden(),
            // the lines themselves show it
            _ if quiet || console::user_attended() => ProgressBar::hidden(),
            _ => {
                let form = "{bar:40} {bytes}/{total_bytes} {bytes_per_sec} {eta}";
                ProgressBar::new(self.length).with_style(ProgressStyle::with_template(form)?)
            }
        };
        let (name, mut told) = (self.name.clone(), 0);
        let mut units = self.into_units(table);
        while each.wanted() {
            stop::check()?;
            if step(each, &mut units)?.is_some() {
                continue;
            }
            // whoever waits gets the lines that are there
            each.out().flush_lines()?;
            if !units.read_more().with_context(|| name.clone())? {
                break;
            }
            let passed = units.position();
            if passed > told + LONG {
                told = passed;
                bar.set_position(told);
            }
        }
        bar.finish_and_clear();
        Ok(Passed {
            bytes: units.position(),
            broken: units.broken(),
        })
    }

    /// The whole recording.
    pub fn bytes(self) -> Result<Vec<u8>> {
        let (name, mut all) = (self.name.clone(), Vec::new());
        let read = self.take(LIMIT as u64 + 1).read_to_end(&mut all);
        read.with_context(|| name.clone())?;
        ensure!(all.len() <= LIMIT, "{name}: is over {LIMIT} bytes");
        Ok(all)
    }

    /// Looks for a start code in these bytes with the two before them.
    fn look(&mut self, bytes: &[u8]) {
        let before = self.passed - bytes.len() as u64;
        let around = [&self.last, &bytes[..bytes.len().min(2)]].concat();
        let first = |s: &[u8]| s.windows(3).position(|w| w == [0, 0, 1]);
        let found = first(&around).map(|_| 0).or_else(|| first(bytes));
        self.seen = found.is_some();
        let passed = before + found.unwrap_or(bytes.len()) as u64;
        if !self.force && before < NO_START_CODE && NO_START_CODE <= passed {
            let name = &self.name;
            eprintln!("tuz: {name}: no start code (00 00 01) in its first {NO_START_CODE} bytes; reading on");
        }
        let all = [&self.last, &bytes[bytes.len().saturating_sub(2)..]].concat();
        self.last.copy_from_slice(&all[all.len() - 2..]);
    }
}

impl Read for Recording {
    fn read(&mut self, to: &mut [u8]) -> io::Result<usize> {
        stop::check()?;
        let n = match self.source.read(to) {
            Err(e) => {
                stop::check()?;
                return Err(e);
            }
            Ok(n) => n,
        };
        self.passed += n as u64;
        if !self.seen && n > 0 {
            self.look(&to[..n]);
        }
        if n == 0 && !to.is_empty() && !self.seen && !self.force {
            let told = format!("no start code (00 00 01) in its {} bytes, so this is no H.264 byte stream; --force reads it all the same", self.passed);
            return Err(io::Error::new(ErrorKind::InvalidData, told));
        }
        Ok(n)
    }
}

/// The sets of a table file. What is likely not meant is told.
fn table_of(path: &Path) -> Result<Table> {
    let name = shown::name(path, "standard input");
    let mut bytes = Vec::new();
    let read = open(path)?.take(TABLE + 1).read_to_end(&mut bytes);
    read.with_context(|| name.clone())?;
    let no_table = || {
        format!("{name}: is no table, which is a text of words such as sps:0:1:0:0:4:2:0:0:1:99")
    };
    ensure!(
        bytes.len() as u64 <= TABLE,
        "{}, and it is over {TABLE} bytes",
        no_table()
    );
    if bytes.starts_with(&[0xFF, 0xFE]) || bytes.starts_with(&[0xFE, 0xFF]) {
        bail!("{name}: is UTF-16 text; a table is UTF-8, or plain ASCII");
    }
    let text = String::from_utf8(bytes).map_err(|_| anyhow::anyhow!(no_table()))?;
    let mut text = text.as_str();
    if let Some(rest) = text.strip_prefix('\u{FEFF}') {
        eprintln!("tuz: {name}: begins with a byte order mark, which is passed over");
        text = rest;
    }
    let lines = text.lines().map(|l| l.split('#').next().unwrap_or(""));
    let mut filled = words::Filled::default();
    for word in lines.flat_map(str::split_whitespace) {
        let told = || format!("{name}: {}", shown::word(word));
        filled.put(word).with_context(told)?;
    }
    for told in filled.doubts() {
        eprintln!("tuz: {name}: {told}");
    }
    Ok(filled.table)
}

/// A file or standard input, to be read.
fn open(path: &Path) -> Result<Box<dyn Read>> {
    if path.as_os_str() == "-" {
        return Ok(Box::new(io::stdin()));
    }
    let name = shown::name(path, "-");
    let told = |e: io::Error| match e.kind() {
        ErrorKind::NotFound => anyhow::anyhow!("{name}: there is no such file"),
        ErrorKind::PermissionDenied => anyhow::anyhow!("{name}: may not be read"),
        _ => anyhow::Error::new(e).context(name.clone()),
    };
    let file = File::open(path).map_err(told)?;
    let kind = file.metadata().map_err(told)?;
    ensure!(!kind.is_dir(), "{name}: is a directory, not a file");
    Ok(Box::new(file))
}

/// The same, line by line.
pub fn lines(path: &Path) -> Result<impl BufRead> {
    Ok(BufReader::with_capacity(1 << 16, open(path)?))
}
