//! `tuz convert`: from lengths to start codes and back.

use crate::input::{Bare, Clip};
use crate::output::{Output, Stdout};
use anyhow::{bail, Result};
use clap::{Args, ValueEnum};
use std::path::PathBuf;
use tuzmarghil::{to_lengths, to_start_codes};

#[derive(Args)]
pub struct Convert {
    #[command(flatten)]
    clip: Bare,
    /// Where the result goes; `-` is standard output
    #[arg(short, long, value_name = "FILE")]
    out: PathBuf,
    /// What stands before each unit of the result
    #[arg(long, value_enum)]
    to: To,
    /// No totals on standard error
    #[arg(long, short)]
    quiet: bool,
}

#[derive(Clone, Copy, ValueEnum)]
enum To {
    /// 00 00 00 01; the recording has a length of 4 bytes before each unit
    StartCodes,
    /// Its length, 4 bytes; the recording has start codes
    Length,
}

pub fn run(convert: &Convert, to: &mut Stdout) -> Result<()> {
    let clip = Clip::from(&convert.clip);
    let recording = match convert.to {
        To::StartCodes => clip.open_framed()?,
        To::Length => clip.open()?,
    };
    let mut outputs = Output::open(&clip.inputs(), &[Some(&convert.out)])?;
    let recording = recording.bytes()?;
    let converted = match convert.to {
        To::StartCodes => to_start_codes(&recording),
        To::Length => to_lengths(&recording),
    };
    let name = clip.name();
    let result = match converted {
        Ok(result) => result,
        Err(refusal) => bail!("{name}: {refusal}"),
    };
    if let Some(mut out) = outputs.pop().flatten() {
        let (was, is) = (recording.len(), result.len());
        let told = format!("{name}: {was} bytes converted; {} has {is}", out.name());
        out.write(&result, to)?;
        if out.is_stdout() {
            to.finish()?;
        } else {
            out.finish()?;
        }
        if !convert.quiet {
            eprintln!("{told}");
        }
    }
    Ok(())
}
