//! `tuz`: slice headers of H.264 recordings.

mod answer;
mod band;
mod cases;
mod convert;
mod explain;
mod exposures;
mod form;
mod input;
mod kinds;
mod manual;
mod output;
mod plot;
mod sets;
mod shown;
mod stop;
mod tear;
mod totals;
mod units;
mod words;

use anyhow::{Context, Result};
use clap::{CommandFactory, FromArgMatches, Parser, Subcommand};
use clap_complete::Shell;
use form::Format;
use input::{Bare, Clip, Framing};
use output::{Input, Output, Stdout};
use std::path::{Path, PathBuf};
use std::process::ExitCode;
use stop::Stopped;
use units::{Asked, Kind};

/// Slice headers of H.264 recordings, read by a proved library.
#[derive(Parser)]
#[command(
    name = "tuz",
    bin_name = "tuz",
    after_help = "\
Examples:
  tuz list night.264                             each unit with its place, length, type, frame and QP
  tuz headers night.264 --format csv > night.csv
  tuz qp night.264 --plot night.svg
  tuz exposures night.264 --format csv > exposures.csv
  tuz list guide.bin --framing length
  tuz convert guide.bin -o guide.264 --to start-codes
  tuz tear night.264 -o torn.264 --at 70000 --length 512
  ffmpeg -i in.mp4 -c copy -bsf:v h264_mp4toannexb -f h264 - | tuz list -
  tuz table night.264 > camera.txt; tuz list rest-of-the-night.264 --table camera.txt

Parameter sets are read from the recording. One that begins behind them is given a table file, which holds words such as
  sps:0:1:0:0:4:2:0:0:1:99 pps:0:0:0:0:0:0:0:0:0:0:0:0:0
(`tuz help cases` names the fields).

Exit status: 0; 1 where units were refused and --strict is given; 2 where the command could not run."
)]
struct Args {
    #[command(subcommand)]
    what: What,
}

#[derive(Subcommand)]
enum What {
    /// A line for each unit: place, length, and type, frame and QP or the refusal
    List {
        #[command(flatten)]
        clip: Clip,
        #[command(flatten)]
        framing: Framing,
        #[command(flatten)]
        form: Form,
        #[command(flatten)]
        ending: Ending,
    },
    /// Every unit with every field
    Headers {
        #[command(flatten)]
        clip: Clip,
        #[command(flatten)]
        framing: Framing,
        #[command(flatten)]
        form: Form,
        #[command(flatten)]
        ending: Ending,
    },
    /// A line for each unit with what its first bytes say: type, nal_ref_idc and extension; bodies are not read
    Kinds {
        #[command(flatten)]
        clip: Bare,
        #[command(flatten)]
        framing: Framing,
        #[command(flatten)]
        form: Form,
        #[command(flatten)]
        ending: Ending,
    },
    /// The final QP of each slice, totals by slice type, and a plot
    Qp {
        #[command(flatten)]
        clip: Clip,
        #[command(flatten)]
        framing: Framing,
        #[command(flatten)]
        form: Form,
        /// A row for each slice and each refused unit; `-` is standard output
        #[arg(long, value_name = "FILE")]
        csv: Option<PathBuf>,
        /// QP over the recording as SVG; refused units stand out in red; `-` is standard output
        #[arg(long, value_name = "FILE.svg")]
        plot: Option<PathBuf>,
        #[command(flatten)]
        ending: Ending,
    },
    /// A line for each exposure, that is each picture: place, slices, QP, frame_num, missing frames and refused units before it; and a plot
    Exposures {
        #[command(flatten)]
        clip: Clip,
        #[command(flatten)]
        framing: Framing,
        #[command(flatten)]
        form: Form,
        /// QP by exposure as SVG, with a band from least to greatest; missing frames and refused units stand out; `-` is standard output
        #[arg(long, value_name = "FILE.svg")]
        plot: Option<PathBuf>,
        #[command(flatten)]
        ending: Ending,
    },
    /// The parameter sets of a recording, as a table file: a line for each that changes the table, with its place
    Table {
        #[command(flatten)]
        clip: Bare,
        #[command(flatten)]
        framing: Framing,
        #[command(flatten)]
        ending: Ending,
    },
    /// Puts start codes in place of lengths, or lengths in place of start codes
    Convert(convert::Convert),
    /// Damages a clip, and says what reading it must then give
    Tear(tear::Tear),
    /// One answer line for each case line, so that two programs' answers are compared by `diff`
    #[command(after_help = "\
A case is one line of words: those that fill the table, then a unit in hex (`-`: no byte).
  sps:id:chroma_format_idc:separate_colour_plane_flag:bit_depth_luma_minus8:log2_max_frame_num:
      pic_order_cnt_type:log2_max_pic_order_cnt_lsb_minus4:delta_pic_order_always_zero_flag:
      frame_mbs_only_flag:pic_size_in_map_units
  pps:id:sps_id:entropy_coding_mode_flag:bottom_field_pic_order_in_frame_present_flag:
      num_ref_idx_l0_default_active_minus1:num_ref_idx_l1_default_active_minus1:weighted_pred_flag:
      weighted_bipred_idc:pic_init_qp_minus26:pic_init_qs_minus26:
      deblocking_filter_control_present_flag:redundant_pic_cnt_present_flag:change_rate (0: absent)
Example:
  echo 'sps:0:1:0:0:4:2:0:0:1:99 pps:0:0:0:0:0:0:0:0:0:0:0:0:0 658884A0' | tuz cases -")]
    Cases {
        /// Case lines; `-` is standard input
        file: PathBuf,
        /// Write each slice header that was read, and stop where its bits do not come back
        #[arg(long)]
        rewrite: bool,
        /// Walk over each unit with headers alone too, and stop where that answers otherwise
        #[arg(long)]
        headers: bool,
    },
    /// What a refusal's number means; without a number, all of them
    Explain {
        /// The number, 1 to 29, 34 or 35
        #[arg(value_name = "N")]
        number: Option<u32>,
    },
    /// The manual page, as roff (`tuz manual | man -l -`)
    Manual,
    /// What a shell needs to complete the command's words
    Completions {
        /// The shell
        shell: Shell,
    },
}

/// How units are told.
#[derive(clap::Args)]
struct Form {
    /// How units are told on standard output
    #[arg(long, value_enum, default_value = "text")]
    format: Format,
}

/// What happens at the end.
#[derive(clap::Args)]
pub struct Ending {
    /// Exit status 1 where units were refused
    #[arg(long)]
    strict: bool,
    /// No totals and no bar on standard error
    #[arg(long, short)]
    quiet: bool,
}

fn asked<'a>(
    kind: Kind,
    clip: &'a Clip,
    framing: Framing,
    form: &Form,
    ending: &'a Ending,
) -> Asked<'a> {
    Asked {
        kind,
        clip,
        framing,
        format: form.format,
        csv: None,
        plot: None,
        ending,
    }
}

fn run(args: &Args, out: &mut Stdout) -> Result<u8> {
    match &args.what {
        What::List {
            clip,
            framing,
            form,
            ending,
        } => units::run(&asked(Kind::List, clip, *framing, form, ending), out),
        What::Headers {
            clip,
            framing,
            form,
            ending,
        } => units::run(&asked(Kind::Headers, clip, *framing, form, ending), out),
        What::Kinds {
            clip,
            framing,
            form,
            ending,
        } => kinds::run(&Clip::from(clip), *framing, form.format, ending, out),
        What::Qp {
            clip,
            framing,
            form,
            csv,
            plot,
            ending,
        } => {
            let (csv, plot) = (csv.as_deref(), plot.as_deref());
            let asked = asked(Kind::Qp, clip, *framing, form, ending);
            units::run(&Asked { csv, plot, ..asked }, out)
        }
        What::Exposures {
            clip,
            framing,
            form,
            plot,
            ending,
        } => exposures::run(clip, *framing, form.format, plot.as_deref(), ending, out),
        What::Table {
            clip,
            framing,
            ending,
        } => sets::run(&Clip::from(clip), *framing, ending, out),
        What::Convert(convert) => convert::run(convert, out).map(|()| 0),
        What::Tear(tear) => tear::run(tear, out).map(|()| 0),
        What::Cases {
            file,
            rewrite,
            headers,
        } => {
            let (rewrite, headers) = (*rewrite, *headers);
            cases_of(file, &cases::More { rewrite, headers }, out).map(|()| 0)
        }
        What::Explain { number } => {
            out.write(explain::told(*number)?.as_bytes())?;
            Ok(0)
        }
        What::Manual => {
            out.write(manual::page(&mut command())?.as_bytes())?;
            Ok(0)
        }
        What::Completions { shell } => {
            out.write(&manual::completions(*shell, &mut command()))?;
            Ok(0)
        }
    }
}

fn cases_of(file: &Path, more: &cases::More, out: &mut Stdout) -> Result<()> {
    let input = Input {
        what: "the cases",
        path: file,
    };
    let mut lines = input::lines(file)?;
    Output::open(&[input], &[])?;
    let name = || shown::name(file, "standard input");
    cases::run(&mut lines, more, out).with_context(name)
}

/// The command's definition, with its version: that of the program, the kit that proved the library, and the library's layout.
fn command() -> clap::Command {
    let (program, kit) = (env!("CARGO_PKG_VERSION"), env!("TUZ_KIT"));
    let version = format!("{program} ({kit}, layout {})", tuzmarghil::LAYOUT);
    // clap keeps it to the end
    Args::command().version(&*Box::leak(version.into_boxed_str()))
}

/// The command's words, or what clap says of them. A name among them may hold anything.
fn args() -> Result<Args, ExitCode> {
    let words = command().try_get_matches();
    let args = words.and_then(|w| Args::from_arg_matches(&w));
    args.map_err(|e| {
        if !e.use_stderr() {
            e.exit();
        }
        let lines = e.to_string();
        for line in lines.lines() {
            eprintln!("{}", shown::text(line));
        }
        ExitCode::from(2)
    })
}

fn main() -> ExitCode {
    let args = match args() {
        Ok(args) => args,
        Err(status) => return status,
    };
    stop::watch();
    let done = Stdout::new().and_then(|mut out| {
        let done = run(&args, &mut out);
        // what was told before an error stays told
        out.flush_lines().and(done).and_then(|status| {
            out.finish()?;
            Ok(status)
        })
    });
    done.map_or_else(|e| failed(&e), ExitCode::from)
}

fn failed(e: &anyhow::Error) -> ExitCode {
    let stopped = |cause: &(dyn std::error::Error + 'static)| {
        let io = cause.downcast_ref::<std::io::Error>()?;
        io.get_ref()?.downcast_ref::<Stopped>().map(|s| s.0)
    };
    match e.chain().find_map(stopped) {
        Some(signal) => ExitCode::from(128 + signal as u8),
        None => {
            eprintln!("tuz: {e:#}");
            ExitCode::from(2)
        }
    }
}
