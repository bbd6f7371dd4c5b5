//! Counts the units of a recording: the library's walk and nothing else, so that what a program adds to it can be timed against this.
//!
//!     walk CLIP [sps:.. pps:.. ..]     the sets that the walk starts with, as words of a table file

use std::fs::File;
use std::{env, error, process};
use tuzmarghil::{Stream, Table};

fn main() {
    let words: Vec<String> = env::args().skip(1).collect();
    if let Err(e) = run(&words) {
        eprintln!("walk: {e}");
        process::exit(2);
    }
}

fn run(words: &[String]) -> Result<(), Box<dyn error::Error>> {
    let (clip, sets) = words.split_first().ok_or("which recording?")?;
    let mut table = Table::new();
    for set in sets {
        table.put_word(set)?;
    }
    let mut stream = Stream::with_table(File::open(clip)?, table);
    let (mut units, mut slices, mut refused) = (0, 0, 0);
    while let Some(report) = stream.next_unit()? {
        units += 1;
        let answer = report.raw().0.answer;
        slices += u64::from(answer == 1);
        refused += u64::from(answer == 3);
    }
    println!("units={units} slices={slices} refused={refused}");
    Ok(())
}
