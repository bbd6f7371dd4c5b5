//! Words that fill a table, as case lines and table files have them, and units in hex.

use crate::shown;
use anyhow::{anyhow, ensure, Context, Result};
use tuzmarghil::{SetId, Table, WordError};

/// A table, and the sets that were put into it.
#[derive(Default)]
pub struct Filled {
    pub table: Table,
    sets: Vec<SetId>,
}

impl Filled {
    /// Puts a word's set into the table.
    pub fn put(&mut self, word: &str) -> Result<()> {
        self.sets.push(self.table.put_word(word)?);
        Ok(())
    }

    /// What is likely not meant: ids that stand more than once, and picture sets whose sequence set is not there.
    pub fn doubts(&self) -> Vec<String> {
        let mut told = vec![];
        let sequences = (0..32).map(|id| (format!("sps:{id}"), SetId::Sequence(id)));
        let pictures = (0..256).map(|id| (format!("pps:{id}"), SetId::Picture(id)));
        for (name, set) in sequences.chain(pictures) {
            let times = self.sets.iter().filter(|s| **s == set).count();
            if times > 1 {
                told.push(format!("{name} stands {times} times; the last one holds"));
            }
        }
        for id in 0..256 {
            let of = self.table.picture(id).map(|set| set.seq_parameter_set_id);
            if let Some(of) = of.filter(|of| self.table.sequence(*of).is_none()) {
                told.push(format!("pps:{id} names the sequence set {of}, which is not in the table: unless the recording brings it, its slices are refused with 10"));
            }
        }
        told
    }
}

/// A table filled by words; refused sets leave it as it was.
pub fn table<'a>(words: impl Iterator<Item = &'a str>) -> Result<Table> {
    let mut table = Table::new();
    for word in words {
        if let Err(WordError::Word(told)) = table.put_word(word) {
            return Err(anyhow!(told).context(shown::word(word)));
        }
    }
    Ok(table)
}

/// A unit in hex; `-` is no byte.
pub fn unit(word: &str, to: &mut Vec<u8>) -> Result<()> {
    to.clear();
    if word == "-" {
        return Ok(());
    }
    let digit = |c: u8| {
        let d = (c as char).to_digit(16);
        d.with_context(|| format!("{:?} is not a hex digit", c as char))
    };
    ensure!(word.len() % 2 == 0, "an odd number of hex digits");
    for pair in word.as_bytes().chunks_exact(2) {
        to.push((digit(pair[0])? * 16 + digit(pair[1])?) as u8);
    }
    Ok(())
}
