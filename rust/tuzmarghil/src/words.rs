//! The words that a reading is lent: a header's fields, its lists and weights stand there, and no record that holds them is copied.

use crate::raw::{self, HeaderShort, Plain, PrefixShort, Weight};

/// The words of a header's fields that are no signed numbers: a mark and a value for what may be absent, marks and flags as 0 and 1, and of each list the count. A
/// signed number that may be absent has its mark here.
pub type NumberWords = [u32; 57];

/// The words of its signed numbers.
pub type SignedWords = [i32; 7];

/// The words of a list: three an entry, its code and its two operands.
pub type ListWords = [u32; 198];

/// The words of weights: eight an entry, in the syntax's order, with flags as 0 and 1.
pub type WeightWords = [i32; 256];

/// What a reading is lent. A slice writes all words of its fields and, in its lists, those of the entries that it has, after it has zeroed the entries that the counts
/// standing in the words say are in use: words that were zeros behind their counts, as those of `default()`, stay so. A prefix unit writes all of `base`: its entries,
/// and zeros behind them. Words that an answer does not speak of stay as they were. Beside a refusal all are zeros.
#[derive(Clone, Debug, PartialEq, Eq)]
#[repr(C)]
pub struct Words {
    /// The slice header's numbers and flags.
    pub numbers: NumberWords,
    /// Its signed numbers.
    pub signed: SignedWords,
    /// `ref_pic_list_modification( )`, the first list.
    pub l0: ListWords,
    /// The second list.
    pub l1: ListWords,
    /// `dec_ref_pic_marking( )`
    pub marking: ListWords,
    /// `pred_weight_table( )` for the first list.
    pub w0: WeightWords,
    /// For the second list.
    pub w1: WeightWords,
    /// `dec_ref_base_pic_marking( )`
    pub base: ListWords,
}

// SAFETY: arrays of integers.
unsafe impl Plain for Words {}

impl Default for Words {
    /// Zeros.
    fn default() -> Words {
        Plain::zero()
    }
}

impl Words {
    /// The header of the slice that was read, without its lists. Inlined always: who asks for three fields then pays for three.
    #[inline(always)]
    pub fn header(&self) -> HeaderShort {
        raw::taken_up(&self.numbers, &self.signed)
    }

    /// Sets the words of a header's fields. Those of its lists are set beside them.
    pub fn set_header(&mut self, h: &HeaderShort) {
        raw::laid(h, &mut self.numbers, &mut self.signed)
    }

    /// The first list's modifications, beside the header that was read with them.
    pub fn modifications_l0(&self, h: &HeaderShort) -> List<'_> {
        List(&self.l0, h.modifications_l0)
    }

    /// The second list's.
    pub fn modifications_l1(&self, h: &HeaderShort) -> List<'_> {
        List(&self.l1, h.modifications_l1)
    }

    /// The marking's operations.
    pub fn markings(&self, h: &HeaderShort) -> List<'_> {
        List(&self.marking, h.markings)
    }

    /// The first list's weights.
    pub fn weights_l0(&self, h: &HeaderShort) -> Weights<'_> {
        Weights(&self.w0, h.weights.l0)
    }

    /// The second list's.
    pub fn weights_l1(&self, h: &HeaderShort) -> Weights<'_> {
        Weights(&self.w1, h.weights.l1)
    }

    /// The base marking's operations, beside the prefix that was read with them.
    pub fn base_markings(&self, p: &PrefixShort) -> List<'_> {
        List(&self.base, p.base_markings)
    }
}

/// A list's words, and how many entries are used.
#[derive(Clone, Copy)]
pub struct List<'a>(&'a ListWords, u32);

impl<'a> List<'a> {
    /// Codes with their two operands, in order; an operand that a code lacks is 0.
    pub fn entries(self) -> impl Iterator<Item = (u32, u32, u32)> + 'a {
        let entries = self.0.chunks_exact(3).take(self.1 as usize);
        entries.map(|e| (e[0], e[1], e[2]))
    }
}

/// The words of weights, and how many entries are used.
#[derive(Clone, Copy)]
pub struct Weights<'a>(&'a WeightWords, u32);

impl<'a> Weights<'a> {
    /// One entry for each active reference.
    pub fn entries(self) -> impl Iterator<Item = Weight> + 'a {
        self.0.chunks_exact(8).take(self.1 as usize).map(weight)
    }
}

fn weight(w: &[i32]) -> Weight {
    Weight {
        luma_weight_flag: w[0] != 0,
        luma_weight: w[1],
        luma_offset: w[2],
        chroma_weight_flag: w[3] != 0,
        cb_weight: w[4],
        cb_offset: w[5],
        cr_weight: w[6],
        cr_offset: w[7],
    }
}

#[cfg(test)]
mod tests {
    use super::*;

    /// Each word goes to a field of its own, and to no other.
    #[test]
    fn fields_of_words() {
        let back = |words: &Words| {
            let mut to = Words::default();
            to.set_header(&words.header());
            to
        };
        assert_eq!(back(&Words::default()), Words::default());
        for k in 0..57 {
            let mut one = Words::default();
            one.numbers[k] = 1;
            assert_eq!(back(&one), one, "{k}");
        }
        for k in 0..7 {
            let mut one = Words::default();
            one.signed[k] = -1;
            assert_eq!(back(&one), one, "{k}");
        }
    }
}
