//! Sets as words of text: `sps:..` and `pps:..`, as table files and case lines have them.

use crate::{PicParameterSet, Picture, Refusal, SeqParameterSet, Sequence, Table};
use std::fmt;
use std::str::FromStr;

/// Which set a word holds.
#[derive(Clone, Copy, Debug, PartialEq, Eq)]
#[allow(missing_docs)]
#[non_exhaustive]
pub enum SetId {
    Sequence(u32),
    Picture(u32),
}

/// Why a word gives no set.
#[derive(Clone, Debug, PartialEq, Eq)]
#[non_exhaustive]
pub enum WordError {
    /// It is no such word, as is told.
    Word(String),
    /// The table refuses the set.
    Refused(Refusal),
}

impl fmt::Display for WordError {
    fn fmt(&self, f: &mut fmt::Formatter<'_>) -> fmt::Result {
        match self {
            WordError::Word(told) => f.write_str(told),
            WordError::Refused(refusal) => refusal.fmt(f),
        }
    }
}

impl std::error::Error for WordError {}

/// The fields of a word, taken one after the other.
struct Fields<'a>(std::str::Split<'a, char>);

impl Fields<'_> {
    fn next<T: FromStr>(&mut self, name: &str) -> Result<T, WordError> {
        let told = |told: &str| WordError::Word(format!("{name}{told}"));
        let text = self.0.next().ok_or_else(|| told(" is missing"))?;
        let wrong = || format!("={} is not a number that fits", text.escape_debug());
        text.parse().map_err(|_| told(&wrong()))
    }

    fn flag(&mut self, name: &str) -> Result<bool, WordError> {
        match self.next(name)? {
            0u32 => Ok(false),
            1 => Ok(true),
            n => Err(WordError::Word(format!("{name}={n} is not a flag"))),
        }
    }

    fn end(&mut self, name: &str) -> Result<(), WordError> {
        let told = || WordError::Word(format!("more fields than a {name} set has"));
        self.0.next().map_or(Ok(()), |_| Err(told()))
    }

    fn sequence(&mut self) -> Result<Sequence, WordError> {
        let set = Sequence {
            chroma_format_idc: self.next("chroma_format_idc")?,
            separate_colour_plane_flag: self.flag("separate_colour_plane_flag")?,
            bit_depth_luma_minus8: self.next("bit_depth_luma_minus8")?,
            log2_max_frame_num: self.next("log2_max_frame_num")?,
            pic_order_cnt_type: self.next("pic_order_cnt_type")?,
            log2_max_pic_order_cnt_lsb_minus4: self.next("log2_max_pic_order_cnt_lsb_minus4")?,
            delta_pic_order_always_zero_flag: self.flag("delta_pic_order_always_zero_flag")?,
            frame_mbs_only_flag: self.flag("frame_mbs_only_flag")?,
            pic_size_in_map_units: self.next("pic_size_in_map_units")?,
        };
        self.end("sequence")?;
        Ok(set)
    }

    fn picture(&mut self) -> Result<Picture, WordError> {
        let set = Picture {
            seq_parameter_set_id: self.next("seq_parameter_set_id")?,
            entropy_coding_mode_flag: self.flag("entropy_coding_mode_flag")?,
            bottom_field_pic_order_in_frame_present_flag: self
                .flag("bottom_field_pic_order_in_frame_present_flag")?,
            num_ref_idx_l0_default_active_minus1: self
                .next("num_ref_idx_l0_default_active_minus1")?,
            num_ref_idx_l1_default_active_minus1: self
                .next("num_ref_idx_l1_default_active_minus1")?,
            weighted_pred_flag: self.flag("weighted_pred_flag")?,
            weighted_bipred_idc: self.next("weighted_bipred_idc")?,
            pic_init_qp_minus26: self.next("pic_init_qp_minus26")?,
            pic_init_qs_minus26: self.next("pic_init_qs_minus26")?,
            deblocking_filter_control_present_flag: self
                .flag("deblocking_filter_control_present_flag")?,
            redundant_pic_cnt_present_flag: self.flag("redundant_pic_cnt_present_flag")?,
            slice_group_change_rate: self.next("slice_group_change_rate")?,
        };
        self.end("picture")?;
        Ok(set)
    }
}

impl fmt::Display for SeqParameterSet {
    fn fmt(&self, f: &mut fmt::Formatter<'_>) -> fmt::Result {
        let s = &self.sequence;
        write!(
            f,
            "sps:{}:{}:{}:{}:{}:{}:{}:{}:{}:{}",
            self.seq_parameter_set_id,
            s.chroma_format_idc,
            u8::from(s.separate_colour_plane_flag),
            s.bit_depth_luma_minus8,
            s.log2_max_frame_num,
            s.pic_order_cnt_type,
            s.log2_max_pic_order_cnt_lsb_minus4,
            u8::from(s.delta_pic_order_always_zero_flag),
            u8::from(s.frame_mbs_only_flag),
            s.pic_size_in_map_units,
        )
    }
}

impl fmt::Display for PicParameterSet {
    fn fmt(&self, f: &mut fmt::Formatter<'_>) -> fmt::Result {
        let p = &self.picture;
        write!(
            f,
            "pps:{}:{}:{}:{}:{}:{}:{}:{}:{}:{}:{}:{}:{}",
            self.pic_parameter_set_id,
            p.seq_parameter_set_id,
            u8::from(p.entropy_coding_mode_flag),
            u8::from(p.bottom_field_pic_order_in_frame_present_flag),
            p.num_ref_idx_l0_default_active_minus1,
            p.num_ref_idx_l1_default_active_minus1,
            u8::from(p.weighted_pred_flag),
            p.weighted_bipred_idc,
            p.pic_init_qp_minus26,
            p.pic_init_qs_minus26,
            u8::from(p.deblocking_filter_control_present_flag),
            u8::from(p.redundant_pic_cnt_present_flag),
            p.slice_group_change_rate,
        )
    }
}

impl Table {
    /// Puts the set that a word of text holds (`docs/CASES.md` of the repository has its fields) in place of what was there.
    ///
    /// ```
    /// use tuzmarghil::{SetId, Table};
    ///
    /// let mut table = Table::new();
    /// assert_eq!(table.put_word("sps:3:1:0:0:4:2:0:0:1:99")?, SetId::Sequence(3));
    /// assert_eq!(table.sequence(3).unwrap().pic_size_in_map_units, 99);
    /// assert_eq!(table.put_word("sps:3").unwrap_err().to_string(), "chroma_format_idc is missing");
    /// # Ok::<(), tuzmarghil::WordError>(())
    /// ```
    pub fn put_word(&mut self, word: &str) -> Result<SetId, WordError> {
        let mut fields = Fields(word.split(':'));
        let refused = WordError::Refused;
        match fields.0.next() {
            Some("sps") => {
                let id = fields.next("seq_parameter_set_id")?;
                self.put_sequence(id, fields.sequence()?).map_err(refused)?;
                Ok(SetId::Sequence(id))
            }
            Some("pps") => {
                let id = fields.next("pic_parameter_set_id")?;
                self.put_picture(id, fields.picture()?).map_err(refused)?;
                Ok(SetId::Picture(id))
            }
            _ => Err(WordError::Word(
                "a word of the table begins with sps: or pps:".to_owned(),
            )),
        }
    }
}
