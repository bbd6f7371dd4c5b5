//! The parameter table and its sets.

use crate::raw;
use crate::Refusal;

/// A set with the fields of the record that crosses the boundary. It is a type of its own, so that more fields can come and the boundary can change.
macro_rules! set {
    ($(#[$told:meta])* $name:ident { $($(#[$field_told:meta])* $field:ident: $type:ty,)* }) => {
        $(#[$told])*
        #[derive(Clone, Copy, Debug, Default, PartialEq, Eq)]
        #[cfg_attr(feature = "serde", derive(serde::Serialize, serde::Deserialize), serde(default))]
        #[non_exhaustive]
        pub struct $name {
            $($(#[$field_told])* pub $field: $type,)*
        }

        impl $name {
            pub(crate) fn from_raw(set: raw::$name) -> $name {
                $name { $($field: set.$field,)* }
            }

            fn to_raw(self) -> raw::$name {
                raw::$name { $($field: self.$field,)* }
            }
        }
    };
}

set! {
    /// What a sequence parameter set says (7.3.2.1.1), as far as slice headers need it. More fields may come: begin with `Sequence::default()`.
    Sequence {
        /// `chroma_format_idc`, 0 to 3
        chroma_format_idc: u32,
        /// `separate_colour_plane_flag`
        separate_colour_plane_flag: bool,
        /// `bit_depth_luma_minus8`, 0 to 6
        bit_depth_luma_minus8: u32,
        /// `log2_max_frame_num_minus4` and 4: 4 to 16
        log2_max_frame_num: u32,
        /// `pic_order_cnt_type`, 0 to 2
        pic_order_cnt_type: u32,
        /// `log2_max_pic_order_cnt_lsb_minus4`, 0 to 12
        log2_max_pic_order_cnt_lsb_minus4: u32,
        /// `delta_pic_order_always_zero_flag`
        delta_pic_order_always_zero_flag: bool,
        /// `frame_mbs_only_flag`
        frame_mbs_only_flag: bool,
        /// `PicSizeInMapUnits`: (`pic_width_in_mbs_minus1` and 1) times (`pic_height_in_map_units_minus1` and 1)
        pic_size_in_map_units: u32,
    }
}

set! {
    /// What a picture parameter set says (7.3.2.2), as far as slice headers need it. More fields may come: begin with `Picture::default()`.
    Picture {
        /// `seq_parameter_set_id`, 0 to 31
        seq_parameter_set_id: u32,
        /// `entropy_coding_mode_flag`
        entropy_coding_mode_flag: bool,
        /// `bottom_field_pic_order_in_frame_present_flag`
        bottom_field_pic_order_in_frame_present_flag: bool,
        /// `num_ref_idx_l0_default_active_minus1`, 0 to 31
        num_ref_idx_l0_default_active_minus1: u32,
        /// `num_ref_idx_l1_default_active_minus1`, 0 to 31
        num_ref_idx_l1_default_active_minus1: u32,
        /// `weighted_pred_flag`
        weighted_pred_flag: bool,
        /// `weighted_bipred_idc`, 0 to 2
        weighted_bipred_idc: u32,
        /// `pic_init_qp_minus26`
        pic_init_qp_minus26: i32,
        /// `pic_init_qs_minus26`
        pic_init_qs_minus26: i32,
        /// `deblocking_filter_control_present_flag`
        deblocking_filter_control_present_flag: bool,
        /// `redundant_pic_cnt_present_flag`
        redundant_pic_cnt_present_flag: bool,
        /// `SliceGroupChangeRate`: `slice_group_change_rate_minus1` and 1; 0 where the slice groups have none
        slice_group_change_rate: u32,
    }
}

/// A sequence parameter set as a recording has it: with its id. It prints as the word of a table file.
#[derive(Clone, Copy, Debug, PartialEq, Eq)]
#[cfg_attr(feature = "serde", derive(serde::Serialize))]
#[non_exhaustive]
pub struct SeqParameterSet {
    /// `seq_parameter_set_id`, 0 to 31
    pub seq_parameter_set_id: u32,
    /// What goes into a table under that id.
    pub sequence: Sequence,
}

/// A picture parameter set as a recording has it: with its id. It prints as the word of a table file.
#[derive(Clone, Copy, Debug, PartialEq, Eq)]
#[cfg_attr(feature = "serde", derive(serde::Serialize))]
#[non_exhaustive]
pub struct PicParameterSet {
    /// `pic_parameter_set_id`, 0 to 255
    pub pic_parameter_set_id: u32,
    /// What goes into a table under that id.
    pub picture: Picture,
}

/// Sequence sets 0 to 31 and picture sets 0 to 255, as far as slice headers need them.
///
/// ```
/// use tuzmarghil::{Sequence, Table};
///
/// let mut table = Table::new();
/// assert_eq!(table.sequence(3), None);
/// let mut set = Sequence::default();
/// set.log2_max_frame_num = 8;
/// set.pic_size_in_map_units = 3600;
/// table.put_sequence(3, set)?;
/// assert_eq!(table.sequence(3), Some(set));
///
/// // a field out of range is refusal 24, and the table stays as it was
/// let mut wrong = set;
/// wrong.log2_max_frame_num = 17;
/// assert_eq!(table.put_sequence(3, wrong).unwrap_err().number, 24);
/// assert_eq!(table.sequence(3), Some(set));
/// # Ok::<(), tuzmarghil::Refusal>(())
/// ```
#[derive(Clone, Debug, PartialEq, Eq)]
pub struct Table(Box<raw::Table>);

impl Default for Table {
    fn default() -> Table {
        Table::new()
    }
}

impl Table {
    /// An empty table.
    pub fn new() -> Table {
        Table(Box::default())
    }

    /// Sets to try things with, both with id 0: 4:2:0, 8 bit, frames only, order count type 2, 99 map units.
    ///
    /// ```
    /// let picture = tuzmarghil::Table::sample().picture(0).unwrap();
    /// assert_eq!(picture.pic_init_qp_minus26, 0);
    /// ```
    pub fn sample() -> Table {
        let sequence = Sequence {
            chroma_format_idc: 1,
            log2_max_frame_num: 4,
            pic_order_cnt_type: 2,
            frame_mbs_only_flag: true,
            pic_size_in_map_units: 99,
            ..Sequence::default()
        };
        let mut table = Table::new();
        let put = table.put_sequence(0, sequence);
        put.and_then(|()| table.put_picture(0, Picture::default()))
            .expect("the fields are in their ranges");
        table
    }

    /// Puts a sequence set at an id, in place of what was there.
    pub fn put_sequence(&mut self, id: u32, set: Sequence) -> Result<(), Refusal> {
        changed(raw::put_sequence(&mut self.0, id, set.to_raw()))
    }

    /// Puts a picture set at an id, in place of what was there.
    pub fn put_picture(&mut self, id: u32, set: Picture) -> Result<(), Refusal> {
        changed(raw::put_picture(&mut self.0, id, set.to_raw()))
    }

    /// The sequence set with this id.
    pub fn sequence(&self, id: u32) -> Option<Sequence> {
        let found = raw::sequence_at(&self.0, id);
        found.there.then(|| Sequence::from_raw(found.sequence))
    }

    /// The picture set with this id.
    pub fn picture(&self, id: u32) -> Option<Picture> {
        let found = raw::picture_at(&self.0, id);
        found.there.then(|| Picture::from_raw(found.picture))
    }

    /// The table as the proved library has it.
    #[doc(hidden)]
    pub fn as_raw(&self) -> &raw::Table {
        &self.0
    }

    /// The same, to be changed by it.
    #[doc(hidden)]
    pub fn as_raw_mut(&mut self) -> &mut raw::Table {
        &mut self.0
    }
}

fn changed(answer: raw::ChangedOut) -> Result<(), Refusal> {
    match answer.number {
        0 => Ok(()),
        number => Err(Refusal::new(number, answer.value)),
    }
}
