//! The slice header, with Rust's types.

use crate::raw;
use crate::raw::{HeaderShort, List, MarkedFlag, MarkedNumber, MarkedSigned, Weights, Words};
use crate::Table;

#[derive(Debug, Clone, Copy, PartialEq, Eq)]
#[cfg_attr(feature = "serde", derive(serde::Serialize))]
#[allow(missing_docs)]
pub enum SliceFamily {
    P,
    B,
    I,
    SP,
    SI,
}

/// Whether all slices of the picture have this type.
#[derive(Debug, Clone, Copy, PartialEq, Eq)]
#[cfg_attr(feature = "serde", derive(serde::Serialize))]
#[allow(missing_docs)]
pub enum SliceExclusive {
    Exclusive,
    NonExclusive,
}

/// `slice_type`
#[derive(Debug, Clone, Copy, PartialEq, Eq)]
#[cfg_attr(feature = "serde", derive(serde::Serialize))]
#[allow(missing_docs)]
pub struct SliceType {
    pub family: SliceFamily,
    pub exclusive: SliceExclusive,
}

impl SliceType {
    /// The type with this number, 0 to 9.
    pub fn from_id(id: u32) -> Option<SliceType> {
        let family = match id % 5 {
            0 => SliceFamily::P,
            1 => SliceFamily::B,
            2 => SliceFamily::I,
            3 => SliceFamily::SP,
            _ => SliceFamily::SI,
        };
        let exclusive = if id < 5 {
            SliceExclusive::NonExclusive
        } else {
            SliceExclusive::Exclusive
        };
        (id < 10).then_some(SliceType { family, exclusive })
    }

    /// The type's number.
    pub fn id(self) -> u32 {
        self.family as u32
            + match self.exclusive {
                SliceExclusive::NonExclusive => 0,
                SliceExclusive::Exclusive => 5,
            }
    }
}

/// `colour_plane_id`
#[derive(Debug, Clone, Copy, PartialEq, Eq)]
#[cfg_attr(feature = "serde", derive(serde::Serialize))]
#[allow(missing_docs)]
pub enum ColourPlane {
    Y,
    Cb,
    Cr,
}

/// `bottom_field_flag`
#[derive(Debug, Clone, Copy, PartialEq, Eq)]
#[cfg_attr(feature = "serde", derive(serde::Serialize))]
#[allow(missing_docs)]
pub enum Field {
    Top,
    Bottom,
}

/// `field_pic_flag`
#[derive(Debug, Clone, Copy, PartialEq, Eq)]
#[cfg_attr(feature = "serde", derive(serde::Serialize))]
#[allow(missing_docs)]
pub enum FieldPic {
    Frame,
    Field(Field),
}

/// The order count, by the sequence set's `pic_order_cnt_type`: 0 is the first two, 1 the third.
#[derive(Debug, Clone, Copy, PartialEq, Eq)]
#[cfg_attr(feature = "serde", derive(serde::Serialize))]
#[allow(missing_docs)]
pub enum PicOrderCountLsb {
    Frame(u32),
    FieldsAbsolute {
        pic_order_cnt_lsb: u32,
        delta_pic_order_cnt_bottom: i32,
    },
    FieldsDelta([i32; 2]),
}

/// The active reference counts, where the slice overrides the picture set's.
#[derive(Debug, Clone, Copy, PartialEq, Eq)]
#[cfg_attr(feature = "serde", derive(serde::Serialize))]
#[allow(missing_docs)]
pub enum NumRefIdxActive {
    P {
        num_ref_idx_l0_active_minus1: u32,
    },
    B {
        num_ref_idx_l0_active_minus1: u32,
        num_ref_idx_l1_active_minus1: u32,
    },
}

/// `modification_of_pic_nums_idc` 0, 1, 2, 4 and 5, with the operand.
#[derive(Debug, Clone, Copy, PartialEq, Eq)]
#[cfg_attr(feature = "serde", derive(serde::Serialize))]
#[allow(missing_docs)]
pub enum ModificationOfPicNums {
    Subtract(u32),
    Add(u32),
    LongTermRef(u32),
    SubtractViewIdx(u32),
    AddViewIdx(u32),
}

/// `ref_pic_list_modification( )`. A list is `None` where its flag is clear: a flagged list can be empty.
#[derive(Debug, Clone, PartialEq, Eq)]
#[cfg_attr(feature = "serde", derive(serde::Serialize))]
#[allow(missing_docs)]
pub enum RefPicListModifications {
    I,
    P {
        ref_pic_list_modification_l0: Option<Vec<ModificationOfPicNums>>,
    },
    B {
        ref_pic_list_modification_l0: Option<Vec<ModificationOfPicNums>>,
        ref_pic_list_modification_l1: Option<Vec<ModificationOfPicNums>>,
    },
}

#[derive(Debug, Clone, Copy, PartialEq, Eq)]
#[cfg_attr(feature = "serde", derive(serde::Serialize))]
#[allow(missing_docs)]
pub struct PredWeight {
    pub weight: i32,
    pub offset: i32,
}

/// `pred_weight_table( )`. The lists have an entry for each active reference. A chroma entry holds Cb and Cr, or nothing where its flag is clear; without chroma
/// parts the chroma lists are empty.
#[derive(Debug, Clone, PartialEq, Eq)]
#[cfg_attr(feature = "serde", derive(serde::Serialize))]
#[allow(missing_docs)]
pub struct PredWeightTable {
    pub luma_log2_weight_denom: u32,
    pub chroma_log2_weight_denom: Option<u32>,
    pub luma_weights: Vec<Option<PredWeight>>,
    pub chroma_weights: Vec<Vec<PredWeight>>,
    pub luma_weights_l1: Vec<Option<PredWeight>>,
    pub chroma_weights_l1: Vec<Vec<PredWeight>>,
}

/// `memory_management_control_operation` 1 to 6.
#[derive(Debug, Clone, Copy, PartialEq, Eq)]
#[cfg_attr(feature = "serde", derive(serde::Serialize))]
#[allow(missing_docs)]
pub enum MemoryManagementControlOperation {
    ShortTermUnusedForRef {
        difference_of_pic_nums_minus1: u32,
    },
    LongTermUnusedForRef {
        long_term_pic_num: u32,
    },
    ShortTermUsedForLongTerm {
        difference_of_pic_nums_minus1: u32,
        long_term_frame_idx: u32,
    },
    MaxUsedLongTermFrameRef {
        max_long_term_frame_idx_plus1: u32,
    },
    AllRefPicturesUnused,
    CurrentUsedForLongTerm {
        long_term_frame_idx: u32,
    },
}

/// `dec_ref_pic_marking( )`
#[derive(Debug, Clone, PartialEq, Eq)]
#[cfg_attr(feature = "serde", derive(serde::Serialize))]
#[allow(missing_docs)]
pub enum DecRefPicMarking {
    Idr {
        no_output_of_prior_pics_flag: bool,
        long_term_reference_flag: bool,
    },
    SlidingWindow,
    Adaptive(Vec<MemoryManagementControlOperation>),
}

/// The slice header (7.3.3), under `h264-reader`'s names. Beside them stand the ids of the two sets.
#[derive(Debug, Clone, PartialEq, Eq)]
#[cfg_attr(feature = "serde", derive(serde::Serialize))]
#[allow(missing_docs)]
pub struct SliceHeader {
    pub first_mb_in_slice: u32,
    pub slice_type: SliceType,
    pub pic_parameter_set_id: u32,
    /// The sequence set that the picture set names.
    pub seq_parameter_set_id: u32,
    pub colour_plane: Option<ColourPlane>,
    pub frame_num: u16,
    /// `Frame` also where the sequence set allows frames only.
    pub field_pic: FieldPic,
    pub idr_pic_id: Option<u32>,
    pub pic_order_cnt_lsb: Option<PicOrderCountLsb>,
    pub redundant_pic_cnt: Option<u32>,
    pub direct_spatial_mv_pred_flag: Option<bool>,
    pub num_ref_idx_active: Option<NumRefIdxActive>,
    pub ref_pic_list_modification: RefPicListModifications,
    pub pred_weight_table: Option<PredWeightTable>,
    pub dec_ref_pic_marking: Option<DecRefPicMarking>,
    pub cabac_init_idc: Option<u32>,
    pub slice_qp_delta: i32,
    pub sp_for_switch_flag: Option<bool>,
    pub slice_qs_delta: Option<i32>,
    /// 0 also where the picture set has no deblocking control.
    pub disable_deblocking_filter_idc: u8,
    pub slice_alpha_c0_offset_div2: Option<i32>,
    pub slice_beta_offset_div2: Option<i32>,
    pub slice_group_change_cycle: Option<u32>,
}

impl SliceHeader {
    /// A record that the proved reader gave, and the words that it left.
    pub(crate) fn from_raw(h: &HeaderShort, words: &Words) -> SliceHeader {
        let (frame, order, active) = (&h.frame, &h.order_count, &h.active_counts);
        let (quantiser, filter) = (&h.quantiser, &h.filter);
        SliceHeader {
            first_mb_in_slice: h.first_mb_in_slice,
            slice_type: SliceType::from_id(h.slice_type).expect("slice_type is 0 to 9"),
            pic_parameter_set_id: h.pic_parameter_set_id,
            seq_parameter_set_id: h.seq_parameter_set_id,
            colour_plane: frame.colour_plane_id.get().map(|id| match id {
                0 => ColourPlane::Y,
                1 => ColourPlane::Cb,
                _ => ColourPlane::Cr,
            }),
            frame_num: frame.frame_num as u16,
            field_pic: match (frame.field_pic_flag.value, frame.bottom_field_flag.value) {
                (false, _) => FieldPic::Frame,
                (true, false) => FieldPic::Field(Field::Top),
                (true, true) => FieldPic::Field(Field::Bottom),
            },
            idr_pic_id: frame.idr_pic_id.get(),
            pic_order_cnt_lsb: pic_order_cnt(order),
            redundant_pic_cnt: order.redundant_pic_cnt.get(),
            direct_spatial_mv_pred_flag: active.direct_spatial_mv_pred_flag.get(),
            num_ref_idx_active: num_ref_idx_active(active),
            ref_pic_list_modification: modifications(h, words),
            pred_weight_table: pred_weight_table(h, words),
            dec_ref_pic_marking: dec_ref_pic_marking(h, words),
            cabac_init_idc: quantiser.cabac_init_idc.get(),
            slice_qp_delta: quantiser.slice_qp_delta,
            sp_for_switch_flag: quantiser.sp_for_switch_flag.get(),
            slice_qs_delta: quantiser.slice_qs_delta.get(),
            disable_deblocking_filter_idc: filter.disable_deblocking_filter_idc.value as u8,
            slice_alpha_c0_offset_div2: filter.slice_alpha_c0_offset_div2.get(),
            slice_beta_offset_div2: filter.slice_beta_offset_div2.get(),
            slice_group_change_cycle: filter.slice_group_change_cycle.get(),
        }
    }
}

impl SliceHeader {
    /// The final QP (SliceQPY) of a header that is made or edited, by a table: 26 + `pic_init_qp_minus26` + `slice_qp_delta`; nothing where the picture set is not in
    /// it. That of a slice as it was read stands in [`crate::Slice`].
    pub fn qp(&self, table: &Table) -> Option<i64> {
        let id = self.pic_parameter_set_id;
        table.picture(id)?;
        Some(raw::final_qp(table.as_raw(), id, self.slice_qp_delta))
    }

    /// The final QS (QSY) likewise, of slices of types SP and SI.
    pub fn qs(&self, table: &Table) -> Option<i64> {
        let (id, delta) = (self.pic_parameter_set_id, self.slice_qs_delta?);
        table.picture(id)?;
        Some(raw::final_qs(table.as_raw(), id, delta))
    }
}

impl MarkedNumber {
    /// The number, where it is there.
    pub fn get(self) -> Option<u32> {
        self.there.then_some(self.value)
    }
}

impl MarkedSigned {
    /// The number, where it is there.
    pub fn get(self) -> Option<i32> {
        self.there.then_some(self.value)
    }
}

impl MarkedFlag {
    /// The flag, where it is there.
    pub fn get(self) -> Option<bool> {
        self.there.then_some(self.value)
    }
}

fn pic_order_cnt(order: &raw::OrderCount) -> Option<PicOrderCountLsb> {
    let deltas = order.delta_pic_order_cnt;
    match (
        order.pic_order_cnt_lsb.get(),
        order.delta_pic_order_cnt_bottom.get(),
    ) {
        (Some(pic_order_cnt_lsb), Some(delta_pic_order_cnt_bottom)) => {
            Some(PicOrderCountLsb::FieldsAbsolute {
                pic_order_cnt_lsb,
                delta_pic_order_cnt_bottom,
            })
        }
        (Some(lsb), None) => Some(PicOrderCountLsb::Frame(lsb)),
        (None, _) => deltas
            .there
            .then_some(PicOrderCountLsb::FieldsDelta([deltas.first, deltas.second])),
    }
}

fn num_ref_idx_active(active: &raw::ActiveCounts) -> Option<NumRefIdxActive> {
    let num_ref_idx_l0_active_minus1 = active.num_ref_idx_l0_active_minus1.get()?;
    Some(match active.num_ref_idx_l1_active_minus1.get() {
        None => NumRefIdxActive::P {
            num_ref_idx_l0_active_minus1,
        },
        Some(num_ref_idx_l1_active_minus1) => NumRefIdxActive::B {
            num_ref_idx_l0_active_minus1,
            num_ref_idx_l1_active_minus1,
        },
    })
}

fn modifications(h: &HeaderShort, words: &Words) -> RefPicListModifications {
    let (flag0, flag1) = (
        h.ref_pic_list_modification_flag_l0,
        h.ref_pic_list_modification_flag_l1,
    );
    let list = |flag: MarkedFlag, list: List<'_>| {
        flag.value.then(|| {
            list.entries()
                .map(|(code, operand, _)| match code {
                    0 => ModificationOfPicNums::Subtract(operand),
                    1 => ModificationOfPicNums::Add(operand),
                    2 => ModificationOfPicNums::LongTermRef(operand),
                    4 => ModificationOfPicNums::SubtractViewIdx(operand),
                    _ => ModificationOfPicNums::AddViewIdx(operand),
                })
                .collect()
        })
    };
    let ref_pic_list_modification_l0 = list(flag0, words.modifications_l0(h));
    match (flag0.there, flag1.there) {
        (false, _) => RefPicListModifications::I,
        (true, false) => RefPicListModifications::P {
            ref_pic_list_modification_l0,
        },
        (true, true) => RefPicListModifications::B {
            ref_pic_list_modification_l0,
            ref_pic_list_modification_l1: list(flag1, words.modifications_l1(h)),
        },
    }
}

fn pred_weight_table(h: &HeaderShort, words: &Words) -> Option<PredWeightTable> {
    let t = &h.weights;
    let chroma = t.chroma_log2_weight_denom.there;
    let luma_of = |list: Weights<'_>| {
        let entry = |w: raw::Weight| {
            w.luma_weight_flag.then_some(PredWeight {
                weight: w.luma_weight,
                offset: w.luma_offset,
            })
        };
        list.entries().map(entry).collect()
    };
    let chroma_of = |list: Weights<'_>| {
        let entry = |w: raw::Weight| match w.chroma_weight_flag {
            false => vec![],
            true => vec![
                PredWeight {
                    weight: w.cb_weight,
                    offset: w.cb_offset,
                },
                PredWeight {
                    weight: w.cr_weight,
                    offset: w.cr_offset,
                },
            ],
        };
        match chroma {
            false => vec![],
            true => list.entries().map(entry).collect(),
        }
    };
    t.there.then(|| PredWeightTable {
        luma_log2_weight_denom: t.luma_log2_weight_denom,
        chroma_log2_weight_denom: t.chroma_log2_weight_denom.get(),
        luma_weights: luma_of(words.weights_l0(h)),
        chroma_weights: chroma_of(words.weights_l0(h)),
        luma_weights_l1: luma_of(words.weights_l1(h)),
        chroma_weights_l1: chroma_of(words.weights_l1(h)),
    })
}

fn dec_ref_pic_marking(h: &HeaderShort, words: &Words) -> Option<DecRefPicMarking> {
    use MemoryManagementControlOperation::*;
    if let Some(no_output_of_prior_pics_flag) = h.no_output_of_prior_pics_flag.get() {
        return Some(DecRefPicMarking::Idr {
            no_output_of_prior_pics_flag,
            long_term_reference_flag: h.long_term_reference_flag.value,
        });
    }
    Some(match h.adaptive_ref_pic_marking_mode_flag.get()? {
        false => DecRefPicMarking::SlidingWindow,
        true => DecRefPicMarking::Adaptive(
            words
                .markings(h)
                .entries()
                .map(|(code, first, second)| match code {
                    1 => ShortTermUnusedForRef {
                        difference_of_pic_nums_minus1: first,
                    },
                    2 => LongTermUnusedForRef {
                        long_term_pic_num: first,
                    },
                    3 => ShortTermUsedForLongTerm {
                        difference_of_pic_nums_minus1: first,
                        long_term_frame_idx: second,
                    },
                    4 => MaxUsedLongTermFrameRef {
                        max_long_term_frame_idx_plus1: first,
                    },
                    5 => AllRefPicturesUnused,
                    _ => CurrentUsedForLongTerm {
                        long_term_frame_idx: first,
                    },
                })
                .collect(),
        ),
    })
}
