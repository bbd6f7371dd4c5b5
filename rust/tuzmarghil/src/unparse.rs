//! The slice header back to the words that the proved library takes. What no words can hold becomes a count that no list has: the library refuses it in its place.

use crate::raw::{self, HeaderShort, ListWords, MarkedFlag, MarkedNumber, MarkedSigned};
use crate::raw::{WeightWords, Words};
use crate::{
    ColourPlane, DecRefPicMarking, Field, FieldPic, MemoryManagementControlOperation,
    ModificationOfPicNums, NumRefIdxActive, PicOrderCountLsb, PredWeight, PredWeightTable,
    RefPicListModifications, SliceFamily, SliceHeader, Table,
};

/// A count that no list has.
const NO_LIST: u32 = u32::MAX;

impl SliceHeader {
    /// The words, with the marks that the table's sets ask for where a field here does not tell whether it is there.
    pub fn to_words(&self, table: &Table) -> Words {
        let picture = table.picture(self.pic_parameter_set_id).unwrap_or_default();
        let sequence = table
            .sequence(picture.seq_parameter_set_id)
            .unwrap_or_default();
        let mut words = Words::default();
        let mut h = HeaderShort {
            first_mb_in_slice: self.first_mb_in_slice,
            slice_type: self.slice_type.id(),
            pic_parameter_set_id: self.pic_parameter_set_id,
            seq_parameter_set_id: self.seq_parameter_set_id,
            ..HeaderShort::default()
        };
        self.put_frame(&mut h.frame, sequence.frame_mbs_only_flag);
        self.put_order_count(&mut h.order_count);
        self.put_active_counts(&mut h.active_counts);
        put_modifications(&self.ref_pic_list_modification, &mut h, &mut words);
        if let Some(table) = &self.pred_weight_table {
            put_weights(table, &mut h.weights, &mut words);
        }
        if let Some(marking) = &self.dec_ref_pic_marking {
            put_marking(marking, &mut h, &mut words.marking);
        }
        h.quantiser.cabac_init_idc = number(self.cabac_init_idc);
        h.quantiser.slice_qp_delta = self.slice_qp_delta;
        h.quantiser.sp_for_switch_flag = flag(self.sp_for_switch_flag);
        h.quantiser.slice_qs_delta = signed(self.slice_qs_delta);
        let idc = u32::from(self.disable_deblocking_filter_idc);
        let control = picture.deblocking_filter_control_present_flag || idc != 0;
        h.filter.disable_deblocking_filter_idc = number(control.then_some(idc));
        h.filter.slice_alpha_c0_offset_div2 = signed(self.slice_alpha_c0_offset_div2);
        h.filter.slice_beta_offset_div2 = signed(self.slice_beta_offset_div2);
        h.filter.slice_group_change_cycle = number(self.slice_group_change_cycle);
        words.set_header(&h);
        words
    }

    fn put_frame(&self, to: &mut raw::Frame, frames_only: bool) {
        to.colour_plane_id = number(self.colour_plane.map(|plane| match plane {
            ColourPlane::Y => 0,
            ColourPlane::Cb => 1,
            ColourPlane::Cr => 2,
        }));
        to.frame_num = self.frame_num.into();
        let field = match self.field_pic {
            FieldPic::Frame => None,
            FieldPic::Field(field) => Some(field),
        };
        let told = !frames_only || field.is_some();
        to.field_pic_flag = flag(told.then_some(field.is_some()));
        to.bottom_field_flag = flag(field.map(|f| f == Field::Bottom));
        to.idr_pic_id = number(self.idr_pic_id);
    }

    fn put_order_count(&self, to: &mut raw::OrderCount) {
        match self.pic_order_cnt_lsb {
            None => {}
            Some(PicOrderCountLsb::Frame(lsb)) => to.pic_order_cnt_lsb = number(Some(lsb)),
            Some(PicOrderCountLsb::FieldsAbsolute {
                pic_order_cnt_lsb,
                delta_pic_order_cnt_bottom,
            }) => {
                to.pic_order_cnt_lsb = number(Some(pic_order_cnt_lsb));
                to.delta_pic_order_cnt_bottom = signed(Some(delta_pic_order_cnt_bottom));
            }
            Some(PicOrderCountLsb::FieldsDelta([first, second])) => {
                to.delta_pic_order_cnt = raw::Deltas {
                    there: true,
                    first,
                    second,
                };
            }
        }
        to.redundant_pic_cnt = number(self.redundant_pic_cnt);
    }

    fn put_active_counts(&self, to: &mut raw::ActiveCounts) {
        let (l0, l1) = match self.num_ref_idx_active {
            None => (None, None),
            Some(NumRefIdxActive::P {
                num_ref_idx_l0_active_minus1,
            }) => (Some(num_ref_idx_l0_active_minus1), None),
            Some(NumRefIdxActive::B {
                num_ref_idx_l0_active_minus1,
                num_ref_idx_l1_active_minus1,
            }) => (
                Some(num_ref_idx_l0_active_minus1),
                Some(num_ref_idx_l1_active_minus1),
            ),
        };
        let family = self.slice_type.family;
        let has_l0 = matches!(family, SliceFamily::P | SliceFamily::SP | SliceFamily::B);
        let told = has_l0 || l0.is_some();
        to.direct_spatial_mv_pred_flag = flag(self.direct_spatial_mv_pred_flag);
        to.num_ref_idx_active_override_flag = flag(told.then_some(l0.is_some()));
        to.num_ref_idx_l0_active_minus1 = number(l0);
        to.num_ref_idx_l1_active_minus1 = number(l1);
    }
}

fn number(n: Option<u32>) -> MarkedNumber {
    MarkedNumber {
        there: n.is_some(),
        value: n.unwrap_or(0),
    }
}

fn signed(n: Option<i32>) -> MarkedSigned {
    MarkedSigned {
        there: n.is_some(),
        value: n.unwrap_or(0),
    }
}

fn flag(b: Option<bool>) -> MarkedFlag {
    MarkedFlag {
        there: b.is_some(),
        value: b.unwrap_or(false),
    }
}

/// A list's entries, and how many there are: of more than its words hold, the count alone goes over.
fn put_operations(list: impl ExactSizeIterator<Item = (u32, u32, u32)>, to: &mut ListWords) -> u32 {
    let count = u32::try_from(list.len()).unwrap_or(NO_LIST);
    for (entry, to) in list.zip(to.chunks_exact_mut(3)) {
        (to[0], to[1], to[2]) = entry;
    }
    count
}

fn put_modifications(from: &RefPicListModifications, h: &mut HeaderShort, words: &mut Words) {
    let put = |list: &Option<Vec<ModificationOfPicNums>>, to: &mut ListWords| {
        let entry = |m: &_| match *m {
            ModificationOfPicNums::Subtract(n) => (0, n, 0),
            ModificationOfPicNums::Add(n) => (1, n, 0),
            ModificationOfPicNums::LongTermRef(n) => (2, n, 0),
            ModificationOfPicNums::SubtractViewIdx(n) => (4, n, 0),
            ModificationOfPicNums::AddViewIdx(n) => (5, n, 0),
        };
        let entries = list.as_deref().unwrap_or(&[]).iter().map(entry);
        (flag(Some(list.is_some())), put_operations(entries, to))
    };
    let (l0, l1) = match from {
        RefPicListModifications::I => (None, None),
        RefPicListModifications::P {
            ref_pic_list_modification_l0,
        } => (Some(ref_pic_list_modification_l0), None),
        RefPicListModifications::B {
            ref_pic_list_modification_l0,
            ref_pic_list_modification_l1,
        } => (
            Some(ref_pic_list_modification_l0),
            Some(ref_pic_list_modification_l1),
        ),
    };
    if let Some(list) = l0 {
        (h.ref_pic_list_modification_flag_l0, h.modifications_l0) = put(list, &mut words.l0);
    }
    if let Some(list) = l1 {
        (h.ref_pic_list_modification_flag_l1, h.modifications_l1) = put(list, &mut words.l1);
    }
}

fn put_weights(from: &PredWeightTable, to: &mut raw::WeightsShort, words: &mut Words) {
    to.there = true;
    to.luma_log2_weight_denom = from.luma_log2_weight_denom;
    to.chroma_log2_weight_denom = number(from.chroma_log2_weight_denom);
    let chroma = from.chroma_log2_weight_denom.is_some();
    let l0 = (&from.luma_weights, &from.chroma_weights);
    let l1 = (&from.luma_weights_l1, &from.chroma_weights_l1);
    to.l0 = put_weight_list(l0.0, l0.1, chroma, &mut words.w0);
    to.l1 = put_weight_list(l1.0, l1.1, chroma, &mut words.w1);
}

/// The entries of one list, and how many there are. With a chroma denominator each has a chroma half, else none has: other lists are none.
fn put_weight_list(
    luma: &[Option<PredWeight>],
    chroma: &[Vec<PredWeight>],
    has_chroma: bool,
    to: &mut WeightWords,
) -> u32 {
    if chroma.len() != if has_chroma { luma.len() } else { 0 } {
        return NO_LIST;
    }
    for (w, to) in luma.iter().zip(to.chunks_exact_mut(8)) {
        if let Some(w) = w {
            to[..3].copy_from_slice(&[1, w.weight, w.offset]);
        }
    }
    for (w, to) in chroma.iter().zip(to.chunks_exact_mut(8)) {
        match w.as_slice() {
            [] => {}
            [cb, cr] => to[3..].copy_from_slice(&[1, cb.weight, cb.offset, cr.weight, cr.offset]),
            _ => return NO_LIST,
        }
    }
    u32::try_from(luma.len()).unwrap_or(NO_LIST)
}

fn put_marking(from: &DecRefPicMarking, h: &mut HeaderShort, words: &mut ListWords) {
    use MemoryManagementControlOperation::*;
    match from {
        DecRefPicMarking::Idr {
            no_output_of_prior_pics_flag,
            long_term_reference_flag,
        } => {
            h.no_output_of_prior_pics_flag = flag(Some(*no_output_of_prior_pics_flag));
            h.long_term_reference_flag = flag(Some(*long_term_reference_flag));
        }
        DecRefPicMarking::SlidingWindow => {
            h.adaptive_ref_pic_marking_mode_flag = flag(Some(false));
        }
        DecRefPicMarking::Adaptive(list) => {
            h.adaptive_ref_pic_marking_mode_flag = flag(Some(true));
            let entry = |operation: &_| match *operation {
                ShortTermUnusedForRef {
                    difference_of_pic_nums_minus1,
                } => (1, difference_of_pic_nums_minus1, 0),
                LongTermUnusedForRef { long_term_pic_num } => (2, long_term_pic_num, 0),
                ShortTermUsedForLongTerm {
                    difference_of_pic_nums_minus1,
                    long_term_frame_idx,
                } => (3, difference_of_pic_nums_minus1, long_term_frame_idx),
                MaxUsedLongTermFrameRef {
                    max_long_term_frame_idx_plus1,
                } => (4, max_long_term_frame_idx_plus1, 0),
                AllRefPicturesUnused => (5, 0, 0),
                CurrentUsedForLongTerm {
                    long_term_frame_idx,
                } => (6, long_term_frame_idx, 0),
            };
            h.markings = put_operations(list.iter().map(entry), words);
        }
    }
}
