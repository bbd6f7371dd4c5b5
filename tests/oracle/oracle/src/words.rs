//! The Rust's records as answer lines.
use crate::refusals::{io_error, reader_error, refused};
use h264_reader::nal::pps::PicParameterSet;
use h264_reader::nal::prefix::{DecRefBasePicMarkingOp, PrefixNalUnit, PrefixNalUnitError};
use h264_reader::nal::slice::*;
use h264_reader::nal::sps::{FrameMbsFlags, SeqParameterSet};
use h264_reader::nal::{NalHeader, NalHeaderExtension};
use std::fmt::Write as _;
use std::io::ErrorKind;

macro_rules! word {
    ($s:expr, $name:expr, $v:expr) => {
        write!($s, " {}={}", $name, $v).unwrap()
    };
}
pub fn b(v: bool) -> u8 {
    u8::from(v)
}

pub fn ext_words(s: &mut String, ext: &NalHeaderExtension) {
    match ext {
        NalHeaderExtension::Mvc(e) => {
            s.push_str(" ext=mvc");
            word!(s, "non_idr_flag", b(e.non_idr_flag()));
            word!(s, "priority_id", e.priority_id());
            word!(s, "view_id", e.view_id());
            word!(s, "temporal_id", e.temporal_id());
            word!(s, "anchor_pic_flag", b(e.anchor_pic_flag()));
            word!(s, "inter_view_flag", b(e.inter_view_flag()));
        }
        NalHeaderExtension::Svc(e) => {
            s.push_str(" ext=svc");
            word!(s, "idr_flag", b(e.idr_flag()));
            word!(s, "priority_id", e.priority_id());
            word!(s, "no_inter_layer_pred_flag", b(e.no_inter_layer_pred_flag()));
            word!(s, "dependency_id", e.dependency_id());
            word!(s, "quality_id", e.quality_id());
            word!(s, "temporal_id", e.temporal_id());
            word!(s, "use_ref_base_pic_flag", b(e.use_ref_base_pic_flag()));
            word!(s, "discardable_flag", b(e.discardable_flag()));
            word!(s, "output_flag", b(e.output_flag()));
        }
    }
}

pub fn joined(s: &mut String, name: &str, items: impl Iterator<Item = String>) {
    write!(s, " {name}=").unwrap();
    let mut any = false;
    for i in items {
        if any {
            s.push(',');
        }
        any = true;
        s.push_str(&i);
    }
    if !any {
        s.push('-');
    }
}
pub fn mods(s: &mut String, name: &str, l: &[ModificationOfPicNums]) {
    joined(
        s,
        name,
        l.iter().map(|m| match m {
            ModificationOfPicNums::Subtract(v) => format!("0:{v}"),
            ModificationOfPicNums::Add(v) => format!("1:{v}"),
            ModificationOfPicNums::LongTermRef(v) => format!("2:{v}"),
            ModificationOfPicNums::SubtractViewIdx(v) => format!("4:{v}"),
            ModificationOfPicNums::AddViewIdx(v) => format!("5:{v}"),
        }),
    );
}
pub fn weights(s: &mut String, name: &str, luma: &[Option<PredWeight>], chroma: Option<&[Vec<PredWeight>]>) {
    if let Some(c) = chroma {
        assert_eq!(c.len(), luma.len());
    }
    joined(
        s,
        name,
        luma.iter().enumerate().map(|(i, w)| {
            let mut t = match w {
                Some(w) => format!("{}:{}", w.weight, w.offset),
                None => "-".to_string(),
            };
            if let Some(c) = chroma {
                t.push('/');
                if c[i].is_empty() {
                    t.push('-');
                } else {
                    let c: Vec<String> = c[i].iter().map(|w| format!("{}:{}", w.weight, w.offset)).collect();
                    t.push_str(&c.join(":"));
                }
            }
            t
        }),
    );
}

pub fn slice_words(
    hdr: NalHeader,
    ext: Option<&NalHeaderExtension>,
    h: &SliceHeader,
    sps: &SeqParameterSet,
    pps: &PicParameterSet,
) -> String {
    let mut s = String::with_capacity(400);
    s.push_str("slice");
    word!(s, "nal_ref_idc", hdr.nal_ref_idc());
    word!(s, "nal_unit_type", hdr.nal_unit_type().id());
    if let Some(e) = ext {
        ext_words(&mut s, e);
    }
    word!(s, "first_mb_in_slice", h.first_mb_in_slice);
    let family = h.slice_type.family;
    let id = match family {
        SliceFamily::P => 0,
        SliceFamily::B => 1,
        SliceFamily::I => 2,
        SliceFamily::SP => 3,
        SliceFamily::SI => 4,
    } + if h.slice_type.exclusive == SliceExclusive::Exclusive {
        5
    } else {
        0
    };
    word!(s, "slice_type", id);
    word!(s, "pic_parameter_set_id", pps.pic_parameter_set_id.id());
    word!(s, "seq_parameter_set_id", sps.seq_parameter_set_id.id());
    if let Some(c) = &h.colour_plane {
        let c = match c {
            ColourPlane::Y => 0,
            ColourPlane::Cb => 1,
            ColourPlane::Cr => 2,
        };
        word!(s, "colour_plane_id", c);
    }
    word!(s, "frame_num", h.frame_num);
    match &h.field_pic {
        FieldPic::Field(f) => {
            s.push_str(" field_pic_flag=1");
            word!(s, "bottom_field_flag", b(*f == Field::Bottom));
        }
        FieldPic::Frame => {
            if sps.frame_mbs_flags != FrameMbsFlags::Frames {
                s.push_str(" field_pic_flag=0");
            }
        }
    }
    if let Some(v) = h.idr_pic_id {
        word!(s, "idr_pic_id", v);
    }
    match &h.pic_order_cnt_lsb {
        Some(PicOrderCountLsb::Frame(v)) => word!(s, "pic_order_cnt_lsb", v),
        Some(PicOrderCountLsb::FieldsAbsolute {
            pic_order_cnt_lsb,
            delta_pic_order_cnt_bottom,
        }) => {
            word!(s, "pic_order_cnt_lsb", pic_order_cnt_lsb);
            word!(s, "delta_pic_order_cnt_bottom", delta_pic_order_cnt_bottom);
        }
        Some(PicOrderCountLsb::FieldsDelta([d0, d1])) => {
            word!(s, "delta_pic_order_cnt", format_args!("{d0}:{d1}"))
        }
        None => {}
    }
    if let Some(v) = h.redundant_pic_cnt {
        word!(s, "redundant_pic_cnt", v);
    }
    if let Some(v) = h.direct_spatial_mv_pred_flag {
        word!(s, "direct_spatial_mv_pred_flag", b(v));
    }
    match &h.num_ref_idx_active {
        None => {
            if matches!(family, SliceFamily::P | SliceFamily::SP | SliceFamily::B) {
                s.push_str(" num_ref_idx_active_override_flag=0");
            }
        }
        Some(NumRefIdxActive::P {
            num_ref_idx_l0_active_minus1,
        }) => {
            s.push_str(" num_ref_idx_active_override_flag=1");
            word!(s, "num_ref_idx_l0_active_minus1", num_ref_idx_l0_active_minus1);
        }
        Some(NumRefIdxActive::B {
            num_ref_idx_l0_active_minus1,
            num_ref_idx_l1_active_minus1,
        }) => {
            s.push_str(" num_ref_idx_active_override_flag=1");
            word!(s, "num_ref_idx_l0_active_minus1", num_ref_idx_l0_active_minus1);
            word!(s, "num_ref_idx_l1_active_minus1", num_ref_idx_l1_active_minus1);
        }
    }
    match &h.ref_pic_list_modification {
        Some(RefPicListModifications::P {
            ref_pic_list_modification_l0,
        }) => mods(&mut s, "mods_l0", ref_pic_list_modification_l0),
        Some(RefPicListModifications::B {
            ref_pic_list_modification_l0,
            ref_pic_list_modification_l1,
        }) => {
            mods(&mut s, "mods_l0", ref_pic_list_modification_l0);
            mods(&mut s, "mods_l1", ref_pic_list_modification_l1);
        }
        Some(RefPicListModifications::I) => {}
        None => s.push_str(" unexpected-no-modification"),
    }
    if let Some(t) = &h.pred_weight_table {
        word!(s, "luma_log2_weight_denom", t.luma_log2_weight_denom);
        if let Some(v) = t.chroma_log2_weight_denom {
            word!(s, "chroma_log2_weight_denom", v);
        }
        let chroma = t.chroma_log2_weight_denom.is_some();
        weights(
            &mut s,
            "weights_l0",
            &t.luma_weights,
            chroma.then_some(&t.chroma_weights[..]),
        );
        if family == SliceFamily::B {
            weights(
                &mut s,
                "weights_l1",
                &t.luma_weights_l1,
                chroma.then_some(&t.chroma_weights_l1[..]),
            );
        }
    }
    match &h.dec_ref_pic_marking {
        None => {}
        Some(DecRefPicMarking::Idr {
            no_output_of_prior_pics_flag,
            long_term_reference_flag,
        }) => {
            word!(s, "no_output_of_prior_pics_flag", b(*no_output_of_prior_pics_flag));
            word!(s, "long_term_reference_flag", b(*long_term_reference_flag));
        }
        Some(DecRefPicMarking::SlidingWindow) => s.push_str(" adaptive_ref_pic_marking_mode_flag=0"),
        Some(DecRefPicMarking::Adaptive(ops)) => {
            s.push_str(" adaptive_ref_pic_marking_mode_flag=1");
            use MemoryManagementControlOperation::*;
            joined(
                &mut s,
                "mmco",
                ops.iter().map(|o| match o {
                    ShortTermUnusedForRef {
                        difference_of_pic_nums_minus1: d,
                    } => format!("1:{d}"),
                    LongTermUnusedForRef { long_term_pic_num: n } => format!("2:{n}"),
                    ShortTermUsedForLongTerm {
                        difference_of_pic_nums_minus1: d,
                        long_term_frame_idx: i,
                    } => {
                        format!("3:{d}:{i}")
                    }
                    MaxUsedLongTermFrameRef {
                        max_long_term_frame_idx_plus1: m,
                    } => format!("4:{m}"),
                    AllRefPicturesUnused => "5".to_string(),
                    CurrentUsedForLongTerm { long_term_frame_idx: i } => format!("6:{i}"),
                }),
            );
        }
    }
    if let Some(v) = h.cabac_init_idc {
        word!(s, "cabac_init_idc", v);
    }
    word!(s, "slice_qp_delta", h.slice_qp_delta);
    if let Some(v) = h.sp_for_switch_flag {
        word!(s, "sp_for_switch_flag", b(v));
    }
    if let Some(v) = h.slice_qs {
        word!(
            s,
            "slice_qs_delta",
            i64::from(v) - 26 - i64::from(pps.pic_init_qs_minus26)
        );
    }
    if pps.deblocking_filter_control_present_flag {
        word!(s, "disable_deblocking_filter_idc", h.disable_deblocking_filter_idc);
    }
    if let Some(v) = h.slice_alpha_c0_offset_div2 {
        word!(s, "slice_alpha_c0_offset_div2", v);
    }
    if let Some(v) = h.slice_beta_offset_div2 {
        word!(s, "slice_beta_offset_div2", v);
    }
    if let Some(v) = h.slice_group_change_cycle {
        word!(s, "slice_group_change_cycle", v);
    }
    s
}

pub fn prefix_words(hdr: NalHeader, r: &Result<PrefixNalUnit, PrefixNalUnitError>) -> String {
    match r {
        Ok(p) => {
            let mut s = String::from("prefix");
            word!(s, "nal_ref_idc", hdr.nal_ref_idc());
            ext_words(&mut s, &p.header_extension);
            if let Some(r) = &p.ref_base_pic {
                word!(s, "store_ref_base_pic_flag", b(r.store_ref_base_pic_flag));
                if let Some(m) = &r.dec_ref_base_pic_marking {
                    joined(
                        &mut s,
                        "base_mmco",
                        m.operations.iter().map(|o| match o {
                            DecRefBasePicMarkingOp::ShortTermUnusedForRef {
                                difference_of_base_pic_nums_minus1: d,
                            } => {
                                format!("1:{d}")
                            }
                            DecRefBasePicMarkingOp::LongTermUnusedForRef {
                                long_term_base_pic_num: n,
                            } => {
                                format!("2:{n}")
                            }
                        }),
                    );
                }
                word!(
                    s,
                    "additional_prefix_nal_unit_extension_flag",
                    b(r.additional_prefix_nal_unit_extension_flag)
                );
            }
            s
        }
        Err(PrefixNalUnitError::RbspError(e)) => reader_error(e),
        Err(PrefixNalUnitError::IoError(e)) if e.kind() == ErrorKind::UnexpectedEof => refused(4, 0),
        Err(PrefixNalUnitError::IoError(e)) => io_error("header extension", e),
        Err(PrefixNalUnitError::HeaderError(_)) => refused(2, 0),
        Err(PrefixNalUnitError::InvalidMemoryManagementBaseControlOperation(v)) => refused(23, i64::from(*v)),
    }
}
