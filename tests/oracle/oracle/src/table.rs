//! Parameter sets, taken by the Rust's own readers.
use crate::words::b;
use h264_reader::nal::pps::{PicParameterSet, SliceGroup};
use h264_reader::nal::sps::{FrameMbsFlags, PicOrderCntType, SeqParameterSet};
use h264_reader::nal::{Nal, RefNal, UnitType};
use h264_reader::Context;
use std::panic::{catch_unwind, AssertUnwindSafe};

/// `aux` is the context picture sets are read under: it also holds the `~` sequence sets.
pub fn put(ctx: &mut Context, aux: &mut Context, hidden: bool, unit: &[u8]) -> Result<(), String> {
    if unit.is_empty() {
        return Err("empty".into());
    }
    let nal = RefNal::new(unit, &[], true);
    let ty = nal.header().map_err(|e| format!("{e:?}"))?.nal_unit_type();
    match ty {
        UnitType::SeqParameterSet => {
            let s = catch_unwind(AssertUnwindSafe(|| SeqParameterSet::from_bits(nal.rbsp_bits())))
                .map_err(|_| "panic".to_string())?
                .map_err(|e| format!("{e:?}"))?;
            if !hidden {
                ctx.put_seq_param_set(s.clone());
            }
            aux.put_seq_param_set(s);
        }
        UnitType::PicParameterSet => {
            let c: &Context = aux;
            let p = catch_unwind(AssertUnwindSafe(|| PicParameterSet::from_bits(c, nal.rbsp_bits())))
                .map_err(|_| "panic".to_string())?
                .map_err(|e| format!("{e:?}"))?;
            ctx.put_pic_param_set(p);
        }
        _ => return Err(format!("type {}", ty.id())),
    }
    Ok(())
}

pub fn table_words(ctx: &Context, status: &[Result<(), String>]) -> String {
    let mut s = String::from("ps=");
    for (i, r) in status.iter().enumerate() {
        if i > 0 {
            s.push(',');
        }
        match r {
            Ok(()) => s.push_str("ok"),
            Err(e) => {
                s.push_str("bad(");
                s.push_str(&e.replace(' ', "").replace(',', ";"));
                s.push(')');
            }
        }
    }
    if status.is_empty() {
        s.push('-');
    }
    for p in ctx.sps() {
        s.push(' ');
        s.push_str(&sequence_word(p));
    }
    for p in ctx.pps() {
        s.push(' ');
        s.push_str(&picture_word(p));
    }
    s
}

pub fn sequence_word(p: &SeqParameterSet) -> String {
    let (ty, lsb, zero) = match &p.pic_order_cnt {
        PicOrderCntType::TypeZero {
            log2_max_pic_order_cnt_lsb_minus4: l,
        } => (0, *l, 0),
        PicOrderCntType::TypeOne {
            delta_pic_order_always_zero_flag: z,
            ..
        } => (1, 0, b(*z)),
        PicOrderCntType::TypeTwo => (2, 0, 0),
    };
    format!(
        "sps:{}:{}:{}:{}:{}:{}:{}:{}:{}:{}",
        p.seq_parameter_set_id.id(),
        p.chroma_info.chroma_format.to_u32(),
        b(p.chroma_info.separate_colour_plane_flag),
        p.chroma_info.bit_depth_luma_minus8,
        p.log2_max_frame_num(),
        ty,
        lsb,
        zero,
        b(p.frame_mbs_flags == FrameMbsFlags::Frames),
        p.pic_size_in_map_units()
    )
}

pub fn picture_word(p: &PicParameterSet) -> String {
    let rate = match &p.slice_groups {
        Some(SliceGroup::Changing {
            slice_group_change_rate_minus1: r,
            ..
        }) => r + 1,
        _ => 0,
    };
    format!(
        "pps:{}:{}:{}:{}:{}:{}:{}:{}:{}:{}:{}:{}:{}",
        p.pic_parameter_set_id.id(),
        p.seq_parameter_set_id.id(),
        b(p.entropy_coding_mode_flag),
        b(p.bottom_field_pic_order_in_frame_present_flag),
        p.num_ref_idx_l0_default_active_minus1,
        p.num_ref_idx_l1_default_active_minus1,
        b(p.weighted_pred_flag),
        p.weighted_bipred_idc,
        p.pic_init_qp_minus26,
        p.pic_init_qs_minus26,
        b(p.deblocking_filter_control_present_flag),
        b(p.redundant_pic_cnt_present_flag),
        rate
    )
}
