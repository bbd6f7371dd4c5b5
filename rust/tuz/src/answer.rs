//! What reading a unit answers, as named fields in reading order: one list, which every form is written from.

use std::fmt::Display;
use tuzmarghil::raw::{self, ReadOut, Weight, Weights, Words};
use tuzmarghil::raw::{HeaderShort, List, MarkedFlag, MarkedNumber, MarkedSigned, PrefixShort};
use tuzmarghil::{NalHeaderExtension, PicParameterSet, Refusal, SeqParameterSet};
use tuzmarghil::{Table, UnitHead};

/// The names of slice types, modulo 5.
pub const FAMILIES: [&str; 5] = ["P", "B", "I", "SP", "SI"];

/// A field's content.
#[derive(Clone, Copy)]
pub enum Value<'a> {
    Number(i64),
    Flag(bool),
    Word(&'static str),
    /// two digits each
    Bytes([u8; 3]),
    /// in words
    Why(Refusal),
    Pair([i32; 2]),
    /// codes, and how many operands each has
    List(List<'a>, fn(u32) -> usize),
    /// the weights of each reference, and whether there are chroma parts
    Weights(Weights<'a>, bool),
}

/// A form in which an answer is written.
pub trait Form {
    /// `slice`, `prefix`, `sps`, `pps`, `other` or `refused`.
    fn kind(&mut self, kind: &'static str);
    /// A field that goes with it.
    fn field(&mut self, name: &'static str, value: Value<'_>);
    /// A field that `tuz cases` does not tell.
    fn more(&mut self, name: &'static str, value: Value<'_>) {
        self.field(name, value);
    }
    /// A set as one word, where the form has it so; else its fields are asked for.
    fn word(&mut self, _: &dyn Display) -> bool {
        false
    }
    /// Why the unit is refused.
    fn refusal(&mut self, why: Refusal) {
        self.field("refusal", Value::Number(why.number.into()));
        self.field("value", Value::Number(why.value));
        if let Some(bit) = why.bit {
            self.field("bit", Value::Number(bit as i64));
        }
        self.field("why", Value::Why(why));
    }
}

/// Every name that a field can have, in reading order.
pub const NAMES: [&str; 85] = [
    "type",
    "refusal",
    "value",
    "bit",
    "why",
    "nal_ref_idc",
    "nal_unit_type",
    "ext",
    "idr_flag",
    "non_idr_flag",
    "priority_id",
    "view_id",
    "no_inter_layer_pred_flag",
    "dependency_id",
    "quality_id",
    "temporal_id",
    "anchor_pic_flag",
    "inter_view_flag",
    "use_ref_base_pic_flag",
    "discardable_flag",
    "output_flag",
    "store_ref_base_pic_flag",
    "adaptive_ref_base_pic_marking_mode_flag",
    "base_mmco",
    "additional_prefix_nal_unit_extension_flag",
    "first_mb_in_slice",
    "slice_type",
    "family",
    "pic_parameter_set_id",
    "seq_parameter_set_id",
    "colour_plane_id",
    "frame_num",
    "field_pic_flag",
    "bottom_field_flag",
    "idr_pic_id",
    "pic_order_cnt_lsb",
    "delta_pic_order_cnt_bottom",
    "delta_pic_order_cnt",
    "redundant_pic_cnt",
    "direct_spatial_mv_pred_flag",
    "num_ref_idx_active_override_flag",
    "num_ref_idx_l0_active_minus1",
    "num_ref_idx_l1_active_minus1",
    "mods_l0",
    "mods_l1",
    "luma_log2_weight_denom",
    "chroma_log2_weight_denom",
    "weights_l0",
    "weights_l1",
    "no_output_of_prior_pics_flag",
    "long_term_reference_flag",
    "adaptive_ref_pic_marking_mode_flag",
    "mmco",
    "cabac_init_idc",
    "slice_qp_delta",
    "sp_for_switch_flag",
    "slice_qs_delta",
    "disable_deblocking_filter_idc",
    "slice_alpha_c0_offset_div2",
    "slice_beta_offset_div2",
    "slice_group_change_cycle",
    "ref_pic_list_modification_flag_l0",
    "ref_pic_list_modification_flag_l1",
    "bits",
    "qp",
    "chroma_format_idc",
    "separate_colour_plane_flag",
    "bit_depth_luma_minus8",
    "log2_max_frame_num",
    "pic_order_cnt_type",
    "log2_max_pic_order_cnt_lsb_minus4",
    "delta_pic_order_always_zero_flag",
    "frame_mbs_only_flag",
    "pic_size_in_map_units",
    "entropy_coding_mode_flag",
    "bottom_field_pic_order_in_frame_present_flag",
    "num_ref_idx_l0_default_active_minus1",
    "num_ref_idx_l1_default_active_minus1",
    "weighted_pred_flag",
    "weighted_bipred_idc",
    "pic_init_qp_minus26",
    "pic_init_qs_minus26",
    "deblocking_filter_control_present_flag",
    "redundant_pic_cnt_present_flag",
    "slice_group_change_rate",
];

/// Those of `tuz list`.
pub const LIST: [&str; 12] = [
    "type",
    "refusal",
    "value",
    "bit",
    "why",
    "ext",
    "slice_type",
    "family",
    "pic_parameter_set_id",
    "seq_parameter_set_id",
    "frame_num",
    "qp",
];

/// Those of `tuz qp`.
pub const QP: [&str; 8] = [
    "refusal",
    "value",
    "bit",
    "why",
    "slice_type",
    "family",
    "frame_num",
    "qp",
];

/// Those of `tuz kinds`, which has one of its own: the extension's three bytes.
pub const KINDS: [&str; 7] = [
    "type",
    "refusal",
    "value",
    "why",
    "nal_ref_idc",
    "ext",
    "ext_bytes",
];

/// What `tuz list` and `tuz qp` tell of a slice.
#[derive(Clone, Copy, Default)]
pub struct Slice {
    pub slice_type: u32,
    pub frame_num: u32,
    /// the final one
    pub qp: i64,
}

impl Slice {
    /// The slice that was read by this table.
    #[inline]
    pub fn of(table: &Table, words: &Words) -> Slice {
        let header = words.header();
        let (id, delta) = (header.pic_parameter_set_id, header.quantiser.slice_qp_delta);
        Slice {
            slice_type: header.slice_type,
            frame_num: header.frame.frame_num,
            qp: raw::final_qp(table.as_raw(), id, delta),
        }
    }

    pub fn family(&self) -> &'static str {
        FAMILIES[self.slice_type as usize % 5]
    }
}

/// Writes the answer for these bytes, with the words that go with it, and a slice's final QP where it is asked for.
pub fn write(unit: &[u8], out: &ReadOut, words: &Words, qp: Option<i64>, form: &mut impl Form) {
    let mut to = Fields(form);
    match out.answer {
        0 => to.other(out),
        1 => {
            to.0.kind("slice");
            to.first_byte(unit, true);
            to.slice(&words.header(), words);
            to.number("bits", out.bits as i64);
            if let Some(qp) = qp {
                to.0.more("qp", Value::Number(qp));
            }
        }
        2 => {
            to.0.kind("prefix");
            to.first_byte(unit, false);
            to.prefix(&out.prefix, words);
        }
        4 => to.sequence(&out.sequence_set()),
        5 => to.picture(&out.picture_set()),
        _ => to.refused(out),
    }
}

/// The same, without what only `tuz headers` tells.
pub fn brief(unit: &[u8], out: &ReadOut, slice: &Slice, form: &mut impl Form) {
    let mut to = Fields(form);
    match out.answer {
        0 => to.other(out),
        1 => {
            to.0.kind("slice");
            to.number("slice_type", slice.slice_type);
            to.put("family", Value::Word(slice.family()));
            to.number("frame_num", slice.frame_num);
            to.number("qp", slice.qp);
        }
        2 => {
            to.0.kind("prefix");
            let svc = matches!(
                NalHeaderExtension::of_unit(unit),
                Some(NalHeaderExtension::Svc(_))
            );
            to.put("ext", Value::Word(if svc { "svc" } else { "mvc" }));
        }
        4 => {
            to.0.kind("sps");
            to.number("seq_parameter_set_id", out.number);
        }
        5 => {
            to.0.kind("pps");
            to.number("pic_parameter_set_id", out.number);
        }
        _ => to.refused(out),
    }
}

/// A unit's head.
pub fn head(head: Result<UnitHead, Refusal>, form: &mut impl Form) {
    let mut to = Fields(form);
    match head {
        Ok(head) => {
            to.0.kind("head");
            to.number("type", head.nal_unit_type().id());
            to.number("nal_ref_idc", head.nal_ref_idc());
            if let Some(extension) = head.extension() {
                let svc = matches!(extension, NalHeaderExtension::Svc(_));
                to.put("ext", Value::Word(if svc { "svc" } else { "mvc" }));
                to.put("ext_bytes", Value::Bytes(extension.to_bytes()));
            }
        }
        Err(why) => {
            to.0.kind("refused");
            to.0.refusal(why);
        }
    }
}

struct Fields<'f, F>(&'f mut F);

impl<F: Form> Fields<'_, F> {
    fn put(&mut self, name: &'static str, value: Value<'_>) {
        self.0.field(name, value);
    }

    fn other(&mut self, out: &ReadOut) {
        self.0.kind("other");
        self.number("type", out.number);
    }

    fn refused(&mut self, out: &ReadOut) {
        self.0.kind("refused");
        self.0.refusal(out.refusal());
    }

    fn number(&mut self, name: &'static str, n: impl Into<i64>) {
        self.put(name, Value::Number(n.into()));
    }

    fn flag(&mut self, name: &'static str, b: bool) {
        self.put(name, Value::Flag(b));
    }

    fn list(&mut self, name: &'static str, list: List<'_>, operands: fn(u32) -> usize) {
        self.put(name, Value::List(list, operands));
    }

    fn weights(&mut self, name: &'static str, list: Weights<'_>, chroma: bool) {
        self.put(name, Value::Weights(list, chroma));
    }

    fn number_if(&mut self, name: &'static str, n: MarkedNumber) {
        if n.there {
            self.number(name, n.value);
        }
    }

    fn signed_if(&mut self, name: &'static str, n: MarkedSigned) {
        if n.there {
            self.number(name, n.value);
        }
    }

    fn flag_if(&mut self, name: &'static str, b: MarkedFlag) {
        if b.there {
            self.flag(name, b.value);
        }
    }

    fn first_byte(&mut self, unit: &[u8], with_type: bool) {
        self.number("nal_ref_idc", unit[0] >> 5 & 3);
        if with_type {
            self.number("nal_unit_type", unit[0] % 32);
        }
        match NalHeaderExtension::of_unit(unit) {
            None => {}
            Some(NalHeaderExtension::Mvc(e)) => {
                self.put("ext", Value::Word("mvc"));
                self.flag("non_idr_flag", e.non_idr_flag());
                self.number("priority_id", e.priority_id());
                self.number("view_id", e.view_id());
                self.number("temporal_id", e.temporal_id());
                self.flag("anchor_pic_flag", e.anchor_pic_flag());
                self.flag("inter_view_flag", e.inter_view_flag());
            }
            Some(NalHeaderExtension::Svc(e)) => {
                self.put("ext", Value::Word("svc"));
                self.flag("idr_flag", e.idr_flag());
                self.number("priority_id", e.priority_id());
                self.flag("no_inter_layer_pred_flag", e.no_inter_layer_pred_flag());
                self.number("dependency_id", e.dependency_id());
                self.number("quality_id", e.quality_id());
                self.number("temporal_id", e.temporal_id());
                self.flag("use_ref_base_pic_flag", e.use_ref_base_pic_flag());
                self.flag("discardable_flag", e.discardable_flag());
                self.flag("output_flag", e.output_flag());
            }
        }
    }

    fn sequence(&mut self, set: &SeqParameterSet) {
        self.0.kind("sps");
        if self.0.word(set) {
            return;
        }
        let s = &set.sequence;
        self.number("seq_parameter_set_id", set.seq_parameter_set_id);
        self.number("chroma_format_idc", s.chroma_format_idc);
        self.flag("separate_colour_plane_flag", s.separate_colour_plane_flag);
        self.number("bit_depth_luma_minus8", s.bit_depth_luma_minus8);
        self.number("log2_max_frame_num", s.log2_max_frame_num);
        self.number("pic_order_cnt_type", s.pic_order_cnt_type);
        self.number(
            "log2_max_pic_order_cnt_lsb_minus4",
            s.log2_max_pic_order_cnt_lsb_minus4,
        );
        self.flag(
            "delta_pic_order_always_zero_flag",
            s.delta_pic_order_always_zero_flag,
        );
        self.flag("frame_mbs_only_flag", s.frame_mbs_only_flag);
        self.number("pic_size_in_map_units", s.pic_size_in_map_units);
    }

    fn picture(&mut self, set: &PicParameterSet) {
        self.0.kind("pps");
        if self.0.word(set) {
            return;
        }
        let p = &set.picture;
        self.number("pic_parameter_set_id", set.pic_parameter_set_id);
        self.number("seq_parameter_set_id", p.seq_parameter_set_id);
        self.flag("entropy_coding_mode_flag", p.entropy_coding_mode_flag);
        self.flag(
            "bottom_field_pic_order_in_frame_present_flag",
            p.bottom_field_pic_order_in_frame_present_flag,
        );
        self.number(
            "num_ref_idx_l0_default_active_minus1",
            p.num_ref_idx_l0_default_active_minus1,
        );
        self.number(
            "num_ref_idx_l1_default_active_minus1",
            p.num_ref_idx_l1_default_active_minus1,
        );
        self.flag("weighted_pred_flag", p.weighted_pred_flag);
        self.number("weighted_bipred_idc", p.weighted_bipred_idc);
        self.number("pic_init_qp_minus26", p.pic_init_qp_minus26);
        self.number("pic_init_qs_minus26", p.pic_init_qs_minus26);
        self.flag(
            "deblocking_filter_control_present_flag",
            p.deblocking_filter_control_present_flag,
        );
        self.flag(
            "redundant_pic_cnt_present_flag",
            p.redundant_pic_cnt_present_flag,
        );
        self.number("slice_group_change_rate", p.slice_group_change_rate);
    }

    fn prefix(&mut self, p: &PrefixShort, words: &Words) {
        self.flag_if("store_ref_base_pic_flag", p.store_ref_base_pic_flag);
        let adaptive = p.adaptive_ref_base_pic_marking_mode_flag;
        self.flag_if("adaptive_ref_base_pic_marking_mode_flag", adaptive);
        if adaptive.value {
            self.list("base_mmco", words.base_markings(p), |_| 1);
        }
        self.flag_if(
            "additional_prefix_nal_unit_extension_flag",
            p.additional_prefix_nal_unit_extension_flag,
        );
    }

    fn slice(&mut self, h: &HeaderShort, words: &Words) {
        self.number("first_mb_in_slice", h.first_mb_in_slice);
        self.number("slice_type", h.slice_type);
        let family = FAMILIES[h.slice_type as usize % 5];
        self.0.more("family", Value::Word(family));
        self.number("pic_parameter_set_id", h.pic_parameter_set_id);
        self.number("seq_parameter_set_id", h.seq_parameter_set_id);
        self.number_if("colour_plane_id", h.frame.colour_plane_id);
        self.number("frame_num", h.frame.frame_num);
        self.flag_if("field_pic_flag", h.frame.field_pic_flag);
        self.flag_if("bottom_field_flag", h.frame.bottom_field_flag);
        self.number_if("idr_pic_id", h.frame.idr_pic_id);
        let order = &h.order_count;
        self.number_if("pic_order_cnt_lsb", order.pic_order_cnt_lsb);
        self.signed_if(
            "delta_pic_order_cnt_bottom",
            order.delta_pic_order_cnt_bottom,
        );
        let deltas = order.delta_pic_order_cnt;
        if deltas.there {
            let pair = [deltas.first, deltas.second];
            self.put("delta_pic_order_cnt", Value::Pair(pair));
        }
        self.number_if("redundant_pic_cnt", order.redundant_pic_cnt);
        let active = &h.active_counts;
        self.flag_if(
            "direct_spatial_mv_pred_flag",
            active.direct_spatial_mv_pred_flag,
        );
        self.flag_if(
            "num_ref_idx_active_override_flag",
            active.num_ref_idx_active_override_flag,
        );
        self.number_if(
            "num_ref_idx_l0_active_minus1",
            active.num_ref_idx_l0_active_minus1,
        );
        self.number_if(
            "num_ref_idx_l1_active_minus1",
            active.num_ref_idx_l1_active_minus1,
        );
        let (flag0, flag1) = (
            h.ref_pic_list_modification_flag_l0,
            h.ref_pic_list_modification_flag_l1,
        );
        if flag0.there {
            self.list("mods_l0", words.modifications_l0(h), |_| 1);
        }
        if flag1.there {
            self.list("mods_l1", words.modifications_l1(h), |_| 1);
        }
        let weights = &h.weights;
        if weights.there {
            self.number("luma_log2_weight_denom", weights.luma_log2_weight_denom);
            let chroma = weights.chroma_log2_weight_denom;
            self.number_if("chroma_log2_weight_denom", chroma);
            self.weights("weights_l0", words.weights_l0(h), chroma.there);
            if h.slice_type % 5 == 1 {
                self.weights("weights_l1", words.weights_l1(h), chroma.there);
            }
        }
        self.flag_if(
            "no_output_of_prior_pics_flag",
            h.no_output_of_prior_pics_flag,
        );
        self.flag_if("long_term_reference_flag", h.long_term_reference_flag);
        let adaptive = h.adaptive_ref_pic_marking_mode_flag;
        self.flag_if("adaptive_ref_pic_marking_mode_flag", adaptive);
        if adaptive.value {
            let operands = |code| match code {
                3 => 2,
                5 => 0,
                _ => 1,
            };
            self.list("mmco", words.markings(h), operands);
        }
        self.number_if("cabac_init_idc", h.quantiser.cabac_init_idc);
        self.number("slice_qp_delta", h.quantiser.slice_qp_delta);
        self.flag_if("sp_for_switch_flag", h.quantiser.sp_for_switch_flag);
        self.signed_if("slice_qs_delta", h.quantiser.slice_qs_delta);
        let filter = &h.filter;
        self.number_if(
            "disable_deblocking_filter_idc",
            filter.disable_deblocking_filter_idc,
        );
        self.signed_if(
            "slice_alpha_c0_offset_div2",
            filter.slice_alpha_c0_offset_div2,
        );
        self.signed_if("slice_beta_offset_div2", filter.slice_beta_offset_div2);
        self.number_if("slice_group_change_cycle", filter.slice_group_change_cycle);
        self.flag_if("ref_pic_list_modification_flag_l0", flag0);
        self.flag_if("ref_pic_list_modification_flag_l1", flag1);
    }
}

impl Value<'_> {
    /// As answer lines have it.
    pub fn text(self, to: &mut Vec<u8>) {
        match self {
            Value::Number(n) => number(to, n),
            Value::Flag(b) => to.push(b'0' + u8::from(b)),
            Value::Word(w) => to.extend_from_slice(w.as_bytes()),
            Value::Bytes(bytes) => to.extend(bytes.into_iter().flat_map(hex)),
            Value::Why(why) => to.extend_from_slice(why.reason().as_bytes()),
            Value::Pair(pair) => colons(to, &pair),
            Value::List(list, operands) => {
                let mut before = Commas::new();
                for (code, first, second) in list.entries() {
                    before.put(to);
                    colons(to, &[code, first, second][..1 + operands(code)]);
                }
                before.none(to);
            }
            Value::Weights(list, chroma) => {
                let mut before = Commas::new();
                for weight in list.entries() {
                    before.put(to);
                    match luma(weight) {
                        None => to.push(b'-'),
                        Some(luma) => colons(to, &luma),
                    }
                    match chroma.then(|| chroma_of(weight)) {
                        None => {}
                        Some(None) => to.extend_from_slice(b"/-"),
                        Some(Some(chroma)) => {
                            to.push(b'/');
                            colons(to, &chroma);
                        }
                    }
                }
                before.none(to);
            }
        }
    }

    /// As JSON has it.
    pub fn json(self, to: &mut Vec<u8>) {
        match self {
            Value::Number(n) => number(to, n),
            Value::Flag(b) => to.extend_from_slice(if b { b"true" } else { b"false" }),
            Value::Word(w) => quoted(to, w),
            Value::Bytes(bytes) => {
                to.push(b'"');
                to.extend(bytes.into_iter().flat_map(hex));
                to.push(b'"');
            }
            Value::Why(why) => quoted(to, &why.reason()),
            Value::Pair(pair) => array(to, &pair),
            Value::List(list, operands) => {
                to.push(b'[');
                let mut before = Commas::new();
                for (code, first, second) in list.entries() {
                    before.put(to);
                    array(to, &[code, first, second][..1 + operands(code)]);
                }
                to.push(b']');
            }
            Value::Weights(list, chroma) => {
                to.push(b'[');
                let mut before = Commas::new();
                for weight in list.entries() {
                    before.put(to);
                    to.extend_from_slice(b"{\"luma\":");
                    array_or_null(to, luma(weight));
                    if chroma {
                        to.extend_from_slice(b",\"chroma\":");
                        array_or_null(to, chroma_of(weight));
                    }
                    to.push(b'}');
                }
                to.push(b']');
            }
        }
    }
}

/// A byte's two digits.
fn hex(byte: u8) -> [u8; 2] {
    [byte >> 4, byte & 15].map(|n| b"0123456789abcdef"[usize::from(n)])
}

/// Weight and offset; nothing where the flag is clear.
fn luma(w: Weight) -> Option<[i32; 2]> {
    w.luma_weight_flag.then_some([w.luma_weight, w.luma_offset])
}

/// Weight and offset of Cb, then of Cr; nothing where the flag is clear.
fn chroma_of(w: Weight) -> Option<[i32; 4]> {
    w.chroma_weight_flag
        .then_some([w.cb_weight, w.cb_offset, w.cr_weight, w.cr_offset])
}

/// A comma before each entry but the first.
struct Commas(bool);

impl Commas {
    fn new() -> Commas {
        Commas(false)
    }

    fn put(&mut self, to: &mut Vec<u8>) {
        if std::mem::replace(&mut self.0, true) {
            to.push(b',');
        }
    }

    /// `-` where there was no entry.
    fn none(self, to: &mut Vec<u8>) {
        if !self.0 {
            to.push(b'-');
        }
    }
}

fn colons<N: Copy + Into<i64>>(to: &mut Vec<u8>, numbers: &[N]) {
    for (i, n) in numbers.iter().enumerate() {
        if i > 0 {
            to.push(b':');
        }
        number(to, (*n).into());
    }
}

fn array<N: Copy + Into<i64>>(to: &mut Vec<u8>, numbers: &[N]) {
    to.push(b'[');
    let mut before = Commas::new();
    for n in numbers {
        before.put(to);
        number(to, (*n).into());
    }
    to.push(b']');
}

fn array_or_null<const N: usize>(to: &mut Vec<u8>, numbers: Option<[i32; N]>) {
    match numbers {
        None => to.extend_from_slice(b"null"),
        Some(numbers) => array(to, &numbers),
    }
}

/// A text that needs no escapes.
fn quoted(to: &mut Vec<u8>, text: &str) {
    to.push(b'"');
    to.extend_from_slice(text.as_bytes());
    to.push(b'"');
}

/// A number in digits: most have one, and going through `fmt` for each takes longer than reading the unit.
pub fn number(to: &mut Vec<u8>, n: i64) {
    if (0..10).contains(&n) {
        return to.push(b'0' + n as u8);
    }
    let mut digits = [0; 20];
    let (mut at, mut rest) = (digits.len(), n.unsigned_abs());
    while rest > 0 {
        at -= 1;
        digits[at] = b'0' + (rest % 10) as u8;
        rest /= 10;
    }
    if n < 0 {
        at -= 1;
        digits[at] = b'-';
    }
    to.extend_from_slice(&digits[at..]);
}

#[cfg(test)]
mod tests {
    use super::*;

    #[test]
    fn numbers_are_as_fmt_has_them() {
        let powers = (0..63).flat_map(|k| [-1, 0, 1].map(|d| (1i64 << k) + d));
        let tens = (0..19).flat_map(|k| [-1, 0, 1].map(|d| 10i64.pow(k) + d));
        for n in powers.chain(tens).chain([0, i64::MAX, i64::MIN]) {
            for n in [n, n.wrapping_neg()] {
                let mut text = Vec::new();
                number(&mut text, n);
                assert_eq!(String::from_utf8(text).unwrap(), n.to_string());
            }
        }
    }

    /// Each name is in the list of names, and they come in its order: a row of CSV is written so.
    #[test]
    fn names_stand_in_reading_order() {
        // a B slice in which every mark and every flag is set
        let words = Words {
            numbers: [1; 57],
            ..Words::default()
        };
        let flag = MarkedFlag {
            there: true,
            value: true,
        };
        let mut out = ReadOut {
            has_bit: true,
            ..ReadOut::default()
        };
        out.prefix.store_ref_base_pic_flag = flag;
        out.prefix.adaptive_ref_base_pic_marking_mode_flag = flag;
        out.prefix.additional_prefix_nal_unit_extension_flag = flag;

        /// Where the last field stands in the list, and all that were met.
        struct Order(usize, Vec<&'static str>);
        impl Form for Order {
            fn kind(&mut self, _: &'static str) {
                self.0 = 0;
            }
            fn field(&mut self, name: &'static str, _: Value<'_>) {
                let at = NAMES.iter().position(|n| *n == name).unwrap();
                assert!(self.0 <= at, "{name}");
                self.0 = at + 1;
                self.1.push(name);
            }
        }
        let mut order = Order(0, vec![]);
        for (answer, unit) in [
            (0, [9, 0, 0, 0]),
            (1, [0x65, 0, 0, 0]),
            (1, [0x74, 0, 0, 0]),
            (2, [0x6E, 0x80, 0, 0]),
            (3, [0, 0, 0, 0]),
            (4, [0x67, 0, 0, 0]),
            (5, [0x68, 0, 0, 0]),
        ] {
            out.answer = answer;
            write(&unit, &out, &words, Some(0), &mut order);
            brief(&unit, &out, &Slice::default(), &mut order);
        }
        assert!(NAMES.iter().all(|n| order.1.contains(n)));
        for few in [&LIST[..], &QP, &KINDS[..6]] {
            let mut places = few.iter().map(|n| NAMES.iter().position(|m| m == n));
            let mut last = None;
            assert!(places.all(|at| std::mem::replace(&mut last, at) < at));
        }
    }
}
