//! Prefix units (type 14).

use crate::raw::{PrefixShort, Words};
use crate::{NalHeader, NalHeaderExtension};

/// A prefix unit.
#[derive(Clone, Debug, PartialEq, Eq)]
#[cfg_attr(feature = "serde", derive(serde::Serialize))]
#[non_exhaustive]
pub struct PrefixNalUnit {
    /// The unit's first byte.
    pub nal_header: NalHeader,
    /// The three bytes after it.
    pub header_extension: NalHeaderExtension,
    /// There where the extension is SVC and `nal_ref_idc` is not 0.
    pub ref_base_pic: Option<PrefixNalUnitRef>,
}

/// `prefix_nal_unit_svc( )`
#[derive(Clone, Debug, PartialEq, Eq)]
#[cfg_attr(feature = "serde", derive(serde::Serialize))]
#[non_exhaustive]
pub struct PrefixNalUnitRef {
    /// `store_ref_base_pic_flag`
    pub store_ref_base_pic_flag: bool,
    /// `dec_ref_base_pic_marking( )`: there where `use_ref_base_pic_flag` or `store_ref_base_pic_flag` is set and `idr_flag` is not.
    pub dec_ref_base_pic_marking: Option<DecRefBasePicMarking>,
    /// `additional_prefix_nal_unit_extension_flag`
    pub additional_prefix_nal_unit_extension_flag: bool,
}

/// `dec_ref_base_pic_marking( )`
#[derive(Clone, Debug, PartialEq, Eq)]
#[cfg_attr(feature = "serde", derive(serde::Serialize))]
#[non_exhaustive]
pub struct DecRefBasePicMarking {
    /// `adaptive_ref_base_pic_marking_mode_flag`
    pub adaptive_ref_base_pic_marking_mode_flag: bool,
    /// The operations in order, the closing 0 left out; none where the flag is clear.
    pub operations: Vec<DecRefBasePicMarkingOp>,
}

/// A `memory_management_base_control_operation`, 1 or 2.
#[derive(Clone, Debug, PartialEq, Eq)]
#[cfg_attr(feature = "serde", derive(serde::Serialize))]
#[non_exhaustive]
#[allow(missing_docs)]
pub enum DecRefBasePicMarkingOp {
    ShortTermUnusedForRef {
        difference_of_base_pic_nums_minus1: u32,
    },
    LongTermUnusedForRef {
        long_term_base_pic_num: u32,
    },
}

impl PrefixNalUnit {
    pub(crate) fn from_raw(unit: &[u8], p: &PrefixShort, words: &Words) -> PrefixNalUnit {
        let store = p.store_ref_base_pic_flag;
        let adaptive = p.adaptive_ref_base_pic_marking_mode_flag;
        PrefixNalUnit {
            nal_header: NalHeader::from_byte(unit[0]),
            header_extension: NalHeaderExtension::from_bytes([unit[1], unit[2], unit[3]]),
            ref_base_pic: store.there.then(|| PrefixNalUnitRef {
                store_ref_base_pic_flag: store.value,
                dec_ref_base_pic_marking: adaptive.there.then(|| DecRefBasePicMarking {
                    adaptive_ref_base_pic_marking_mode_flag: adaptive.value,
                    operations: words
                        .base_markings(p)
                        .entries()
                        .map(|(code, first, _)| match code {
                            1 => DecRefBasePicMarkingOp::ShortTermUnusedForRef {
                                difference_of_base_pic_nums_minus1: first,
                            },
                            _ => DecRefBasePicMarkingOp::LongTermUnusedForRef {
                                long_term_base_pic_num: first,
                            },
                        })
                        .collect(),
                }),
                additional_prefix_nal_unit_extension_flag: p
                    .additional_prefix_nal_unit_extension_flag
                    .value,
            }),
        }
    }
}
