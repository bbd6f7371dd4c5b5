//! A unit's first byte and its extension.

use crate::raw;
use crate::Refusal;
use std::fmt;

/// `nal_unit_type`
#[derive(PartialEq, Eq, Hash, Debug, Copy, Clone)]
#[allow(missing_docs)]
pub enum UnitType {
    /// 0 and 24 to 31
    Unspecified(u8),
    SliceLayerWithoutPartitioningNonIdr,
    SliceDataPartitionALayer,
    SliceDataPartitionBLayer,
    SliceDataPartitionCLayer,
    SliceLayerWithoutPartitioningIdr,
    SEI,
    SeqParameterSet,
    PicParameterSet,
    AccessUnitDelimiter,
    EndOfSeq,
    EndOfStream,
    FillerData,
    SeqParameterSetExtension,
    PrefixNALUnit,
    SubsetSeqParameterSet,
    DepthParameterSet,
    SliceLayerWithoutPartitioningAux,
    SliceExtension,
    SliceExtensionViewComponent,
    /// 17, 18, 22 and 23
    Reserved(u8),
}

/// The types that are neither unspecified nor reserved, by number.
const NAMED: [(u8, UnitType); 19] = [
    (1, UnitType::SliceLayerWithoutPartitioningNonIdr),
    (2, UnitType::SliceDataPartitionALayer),
    (3, UnitType::SliceDataPartitionBLayer),
    (4, UnitType::SliceDataPartitionCLayer),
    (5, UnitType::SliceLayerWithoutPartitioningIdr),
    (6, UnitType::SEI),
    (7, UnitType::SeqParameterSet),
    (8, UnitType::PicParameterSet),
    (9, UnitType::AccessUnitDelimiter),
    (10, UnitType::EndOfSeq),
    (11, UnitType::EndOfStream),
    (12, UnitType::FillerData),
    (13, UnitType::SeqParameterSetExtension),
    (14, UnitType::PrefixNALUnit),
    (15, UnitType::SubsetSeqParameterSet),
    (16, UnitType::DepthParameterSet),
    (19, UnitType::SliceLayerWithoutPartitioningAux),
    (20, UnitType::SliceExtension),
    (21, UnitType::SliceExtensionViewComponent),
];

/// A number that is no `nal_unit_type`.
#[derive(PartialEq, Eq, Debug, Copy, Clone)]
pub enum UnitTypeError {
    /// A type has five bits.
    ValueOutOfRange(u8),
}

impl fmt::Display for UnitTypeError {
    fn fmt(&self, f: &mut fmt::Formatter<'_>) -> fmt::Result {
        let UnitTypeError::ValueOutOfRange(id) = self;
        write!(f, "{id} is no nal_unit_type, which is 0 to 31")
    }
}

impl std::error::Error for UnitTypeError {}

impl UnitType {
    /// The type with this number, 0 to 31.
    pub fn for_id(id: u8) -> Result<UnitType, UnitTypeError> {
        let named = || NAMED.iter().find(|(n, _)| *n == id).map(|(_, t)| *t);
        match (raw::unit_type(id), named()) {
            (1, Some(named)) => Ok(named),
            (2, _) => Ok(UnitType::Unspecified(id)),
            (3, _) => Ok(UnitType::Reserved(id)),
            _ => Err(UnitTypeError::ValueOutOfRange(id)),
        }
    }

    /// The type's number.
    pub fn id(self) -> u8 {
        match self {
            UnitType::Unspecified(id) | UnitType::Reserved(id) => id,
            named => NAMED.iter().find(|(_, t)| *t == named).unwrap().0,
        }
    }
}

/// A unit's first byte.
#[derive(Copy, Clone, PartialEq, Eq)]
pub struct NalHeader(u8);

impl NalHeader {
    /// A first byte; refusal 2 where its top bit is set.
    pub fn new(byte: u8) -> Result<NalHeader, Refusal> {
        match raw::nal_header(byte) {
            out if out.number == 0 => Ok(NalHeader(byte)),
            out => Err(Refusal::new(out.number, out.value)),
        }
    }

    pub(crate) fn from_byte(byte: u8) -> NalHeader {
        NalHeader(byte)
    }

    pub(crate) fn has_extension(self) -> bool {
        raw::nal_header(self.0).has_extension
    }

    /// `nal_ref_idc`
    pub fn nal_ref_idc(self) -> u8 {
        raw::nal_header(self.0).nal_ref_idc
    }

    /// `nal_unit_type`
    pub fn nal_unit_type(self) -> UnitType {
        let id = raw::nal_header(self.0).nal_unit_type;
        UnitType::for_id(id).expect("five bits are a type")
    }
}

impl From<NalHeader> for u8 {
    fn from(header: NalHeader) -> u8 {
        header.0
    }
}

impl fmt::Debug for NalHeader {
    fn fmt(&self, f: &mut fmt::Formatter<'_>) -> fmt::Result {
        f.debug_struct("NalHeader")
            .field("nal_ref_idc", &self.nal_ref_idc())
            .field("nal_unit_type", &self.nal_unit_type())
            .finish()
    }
}

/// `nal_unit_header_mvc_extension( )` and the bit before it, raw.
#[derive(Copy, Clone, PartialEq, Eq)]
pub struct NalHeaderMvcExtension(pub [u8; 3]);

/// `nal_unit_header_svc_extension( )` and the bit before it, raw.
#[derive(Copy, Clone, PartialEq, Eq)]
pub struct NalHeaderSvcExtension(pub [u8; 3]);

macro_rules! fields {
    ($type:ident $part:ident: $($name:ident $kind:ty;)*) => {
        impl $type { $(
            #[doc = concat!("`", stringify!($name), "`")]
            pub fn $name(&self) -> $kind {
                raw::extension(self.0).$part.$name
            }
        )* }
        impl fmt::Debug for $type {
            fn fmt(&self, f: &mut fmt::Formatter<'_>) -> fmt::Result {
                f.debug_struct(stringify!($type))
                    $(.field(stringify!($name), &self.$name()))*
                    .finish()
            }
        }
    };
}

fields! { NalHeaderMvcExtension mvc:
    non_idr_flag bool;
    priority_id u8;
    view_id u16;
    temporal_id u8;
    anchor_pic_flag bool;
    inter_view_flag bool;
}

fields! { NalHeaderSvcExtension svc:
    idr_flag bool;
    priority_id u8;
    no_inter_layer_pred_flag bool;
    dependency_id u8;
    quality_id u8;
    temporal_id u8;
    use_ref_base_pic_flag bool;
    discardable_flag bool;
    output_flag bool;
}

/// The three bytes after the first one of types 14, 20 and 21.
#[derive(Copy, Clone, Debug, PartialEq, Eq)]
#[allow(missing_docs)]
pub enum NalHeaderExtension {
    Mvc(NalHeaderMvcExtension),
    Svc(NalHeaderSvcExtension),
}

impl NalHeaderExtension {
    /// By the first bit: set is SVC, clear is MVC.
    pub fn from_bytes(bytes: [u8; 3]) -> NalHeaderExtension {
        if raw::extension(bytes).is_svc {
            NalHeaderExtension::Svc(NalHeaderSvcExtension(bytes))
        } else {
            NalHeaderExtension::Mvc(NalHeaderMvcExtension(bytes))
        }
    }

    /// The three bytes.
    pub fn to_bytes(self) -> [u8; 3] {
        match self {
            NalHeaderExtension::Mvc(e) => e.0,
            NalHeaderExtension::Svc(e) => e.0,
        }
    }

    /// The extension of a whole unit, where its type has one.
    pub fn of_unit(unit: &[u8]) -> Option<NalHeaderExtension> {
        match unit {
            [first, a, b, c, ..] if raw::nal_header(*first).has_extension => {
                Some(NalHeaderExtension::from_bytes([*a, *b, *c]))
            }
            _ => None,
        }
    }
}
