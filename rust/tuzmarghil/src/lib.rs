//! H.264 slice headers, prefix units, parameter sets and NAL headers, read by code that is proved.
//!
//! The reading is done by a static library that is written in Rattle and proved equal to a definition of the standard's syntax (`docs/PROMISES.md` of the
//! repository says what is proved, theorem by theorem). This crate gives its answers Rust's types, under the names that `h264-reader` has for them. Every unit is
//! read by itself: damage stays where it is.
//!
//! ```
//! use tuzmarghil::{read_unit, reports, SliceFamily, Table, Unit};
//!
//! // a recording: a sequence set, a picture set, and a slice that is read by them
//! let recording = [
//!     0, 0, 0, 1, 0x67, 0x42, 0xC0, 0x0A, 0xDA, 0x0B, 0x13, 0x90, 0, 0, 0, 1, 0x68, 0xCE, 0x04, 0x62, 0, 0, 1, 0x65, 0x88, 0x84, 0xA0,
//! ];
//! let mut table = Table::new();
//! let found: Vec<_> = reports(&mut table, &recording)?.map(|r| r.unit).collect();
//! assert!(matches!(found[0], Ok(Unit::Sequence(_))));
//! assert!(matches!(found[1], Ok(Unit::Picture(_))));
//! assert!(matches!(found[2], Ok(Unit::Slice(_))));
//! assert_eq!(table.sequence(0).unwrap().pic_size_in_map_units, 99);
//!
//! // a unit by itself, by the table that is there now
//! let mut scratch = Vec::new();
//! let slice = match read_unit(&table, &[0x65, 0x88, 0x84, 0xA0], &mut scratch)? {
//!     Unit::Slice(slice) => slice,
//!     other => panic!("{other:?}"),
//! };
//! assert_eq!(slice.header.slice_type.family, SliceFamily::I);
//! assert_eq!(slice.header.frame_num, 0);
//! assert_eq!(slice.qp, 30);
//!
//! // a torn unit is refused, with the rules' number, the bit of the body where the refused field begins, and a reason to read
//! let torn = read_unit(&table, &[0x65, 0x88], &mut scratch).unwrap_err();
//! assert_eq!((torn.number, torn.value, torn.bit), (5, 0, Some(8)));
//! assert_eq!(torn.to_string(), "refused 5 at bit 8: the bits ran out inside a field");
//! # Ok::<(), tuzmarghil::Refusal>(())
//! ```
#![warn(missing_docs)]

mod container;
mod convert;
mod exposures;
mod headers;
mod length;
mod nal;
mod piece;
mod prefix;
#[doc(hidden)]
#[allow(rustdoc::broken_intra_doc_links)] // the records' comments speak of bits
pub mod raw;
mod refusal;
#[cfg(feature = "serde")]
mod serial;
mod slice;
mod stream;
mod table;
mod text;
mod unit;
mod units;
mod unparse;
mod walk;
mod words;
mod write;

pub use container::{container, container_needs, in_container, looks_framed, CONTAINER_LOOK};
pub use convert::{to_lengths, to_lengths_into, to_start_codes, to_start_codes_into};
pub use exposures::{exposures, Exposure, ExposureTotals, Exposures, Stacker, StreamExposures};
pub use length::LengthFramed;
pub use nal::{
    NalHeader, NalHeaderExtension, NalHeaderMvcExtension, NalHeaderSvcExtension, UnitType,
    UnitTypeError,
};
pub use prefix::{DecRefBasePicMarking, DecRefBasePicMarkingOp, PrefixNalUnit, PrefixNalUnitRef};
pub use refusal::Refusal;
pub use slice::{
    ColourPlane, DecRefPicMarking, Field, FieldPic, MemoryManagementControlOperation,
    ModificationOfPicNums, NumRefIdxActive, PicOrderCountLsb, PredWeight, PredWeightTable,
    RefPicListModifications, SliceExclusive, SliceFamily, SliceHeader, SliceType,
};
pub use stream::{Stream, StreamHead, StreamReport};
pub use table::{PicParameterSet, Picture, SeqParameterSet, Sequence, Table};
pub use text::{SetId, WordError};
pub use unit::{read_unit, Reading, Slice, Unit, UnitHead, UnitReader};
pub use units::Units;
pub use walk::{reports, Report, Reports};
pub use write::write_header;

#[cfg(doctest)]
#[doc = include_str!("../README.md")]
struct Readme;

#[cfg(doctest)]
#[doc = include_str!("../../../docs/MIGRATION.md")]
struct Migration;

/// The number of the layout in which records and words cross the boundary to the proved library, which is asked for it before anything else;
/// `include/tuzmarghil.h` has the same.
pub const LAYOUT: u32 = raw::LAYOUT;

/// The greatest length of a unit or a recording that one call takes, in bytes; beyond it the answer is refusal 27.
pub const LIMIT: usize = 268_435_456;

/// The length of a buffer that holds every header, in bytes: [`write_header`] never refuses it with 26.
pub const HEADER_BYTES: usize = raw::HEADER_BYTES;
