//! The Rust's errors as the rules' refusals.
use h264_reader::nal::pps::PicParamSetIdError;
use h264_reader::nal::slice::SliceHeaderError;
use h264_reader::rbsp::BitReaderError;
use std::io::ErrorKind;

pub fn refused(no: u32, value: i64) -> String {
    format!("refused {no} value={value}")
}
pub fn io_error(name: &str, e: &std::io::Error) -> String {
    format!("ioerror {:?} field={name}", e.kind())
}
pub fn reader_error(e: &BitReaderError) -> String {
    match e {
        BitReaderError::ReaderError(name, e) if e.kind() == ErrorKind::UnexpectedEof => {
            refused(if *name == "slice_header" { 22 } else { 5 }, 0)
        }
        BitReaderError::ReaderError(name, e) => io_error(name, e),
        BitReaderError::ExpGolombTooLarge(_) => refused(6, 0),
        BitReaderError::RemainingData => "unexpected RemainingData".to_string(),
    }
}
pub fn slice_error(e: &SliceHeaderError) -> String {
    use SliceHeaderError::*;
    match e {
        RbspError(e) => reader_error(e),
        InvalidSliceType(v) => refused(7, i64::from(*v)),
        InvalidSeqParamSetId(PicParamSetIdError::IdTooLarge(v)) => refused(8, i64::from(*v)),
        UndefinedPicParamSetId(id) => refused(9, i64::from(id.id())),
        UndefinedSeqParamSetId(id) => refused(10, i64::from(id.id())),
        ColourPlaneError(h264_reader::nal::slice::ColourPlaneError::InvalidId(v)) => refused(11, i64::from(*v)),
        InvalidModificationOfPicNumIdc(v) => refused(12, i64::from(*v)),
        UnsupportedSyntax(_) => refused(13, 0),
        InvalidMemoryManagementControlOperation(v) => refused(15, i64::from(*v)),
        InvalidSliceQpDelta(v) => refused(16, i64::from(*v)),
        InvalidSliceQsDelta(v) => refused(17, i64::from(*v)),
        InvalidDisableDeblockingFilterIdc(v) => refused(18, i64::from(*v)),
        InvalidSliceAlphaC0OffsetDiv2(v) => refused(19, i64::from(*v)),
        InvalidSliceBetaOffsetDiv2(v) => refused(20, i64::from(*v)),
        InvalidNumRefIdx(_, v) => refused(21, i64::from(*v)),
    }
}
