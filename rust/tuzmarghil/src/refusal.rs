//! Why a call gives no answer.

use std::fmt;

/// A refusal: the rules' number, its value, and where in the body it arises.
#[derive(Clone, Copy, Debug, PartialEq, Eq)]
#[cfg_attr(feature = "serde", derive(serde::Serialize))]
#[non_exhaustive]
pub struct Refusal {
    /// The rules' number, 1 to 29, 34 or 35.
    pub number: u32,
    /// The value that goes with the number: the field's content, a set's id, a place, the bytes needed, or 0.
    pub value: i64,
    /// Where the refused field begins: its first bit in the unescaped body, counted from 0. A refusal that does not arise while a body is read has none.
    pub bit: Option<usize>,
}

impl Refusal {
    /// A refusal with the rules' number and value, and no place.
    pub fn new(number: u32, value: i64) -> Refusal {
        Refusal {
            number,
            value,
            bit: None,
        }
    }

    /// A refusal with the rules' number and value, of the field that begins at a bit.
    pub fn at(number: u32, value: i64, bit: usize) -> Refusal {
        Refusal {
            number,
            value,
            bit: Some(bit),
        }
    }

    /// Why, in words.
    pub fn reason(&self) -> String {
        Reason(self).to_string()
    }
}

impl fmt::Display for Refusal {
    fn fmt(&self, f: &mut fmt::Formatter<'_>) -> fmt::Result {
        write!(f, "refused {}", self.number)?;
        if let Some(bit) = self.bit {
            write!(f, " at bit {bit}")?;
        }
        write!(f, ": {}", Reason(self))
    }
}

impl std::error::Error for Refusal {}

struct Reason<'a>(&'a Refusal);

impl fmt::Display for Reason<'_> {
    fn fmt(&self, f: &mut fmt::Formatter<'_>) -> fmt::Result {
        let value = self.0.value;
        match self.0.number {
            1 => write!(f, "the unit has no byte"),
            2 => write!(f, "the top bit of the unit's first byte is set"),
            3 => write!(
                f,
                "type {value} is no slice that can be written (1, 5, 20, 21)"
            ),
            4 => write!(
                f,
                "a unit of type 14, 20 or 21 without its three extension bytes"
            ),
            5 => write!(f, "the bits ran out inside a field"),
            6 => write!(f, "32 zero bits stand where a code starts"),
            7 => write!(f, "slice_type {value} is over 9"),
            8 => write!(f, "pic_parameter_set_id {value} is over 255"),
            9 => write!(f, "picture parameter set {value} is not in the table"),
            10 => write!(f, "sequence parameter set {value} is not in the table"),
            11 => write!(f, "colour_plane_id is {value}"),
            12 => write!(
                f,
                "modification_of_pic_nums_idc {value} is not allowed here"
            ),
            13 => write!(f, "a scalable (SVC) slice: its header is not read"),
            14 => write!(f, "a list has more than 66 entries"),
            15 => write!(f, "memory_management_control_operation {value} is over 6"),
            16 => write!(f, "slice_qp_delta {value} takes QP out of its range"),
            17 => write!(f, "slice_qs_delta {value} takes QS out of its range"),
            18 => write!(f, "disable_deblocking_filter_idc {value} is over 6"),
            19 => write!(f, "slice_alpha_c0_offset_div2 {value} is not from -6 to 6"),
            20 => write!(f, "slice_beta_offset_div2 {value} is not from -6 to 6"),
            21 => write!(f, "an active reference count minus 1 of {value} is over 31"),
            22 => write!(f, "nothing follows the header"),
            23 => write!(
                f,
                "memory_management_base_control_operation {value} is over 2"
            ),
            24 => write!(f, "a parameter set's id or field is out of range"),
            25 => write!(
                f,
                "no bits read to this record under this first byte and table"
            ),
            26 => write!(f, "the buffer is too short: {value} bytes are needed"),
            27 => write!(f, "over 268435456 bytes"),
            28 => write!(f, "a parameter set's field is out of its range"),
            29 => write!(
                f,
                "the length at place {value} is broken: fewer bytes are left than it says, or than it has"
            ),
            34 => write!(f, "the head is not the unit's own"),
            35 => write!(
                f,
                "the unit at place {value} holds 00 00 00 or 00 00 01, or ends with a zero byte, so start codes cannot carry it"
            ),
            _ => write!(f, "value {value}"),
        }
    }
}
