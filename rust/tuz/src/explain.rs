//! `tuz explain`: what a refusal's number means.

use anyhow::{bail, Result};
use std::fmt::Write;

/// A refusal's number, why it is given, what its value is, and what is often the cause.
struct Refused(u32, &'static str, &'static str, &'static str);

const TORN: &str = "the unit is damaged";
const OTHER_SETS: &str = "the unit is damaged, or a parameter set before it is lost or damaged";

const REFUSALS: [Refused; 31] = [
    Refused(
        1,
        "the unit has no byte",
        "0",
        "two start codes in a row; a recording that ends behind one",
    ),
    Refused(
        2,
        "the top bit of the unit's first byte is set",
        "0",
        "the unit is damaged, or this is no H.264",
    ),
    Refused(
        3,
        "the type is no slice that can be written (1, 5, 20, 21)",
        "the type",
        "only writing gives it",
    ),
    Refused(
        4,
        "a unit of type 14, 20 or 21 has under 4 bytes",
        "0",
        "the recording is cut off there",
    ),
    Refused(
        5,
        "the bits ran out inside a field",
        "0",
        "the recording is cut off there, or the unit is damaged",
    ),
    Refused(
        6,
        "32 zero bits stand where a code starts",
        "0",
        "zeros were written over the unit",
    ),
    Refused(7, "slice_type is over 9", "slice_type", TORN),
    Refused(
        8,
        "pic_parameter_set_id is over 255",
        "pic_parameter_set_id",
        TORN,
    ),
    Refused(
        9,
        "the picture set is not in the table",
        "its id",
        "the recording begins behind its sets, or one is lost or damaged; else the unit is damaged",
    ),
    Refused(
        10,
        "the sequence set that the picture set names is not in the table",
        "its id",
        "the sequence set is lost or damaged, or comes later",
    ),
    Refused(11, "colour_plane_id is 3", "3", TORN),
    Refused(
        12,
        "modification_of_pic_nums_idc is over 5, or 4 or 5 in a slice that is not MVC",
        "modification_of_pic_nums_idc",
        OTHER_SETS,
    ),
    Refused(
        13,
        "a scalable (SVC) slice, whose header is not read",
        "0",
        "the recording has scalable layers",
    ),
    Refused(14, "a list has more than 66 entries", "0", TORN),
    Refused(
        15,
        "memory_management_control_operation is over 6",
        "memory_management_control_operation",
        OTHER_SETS,
    ),
    Refused(
        16,
        "slice_qp_delta takes QP out of its range",
        "slice_qp_delta",
        OTHER_SETS,
    ),
    Refused(
        17,
        "slice_qs_delta takes QS out of its range",
        "slice_qs_delta",
        OTHER_SETS,
    ),
    Refused(
        18,
        "disable_deblocking_filter_idc is over 6",
        "disable_deblocking_filter_idc",
        OTHER_SETS,
    ),
    Refused(
        19,
        "slice_alpha_c0_offset_div2 is not from -6 to 6",
        "slice_alpha_c0_offset_div2",
        OTHER_SETS,
    ),
    Refused(
        20,
        "slice_beta_offset_div2 is not from -6 to 6",
        "slice_beta_offset_div2",
        OTHER_SETS,
    ),
    Refused(
        21,
        "num_ref_idx_active_minus1 is over 31",
        "num_ref_idx_active_minus1",
        TORN,
    ),
    Refused(
        22,
        "nothing follows the header",
        "0",
        "the recording is cut off there",
    ),
    Refused(
        23,
        "memory_management_base_control_operation is over 2",
        "memory_management_base_control_operation",
        TORN,
    ),
    Refused(
        24,
        "a parameter set's id or field is out of range",
        "0",
        "only filling a table gives it",
    ),
    Refused(
        25,
        "no bits read to this record",
        "0",
        "only writing gives it",
    ),
    Refused(
        26,
        "the caller's buffer is too short",
        "the bytes needed",
        "only a program that calls the library can meet it",
    ),
    Refused(
        27,
        "the unit has over 268435456 bytes",
        "0",
        "start codes are missing, or this is no H.264",
    ),
    Refused(
        28,
        "a parameter set's field is out of its range",
        "0",
        "the set is damaged; it leaves the table as it was",
    ),
    Refused(
        29,
        "framed by length: fewer bytes are left than a length says, or than it has",
        "the place of the length",
        "the recording is cut off there, or a length before is damaged; or its units stand behind start codes",
    ),
    Refused(
        34,
        "the head is not the unit's own",
        "0",
        "only a program that calls the library can meet it",
    ),
    Refused(
        35,
        "the unit holds 00 00 00 or 00 00 01, or ends with a zero byte, so start codes cannot carry it",
        "the place of its first byte",
        "only converting gives it: the unit is damaged, or has zero bytes behind its end",
    ),
];

/// What the bit place beside a unit's refusal is.
fn place(number: u32) -> &'static str {
    match number {
        9 | 10 => "where pic_parameter_set_id begins",
        13 => "where list modification would begin",
        14 => "where the 67th code begins",
        22 => "where the header ends",
        5..=23 | 28 => "where the field begins",
        _ => "none",
    }
}

/// All of them, or the one that is asked for.
pub fn told(number: Option<u32>) -> Result<String> {
    let mut told = String::new();
    match number {
        None => {
            for Refused(n, why, value, _) in &REFUSALS {
                let _ = writeln!(told, "{n:2}  {why} (value: {value})");
            }
        }
        Some(number) => match REFUSALS.iter().find(|r| r.0 == number) {
            None => bail!("{number} is no refusal: they are 1 to 29, 34 and 35"),
            Some(Refused(n, why, value, often)) => {
                let bit = place(*n);
                let _ = write!(
                    told,
                    "refused {n}: {why}\nvalue: {value}\nbit: {bit}\noften: {often}\n"
                );
            }
        },
    }
    Ok(told)
}

#[cfg(test)]
mod tests {
    use super::*;
    use tuzmarghil::Refusal;

    /// The numbers are all there, and the library has words for no other.
    #[test]
    fn every_number_is_explained() {
        let numbers: Vec<_> = REFUSALS.iter().map(|r| r.0).collect();
        assert_eq!(numbers, (1..=29).chain([34, 35]).collect::<Vec<_>>());
        for n in 0..256 {
            let explained = Refusal::new(n, 7).reason() != "value 7";
            assert_eq!(numbers.contains(&n), explained, "{n}");
            assert_eq!(told(Some(n)).is_ok(), explained, "{n}");
        }
    }
}
