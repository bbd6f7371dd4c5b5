//! What the feature `serde` writes, and reads of sets.

use tuzmarghil::{read_unit, Picture, Sequence, Table};

#[test]
fn a_unit_as_json() {
    let table = Table::sample();
    let json =
        |unit: &[u8]| serde_json::to_value(read_unit(&table, unit, &mut Vec::new())).unwrap();
    let slice = json(&[0x65, 0x88, 0x84, 0xA0]);
    let slice = &slice["Ok"]["Slice"];
    assert_eq!(slice["nal_header"]["nal_ref_idc"], 3);
    assert_eq!(slice["nal_header"]["nal_unit_type"], 5);
    assert_eq!(slice["header"]["slice_type"]["family"], "I");
    assert_eq!(slice["bits"], 17);
    assert_eq!(json(&[0x09, 0xF0])["Ok"]["Other"], 9);
    assert_eq!(json(&[0x65])["Err"]["number"], 5);
    assert_eq!(json(&[0x65, 0x88])["Err"]["bit"], 8);
    assert!(json(&[])["Err"]["bit"].is_null());
    let prefix = json(&[0x6E, 0x80, 0, 7, 0xD1, 0xA0]);
    let prefix = &prefix["Ok"]["Prefix"];
    assert_eq!(prefix["header_extension"]["Svc"]["output_flag"], true);
    assert_eq!(prefix["ref_base_pic"]["store_ref_base_pic_flag"], true);
    let marking = &prefix["ref_base_pic"]["dec_ref_base_pic_marking"];
    assert_eq!(marking["adaptive_ref_base_pic_marking_mode_flag"], true);
    assert_eq!(marking["operations"].as_array().unwrap().len(), 1);
}

/// A set comes back, also where a later version has more fields.
#[test]
fn sets_come_back() {
    let table = Table::sample();
    let sequence = table.sequence(0).unwrap();
    let text = serde_json::to_string(&sequence).unwrap();
    assert_eq!(serde_json::from_str::<Sequence>(&text).unwrap(), sequence);
    let picture: Picture = serde_json::from_str(r#"{"pic_init_qp_minus26":-3}"#).unwrap();
    assert_eq!(
        (picture.pic_init_qp_minus26, picture.weighted_bipred_idc),
        (-3, 0)
    );
}
