//! The record's bytes: load and give.

use reference::comparison::record_builder::mixed;
use reference::record::Record;
use reference::record_bytes::{field_name, give, load, RECORD_BYTES};

#[test]
fn a_record_has_1357_bytes() {
    assert_eq!(RECORD_BYTES, 1357);
    // 02, request 7: "at power-on 16 ones for place 0, zeros elsewhere"
    let at_power_on = [&[0; 1317][..], &[0, 0, 0, 0, 0, 0, 0xFF, 0xFF], &[0; 32]].concat();
    assert_eq!(give(&Record::power_on()), at_power_on);
}

#[test]
fn give_and_load_are_each_others_reverse() {
    let bytes = give(&mixed());
    assert_eq!(load(&bytes), Some(mixed()));
    for at in 0..RECORD_BYTES {
        for turned in [0x01, 0x80] {
            let mut changed = bytes.clone();
            changed[at] ^= turned;
            match load(&changed) {
                Some(record) => assert_eq!(give(&record), changed, "byte {at}"),
                None => assert!(is_yes_or_no(at) && changed[at] > 1, "byte {at}"),
            }
        }
    }
}

/// Whether a byte is a yes/no byte.
fn is_yes_or_no(at: usize) -> bool {
    let name = field_name(at);
    [
        "RDMD",
        "CKOD",
        "CKORP",
        "CKORL",
        "lock",
        "registered",
        "flag \"another nexus\"",
        "flag \"vendor event\"",
    ]
    .iter()
    .any(|field| name.ends_with(&format!(", {field}")))
}

#[test]
fn yes_or_no_bytes_above_1_are_refused() {
    let mut refused = 0;
    for at in 0..RECORD_BYTES {
        let mut bytes = give(&mixed());
        bytes[at] = 2;
        assert_eq!(load(&bytes).is_none(), is_yes_or_no(at), "byte {at}: {}", field_name(at));
        refused += usize::from(is_yes_or_no(at));
    }
    assert_eq!(refused, 5 * 4 + 16 * 4);
}

#[test]
fn other_lengths_are_refused() {
    let bytes = give(&mixed());
    assert_eq!(load(&bytes[..1356]), None);
    assert_eq!(load(&bytes[..1317]), None);
    assert_eq!(load(&[&bytes[..], &[0]].concat()), None);
    assert_eq!(load(&[]), None);
}

#[test]
fn fields_stand_in_the_order_of_the_design() {
    let mut record = Record::power_on();
    record.counter = 0x0102_0304;
    record.places[0].owner = 0x05;
    record.places[0].number = 0x0607_0809;
    record.places[4].a_kad.bytes[11] = 0x0A;
    record.nexuses[0].scope = 0x0B;
    record.nexuses[15].saved_at_lock = 0x0C0D_0E0F;
    record.nexuses[15].changed_by_vendor_event = true;
    let bytes = give(&record);
    assert_eq!(bytes[..5], [1, 2, 3, 4, 5]);
    assert_eq!(bytes[9..13], [6, 7, 8, 9]);
    assert_eq!(bytes[1108..1110], [0x0A, 0x0B]);
    assert_eq!(bytes[1306..1310], [0x0C, 0x0D, 0x0E, 0x0F]);
    assert_eq!(bytes[1316], 1);
}

#[test]
fn the_words_come_last_eight_bytes_a_place() {
    let mut record = Record::power_on();
    record.selection_words = [0x0102_0304_0506_0708, 0x09, 0, u64::MAX, 0x8000_0000_0000_0001];
    let bytes = give(&record);
    assert_eq!(bytes[..1317], [0; 1317]);
    assert_eq!(bytes[1317..1325], [1, 2, 3, 4, 5, 6, 7, 8]);
    assert_eq!(bytes[1325..1341], [0, 0, 0, 0, 0, 0, 0, 9, 0, 0, 0, 0, 0, 0, 0, 0]);
    assert_eq!(bytes[1341..1349], [0xFF; 8]);
    assert_eq!(bytes[1349..], [0x80, 0, 0, 0, 0, 0, 0, 1]);
    assert_eq!(load(&bytes), Some(record));
    let names: Vec<String> = [1316, 1317, 1324, 1325, 1356].map(field_name).to_vec();
    let expected = ["nexus 15, flag \"vendor event\"", "place 0, selection word", "place 0, selection word"];
    assert_eq!(names[..3], expected);
    assert_eq!(names[3..], ["place 1, selection word", "place 4, selection word"]);
}
