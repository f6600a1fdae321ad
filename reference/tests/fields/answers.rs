//! Answers with their fields, and the replies that have a faulty byte.

use crate::{but, k};
use reference::answer_words::{long, short};
use reference::comparison::session::{event, read_status, security_in, security_out};
use reference::field_words::{faulty_byte, field_of};
use reference::stream::{kind, Reply};

const WRONG: [u8; 3] = [5, 0x26, 0];

fn reply(number: u8, data: &[u8]) -> Reply {
    Reply { number, sense: WRONG, data: data.to_vec() }
}

#[test]
fn an_answer_has_its_field_before_its_sense() {
    let field = Some("byte 18, key length");
    assert_eq!(short(8, WRONG, field), "8 field of the page wrong: byte 18, key length (5/26/00)");
    assert_eq!(short(8, WRONG, None), "8 field of the page wrong (5/26/00)");
    assert_eq!(short(8, [0; 3], field), "8 field of the page wrong: byte 18, key length");
    assert_eq!(
        long(8, WRONG, field),
        "answer 8, field of the page wrong: byte 18, key length\n    \
         sense 5/26/00: ILLEGAL REQUEST, INVALID FIELD IN PARAMETER LIST"
    );
    assert_eq!(short(0, [0; 3], None), "0 done");
    assert_eq!(long(0, [0; 3], None), "answer 0, done");
}

#[test]
fn the_page_is_the_one_that_the_command_has() {
    let command = security_out(3, but(k(), &[(5, 0x10), (12, 1)]));
    assert_eq!(
        field_of(&command, &reply(8, &[0, 5])).as_deref(),
        Some("byte 5, CEEM, RDMC, SDK and CK bits")
    );
    assert_eq!(field_of(&command, &reply(8, &[0, 12])).as_deref(), Some("byte 12, reserved byte"));
    assert_eq!(field_of(&command, &reply(8, &[1, 0])).as_deref(), Some("byte 256, past the page's end"));
    let command = read_status(k());
    assert_eq!(field_of(&command, &reply(8, &[0, 5])).as_deref(), Some("byte 5, encryption mode"));
}

#[test]
fn only_an_answer_8_to_a_page_with_two_bytes_has_a_faulty_byte() {
    let eight = reply(8, &[0x01, 0x02]);
    assert_eq!(faulty_byte(kind::OUT, &eight), Some(0x0102));
    assert_eq!(faulty_byte(kind::READ_STATUS, &eight), Some(0x0102));
    for kind in [kind::POWER_ON, kind::IN, kind::WRITE, kind::READ, kind::BATCH, kind::LOAD_RECORD] {
        assert_eq!(faulty_byte(kind, &eight), None, "kind {kind}");
    }
    for number in [0, 7, 9, 255] {
        assert_eq!(faulty_byte(kind::OUT, &reply(number, &[0, 5])), None, "answer {number}");
    }
    for data in [&[][..], &[5], &[0, 0, 5], &[0, 0, 0, 5]] {
        assert_eq!(faulty_byte(kind::OUT, &reply(8, data)), None, "{data:?}");
    }
    // IN's reply has two bytes too, the page's full length
    assert_eq!(field_of(&security_in(3, 0x0020, 0), &eight), None);
    assert_eq!(field_of(&event(kind::DEMOUNT), &eight), None);
}
