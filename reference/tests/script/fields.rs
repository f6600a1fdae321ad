//! The wrong fields of pages answered 8, by the replies of a drive.

use crate::recorded;
use reference::recording::{answer_bytes, Recording};
use reference::script::Fields;
use reference::stream::Reply;

const DONE: [u8; 3] = [0, 0, 0];
const WRONG: [u8; 3] = [5, 0x26, 0];

/// Two pages with something wrong, and a demount between them.
fn recording() -> Recording {
    recorded(
        "out nexus 2 page 0010h all encrypt decrypt key 31*16\n\
         demount\n\
         out nexus 2 page 0010h all external decrypt key 31*32 u-kad 42\n",
    )
}

fn replies() -> [Reply; 3] {
    let reply = |number, sense, data: &[u8]| Reply { number, sense, data: data.to_vec() };
    [reply(8, WRONG, &[0, 18]), reply(0, DONE, &[]), reply(8, WRONG, &[0, 52])]
}

fn answers() -> Vec<u8> {
    replies().iter().flat_map(answer_bytes).collect()
}

fn asked(replies: &[Reply]) -> Result<Fields, String> {
    Fields::asked(&recording(), &answers(), || Ok(replies.to_vec()))
}

fn refused(change: impl Fn(&mut [Reply; 3])) -> String {
    let mut replies = replies();
    change(&mut replies);
    asked(&replies).err().expect("the replies are refused")
}

#[test]
fn each_page_has_its_own_field() {
    for fields in [asked(&replies()).expect("all is as it was"), Fields::of(&recording(), &replies())] {
        assert_eq!(fields.at(0), Some("byte 18, key length"));
        assert_eq!(fields.at(1), None);
        assert_eq!(fields.at(2), Some("byte 52, bytes left over"));
        assert_eq!(fields.at(3), None);
    }
}

#[test]
fn a_drive_is_asked_where_an_answer_is_8_alone() {
    let none_8: Vec<u8> = [[7, 5, 0x1A, 0], [0, 0, 0, 0], [9, 5, 0x55, 8]].concat();
    let never = || panic!("no answer is 8");
    let fields = Fields::asked(&recording(), &none_8, never).expect("nothing is asked");
    assert!((0..3).all(|position| fields.at(position).is_none()));
    // an 8 in the sense is no answer 8
    assert!(Fields::asked(&recording(), &[0, 8, 8, 8, 0, 0, 0, 8, 0, 0, 0, 0], never).is_ok());
    for position in 0..3 {
        let mut one_8 = none_8.clone();
        one_8[4 * position] = 8;
        let fault = Fields::asked(&recording(), &one_8, || Err("no drive".to_string())).err();
        assert_eq!(fault.as_deref(), Some("no drive"), "event {position}");
    }
}

#[test]
fn each_reply_is_held_against_its_answer() {
    let line = refused(|replies| replies[1].number = 4);
    assert_eq!(
        line,
        "event 1: the drive answers 4 not carried out: parameters changed by a vendor event, where replay gave 0 done"
    );
    for part in 0..3 {
        let line = refused(|replies| replies[2].sense[part] += 1);
        assert!(line.starts_with("event 2: the drive answers 8 field of the page wrong ("), "{line}");
        assert!(line.ends_with(", where replay gave 8 field of the page wrong (5/26/00)"), "{line}");
    }
    let line = refused(|replies| replies[0].number = 0);
    assert!(line.starts_with("event 0: the drive answers 0 done (5/26/00), where"), "{line}");
}

#[test]
fn an_8_without_its_byte_is_refused() {
    for (position, length) in [(0, 0), (0, 1), (2, 0), (2, 3), (2, 4)] {
        let line = refused(|replies| replies[position].data = vec![0; length]);
        let expected = format!(
            "event {position}: the drive's answer 8 has {length} bytes of data, where the faulty byte of a page has 2"
        );
        assert_eq!(line, expected);
    }
}
