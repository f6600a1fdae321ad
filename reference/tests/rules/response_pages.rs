//! The response pages of 01 and the lent buffer.

use crate::given::{after_p2, PROTOCOL};
use reference::controller::Controller;

/// A page with a lent buffer of a size filled with A5h.
fn lend(controller: &mut Controller, code: u16, size: usize) -> (usize, Vec<u8>) {
    let mut lent = vec![0xA5; size];
    let length = controller.security_in(3, PROTOCOL, code, &mut lent).expect("the page is given");
    (length, lent)
}

#[test]
fn fixed_pages() {
    let mut controller = after_p2();
    let page = vec![0x00, 0x00, 0x00, 0x08, 0x00, 0x00, 0x00, 0x01, 0x00, 0x12, 0x00, 0x20];
    assert_eq!(lend(&mut controller, 0x0000, 12), (12, page));
    assert_eq!(lend(&mut controller, 0x0001, 6), (6, vec![0x00, 0x01, 0x00, 0x02, 0x00, 0x10]));
    let page = vec![0x00, 0x12, 0x00, 0x0C, 0x01, 0x07, 0x00, 0x07, 0, 0, 0, 0, 0, 0, 0, 0];
    assert_eq!(lend(&mut controller, 0x0012, 16), (16, page));
}

#[test]
fn the_lent_buffer_gets_as_many_bytes_as_it_holds() {
    let mut controller = Controller::power_on();
    assert_eq!(lend(&mut controller, 0x0001, 0), (6, vec![]));
    assert_eq!(lend(&mut controller, 0x0001, 4), (6, vec![0, 1, 0, 2]));
    assert_eq!(lend(&mut controller, 0x0001, 8), (6, vec![0, 1, 0, 2, 0, 0x10, 0xA5, 0xA5]));
}

#[test]
fn a_refused_call_leaves_the_lent_buffer() {
    let mut lent = [0xA5; 30];
    assert!(Controller::power_on().security_in(3, PROTOCOL, 0x0010, &mut lent).is_err());
    assert_eq!(lent, [0xA5; 30]);
}
