//! What the tests start from.

use reference::answer::Refused;
use reference::controller::Controller;
use reference::record::Record;
use reference::set_page::{broken_rules, check, PageRule, Sender};

pub const PROTOCOL: u8 = 0x20;
pub const SET_PAGE: u16 = 0x0010;

/// 01: "Page K: 52 bytes, length 0030h, byte 4 21h, byte 5 44h, modes 2 and 2, index 1, key length 32, no
/// descriptors."
pub fn k() -> Vec<u8> {
    let mut page = vec![0x00, 0x10, 0x00, 0x30, 0x21, 0x44, 2, 2, 1, 0, 0, 0, 0, 0, 0, 0, 0, 0, 0x00, 0x20];
    page.extend(100..132);
    page
}

/// K with some bytes changed.
pub fn k_but(changes: &[(usize, u8)]) -> Vec<u8> {
    let mut page = k();
    for &(at, value) in changes {
        page[at] = value;
    }
    page
}

/// K with bytes after its key, its length made right.
pub fn k_with(list: &[u8]) -> Vec<u8> {
    let mut page = k();
    page.extend(list);
    page[3] = (page.len() - 4) as u8;
    page
}

/// A page without key and with these bytes 4 to 7.
pub fn without_key(bytes: [u8; 4]) -> Vec<u8> {
    let mut page = vec![0x00, 0x10, 0x00, 0x10];
    page.extend(bytes);
    page.push(1);
    page.resize(20, 0);
    page
}

/// A descriptor in order.
pub fn descriptor(kind: u8, data: &[u8]) -> Vec<u8> {
    [&[kind, 0, 0, data.len() as u8], data].concat()
}

/// What the page's check reads of a record for a nexus.
fn sender(record: &Record, nexus: usize) -> Sender<'_> {
    Sender { scope: record.nexuses[nexus].scope, set: record.selected_set(nexus) }
}

/// The rules a page breaks when it comes from a nexus of a record.
pub fn broken(page: &[u8], record: &Record, nexus: usize) -> Vec<PageRule> {
    broken_rules(page, sender(record, nexus)).into_iter().map(|broken| broken.rule).collect()
}

/// The faulty byte of a page from a nexus of a record.
pub fn faulty_byte(page: &[u8], record: &Record, nexus: usize) -> Option<usize> {
    check(page, sender(record, nexus)).expect_err("the page is refused").answer.faulty_byte()
}

/// OUT of a Set Data Encryption page.
pub fn send(controller: &mut Controller, nexus: u8, page: &[u8]) -> Result<(), Refused> {
    controller.security_out(nexus, PROTOCOL, SET_PAGE, page)
}

/// The nexus's status page.
pub fn status(controller: &mut Controller, nexus: u8) -> Vec<u8> {
    let mut lent = [0xA5; 100];
    let length =
        controller.security_in(nexus, PROTOCOL, 0x0020, &mut lent).expect("the status page is given");
    lent[..length].to_vec()
}

/// A controller after P2: nexus 3 has sent K.
pub fn after_p2() -> Controller {
    let mut controller = Controller::power_on();
    send(&mut controller, 3, &k()).expect("K is taken");
    controller
}
