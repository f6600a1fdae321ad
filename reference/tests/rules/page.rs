//! The Set Data Encryption page: what is taken, and each rule broken alone.

use crate::given::{after_p2, broken, descriptor, k, k_but, k_with, send, without_key};
use reference::answer::Refused;
use reference::codes::scope;
use reference::controller::Controller;
use reference::descriptors::DescriptorRule;
use reference::record::{Record, Set};
use reference::set_page::PageRule;

#[test]
fn each_rule_of_parameters_alone() {
    let zeros = Record::power_on();
    let long_key = [k_but(&[(19, 33), (3, 0x31)]), vec![0]].concat();
    let mut cut = k()[..40].to_vec();
    cut[3] = 36;
    let mut cases = vec![
        (k()[..3].to_vec(), PageRule::TwentyBytesAtLeast),
        (k_but(&[(3, 0x2F)]), PageRule::LengthIsByteCount),
        (k_but(&[(0, 1)]), PageRule::PageCode),
        (k_but(&[(4, 0x60)]), PageRule::Scope),
        (k_but(&[(4, 0x31)]), PageRule::ReservedBitsOfByte4),
        (k_but(&[(5, 0x10)]), PageRule::RdmcUnderEncrypt),
        (k_but(&[(5, 0x84), (7, 0)]), PageRule::CeemWithDecryptionDisable),
        (k_but(&[(6, 3)]), PageRule::EncryptionMode),
        (k_but(&[(7, 4)]), PageRule::DecryptionMode),
        (k_but(&[(8, 2)]), PageRule::AlgorithmIndex),
        (k_but(&[(9, 1)]), PageRule::KeyFormat),
        (k_but(&[(10, 1)]), PageRule::KadFormat),
        (long_key, PageRule::KeyLength),
        (cut, PageRule::KeyInPage),
        ([k_but(&[(6, 0), (3, 0x31)]), vec![0]].concat(), PageRule::NoListWithoutEncrypt),
        (k_with(&[0]), PageRule::Descriptor(DescriptorRule::HeaderInPage)),
        (k_with(&[0, 0, 0, 2, 9]), PageRule::Descriptor(DescriptorRule::DataInPage)),
        (k_with(&descriptor(2, &[9])), PageRule::Descriptor(DescriptorRule::TypeUKadOrAKad)),
        (k_with(&[0, 1, 0, 1, 9]), PageRule::Descriptor(DescriptorRule::ZeroByte)),
        (k_with(&descriptor(0, &[9; 33])), PageRule::Descriptor(DescriptorRule::UKadLength)),
        (k_with(&descriptor(1, &[9; 13])), PageRule::Descriptor(DescriptorRule::AKadLength)),
        (
            k_with(&[descriptor(1, &[9]), descriptor(0, &[9])].concat()),
            PageRule::Descriptor(DescriptorRule::TypesRise),
        ),
    ];
    cases.extend((11..=17).map(|byte| (k_but(&[(usize::from(byte), 1)]), PageRule::ReservedByte(byte))));
    for (page, rule) in cases {
        assert_eq!(broken(&page, &zeros, 3), [rule]);
    }
}

#[test]
fn each_rule_of_supplemental_keys_alone() {
    let record = after_p2().record;
    let sdk = |changes: &[(usize, u8)]| {
        let mut page = k_but(&[(5, 0x08)]);
        changes.iter().for_each(|&(at, value)| page[at] = value);
        page
    };
    let mut raw = record.clone();
    raw.places[1].decryption = 1;
    let longer = [sdk(&[(3, 0x31)]), vec![0]].concat();
    assert_eq!(broken(&sdk(&[]), &record, 3), []);
    assert_eq!(broken(&sdk(&[(4, 0x41)]), &record, 3), [PageRule::SupplementalScopeIsNexusScope]);
    assert_eq!(broken(&sdk(&[]), &record, 4), [PageRule::SupplementalScopeIsNexusScope]);
    assert_eq!(broken(&sdk(&[(7, 3)]), &record, 3), [PageRule::SupplementalModeIsSetMode]);
    assert_eq!(broken(&sdk(&[(7, 1)]), &raw, 3), [PageRule::SupplementalModeReads]);
    assert_eq!(broken(&longer, &record, 3), [PageRule::NoListWithSupplementalKey]);
    let long_key = [sdk(&[(3, 0x31), (19, 33)]), vec![0]].concat();
    assert_eq!(broken(&long_key, &record, 3), [PageRule::SupplementalKeyLength]);
    let mut cut = sdk(&[(3, 36)]);
    cut.truncate(40);
    assert_eq!(broken(&cut, &record, 3), [PageRule::SupplementalKeyInPage]);
    for (at, rule) in [(8, PageRule::AlgorithmIndex), (9, PageRule::KeyFormat), (10, PageRule::KadFormat)] {
        assert_eq!(broken(&sdk(&[(at, 7)]), &record, 3), [rule]);
    }
}

#[test]
fn fields_a_supplemental_key_page_ignores() {
    let mut controller = after_p2();
    let before = controller.record.clone();
    // Byte 6, LOCK, CEEM, RDMC and the CK bits: the set and the lock stay.
    send(&mut controller, 3, &k_but(&[(4, 0x20), (5, 0xFF), (6, 0xEE)])).expect("the key is taken");
    let mut expected = before;
    expected.places[1].supplemental_count = 1;
    expected.places[1].supplemental_keys[0].copy_from_slice(&k()[20..]);
    assert_eq!(controller.record, expected);
}

#[test]
fn fields_a_public_page_ignores() {
    let mut controller = Controller::power_on();
    let mut page = vec![0xFF; 33];
    page[..5].copy_from_slice(&[0x00, 0x10, 0x00, 29, 0x1F]);
    send(&mut controller, 3, &page).expect("the page is taken");
    let mut expected = Record::power_on();
    expected.nexuses[3].registered = true;
    expected.nexuses[3].lock = true;
    assert_eq!(controller.record, expected);
    page[0] = 1;
    assert_eq!(send(&mut controller, 3, &page), Err(Refused::FieldWrong { byte: 0 }));
}

#[test]
fn a_set_takes_every_field() {
    let mut controller = Controller::power_on();
    let list = [descriptor(0, b"unauthenticated"), descriptor(1, b"authentic")].concat();
    let mut page = k_with(&list);
    page[4] = 0x40;
    page[5] = 0xB7;
    page[7] = 3;
    send(&mut controller, 11, &page).expect("the page is taken");
    let set = &controller.record.places[0];
    let mut expected = Set { owner: 11, scope: scope::ALL, encryption: 2, decryption: 3, ..Set::empty(1) };
    expected.index = 1;
    expected.ceem = 2;
    (expected.rdmd, expected.ckod, expected.ckorp, expected.ckorl) = (true, true, true, true);
    expected.key.copy_from_slice(&k()[20..]);
    expected.u_kad.length = 15;
    expected.u_kad.bytes[..15].copy_from_slice(b"unauthenticated");
    expected.a_kad.length = 9;
    expected.a_kad.bytes[..9].copy_from_slice(b"authentic");
    assert_eq!(*set, expected);
}

#[test]
fn rdmd_is_1_exactly_for_encrypt_with_11b() {
    for (byte_5, byte_6, taken, rdmd) in [
        (0x00, 2, true, false),
        (0x10, 2, false, false),
        (0x20, 2, true, false),
        (0x30, 2, true, true),
        (0x10, 1, true, false),
        (0x30, 1, true, false),
        (0x30, 0, true, false),
    ] {
        let mut controller = Controller::power_on();
        assert_eq!(send(&mut controller, 3, &k_but(&[(5, byte_5), (6, byte_6)])).is_ok(), taken);
        assert_eq!(controller.record.places[1].rdmd, rdmd);
    }
}

#[test]
fn a_set_without_a_key_holds_zeros() {
    let mut controller = after_p2();
    send(&mut controller, 3, &without_key([0x20, 0x00, 1, 1])).expect("the page is taken");
    assert_eq!(controller.record.places[1].key, [0; 32]);
    assert_eq!(controller.record.places[1].number, 2);
    assert_eq!(controller.record.nexuses[3].saved_at_lock, 1);
    assert_eq!(controller.record.nexuses[3].last_local, 2);
}

#[test]
fn an_all_owner_that_goes_local_leaves_its_set() {
    let mut controller = Controller::power_on();
    send(&mut controller, 3, &k_but(&[(4, 0x40)])).expect("the page is taken");
    send(&mut controller, 3, &k()).expect("K is taken");
    assert!(controller.record.places[0].is_used());
    assert_eq!((controller.record.places[0].number, controller.record.places[1].number), (1, 2));
    send(&mut controller, 3, &k_but(&[(4, 0x40)])).expect("the page is taken");
    assert_eq!((controller.record.places[0].number, controller.record.places[1].number), (4, 3));
}
