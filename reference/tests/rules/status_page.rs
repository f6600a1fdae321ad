//! The status page's writer and reader.

use reference::answer::Refused;
use reference::comparison::record_builder::mixed;
use reference::descriptors::DescriptorRule;
use reference::status_page::{read, write, Status, StatusRule};

/// A status page in order with key-associated data of both types.
fn page() -> Vec<u8> {
    write(1, &mixed().places[2])
}

/// The page with some bytes changed.
fn page_but(changes: &[(usize, u8)]) -> Vec<u8> {
    let mut page = page();
    changes.iter().for_each(|&(at, value)| page[at] = value);
    page
}

#[test]
fn write_and_read() {
    for (nexus_scope, place) in [(2, 0), (1, 1), (1, 2), (0, 3), (1, 4), (0, 0)] {
        let set = &mixed().places[place];
        let status = read(&write(nexus_scope, set)).expect("the page is in order");
        let expected = Status {
            nexus_scope,
            set_scope: set.scope,
            encryption: set.encryption,
            decryption: set.decryption,
            index: set.index,
            number: set.number,
            ceems: set.ceem,
            rdmd: set.rdmd,
            u_kad: set.u_kad,
            a_kad: set.a_kad,
        };
        assert_eq!(status, expected);
    }
}

#[test]
fn the_page_of_a_set_with_both_descriptors() {
    let page = page();
    assert_eq!(page[..8], [0x00, 0x20, 0x00, 20 + 36 + 8, 0x21, 2, 2, 1]);
    assert_eq!(page[8..13], [0, 0, 0, 37, 0]);
    assert_eq!(page[13..24], [0; 11]);
    assert_eq!(page[24..28], [0, 0, 0, 32]);
    assert_eq!(page[60..], [1, 0, 0, 4, b'a', b'u', b't', b'h']);
}

#[test]
fn each_rule_alone() {
    let with_list = |list: &[u8]| {
        let mut page = [&page()[..24], list].concat();
        page[3] = (page.len() - 4) as u8;
        page
    };
    let mut cases = vec![
        (page()[..3].to_vec(), StatusRule::TwentyFourBytesAtLeast),
        (page_but(&[(3, 1)]), StatusRule::LengthIsByteCount),
        (page_but(&[(1, 0x10)]), StatusRule::PageCode),
        (page_but(&[(4, 0x61)]), StatusRule::NexusScope),
        (page_but(&[(4, 0x23)]), StatusRule::SetScope),
        (page_but(&[(4, 0x29)]), StatusRule::FixedZeroBitsOfByte4),
        (page_but(&[(5, 3)]), StatusRule::EncryptionMode),
        (page_but(&[(6, 4)]), StatusRule::DecryptionMode),
        (page_but(&[(7, 2)]), StatusRule::AlgorithmIndex),
        (page_but(&[(12, 0x08)]), StatusRule::FixedZeroBitsOfByte12),
        (page_but(&[(12, 0x40)]), StatusRule::FixedZeroBitsOfByte12),
        (page_but(&[(12, 0x80)]), StatusRule::FixedZeroBitsOfByte12),
        (with_list(&[2, 0, 0, 1, 0]), StatusRule::Descriptor(DescriptorRule::TypeUKadOrAKad)),
        (with_list(&[1, 0, 0, 1, 0, 1, 0, 0, 1, 0]), StatusRule::Descriptor(DescriptorRule::TypesRise)),
        (with_list(&[1, 1, 0, 1, 0]), StatusRule::Descriptor(DescriptorRule::ZeroByte)),
        (with_list(&[0, 0, 0, 0]), StatusRule::Descriptor(DescriptorRule::UKadLength)),
        (with_list(&[1, 0, 0, 0]), StatusRule::Descriptor(DescriptorRule::AKadLength)),
        (with_list(&[1, 0, 0]), StatusRule::Descriptor(DescriptorRule::HeaderInPage)),
        (with_list(&[1, 0, 0, 1]), StatusRule::Descriptor(DescriptorRule::DataInPage)),
    ];
    cases
        .extend((13..=23).map(|byte| (page_but(&[(usize::from(byte), 1)]), StatusRule::FixedZeroByte(byte))));
    for (page, rule) in cases {
        let fault = read(&page).expect_err("the page is refused");
        assert_eq!(fault.broken.iter().map(|broken| broken.rule).collect::<Vec<_>>(), [rule]);
        assert_eq!(fault.answer == Refused::PageLengthWrong, rule.is_about_length());
        assert_eq!(fault.answer.faulty_byte().is_some(), !rule.is_about_length());
    }
}

#[test]
fn any_mixture_of_codes_in_range_is_taken() {
    for nexus_scope in 0..3 {
        for set_scope in 0..3 {
            for (encryption, decryption, index) in [(0, 3, 0), (2, 0, 0), (1, 2, 1), (2, 1, 1)] {
                for byte_12 in 0..8 {
                    let byte_4 = nexus_scope << 5 | set_scope;
                    let changes = [(4, byte_4), (5, encryption), (6, decryption), (7, index), (12, byte_12)];
                    let status = read(&page_but(&changes)).expect("the page is in order");
                    assert_eq!((status.ceems, status.rdmd), (byte_12 >> 1, byte_12 & 1 == 1));
                }
            }
        }
    }
}
