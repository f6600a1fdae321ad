//! The field pointer: what is wrong with a page, by request 6 of document 02.

use crate::{Play, Played};
use reference::codes::{ceem, decryption, encryption, scope};
use reference::comparison::page_builder::{descriptor, set_length, SetPage};
use reference::comparison::session::read_status;
use reference::field_words::faulty_byte;
use reference::hex;
use reference::sense_data::fixed;
use reference::stream::kind;

/// P2's status page.
const STATUS: [u8; 24] = [0, 0x20, 0, 0x14, 0x21, 2, 2, 1, 0, 0, 0, 1, 2, 0, 0, 0, 0, 0, 0, 0, 0, 0, 0, 0];

/// A page with some bytes changed.
fn but(page: &[u8], changes: &[(usize, u8)]) -> Vec<u8> {
    let mut page = page.to_vec();
    changes.iter().for_each(|&(at, value)| page[at] = value);
    page
}

/// K with these descriptors.
fn k_with(list: &[Vec<u8>]) -> SetPage {
    SetPage { list: list.concat(), ..SetPage::k() }
}

impl Play {
    pub fn field_pointer(&mut self) -> Played {
        self.document = "02";
        self.f1()?;
        self.f2()?;
        self.f3()?;
        self.f4()
    }

    fn f1(&mut self) -> Played {
        let expected = "8 with the first byte of the wrong field, and of two the lower: 18, 9, 12, 5";
        self.start("F1", "which byte of a page is wrong", expected)?;
        let k = SetPage::k().bytes();
        let reply = self.wrong_page(3, "page K with key length 31", &but(&k, &[(19, 31)]), 18)?;
        let sense_data = fixed(reply.sense, faulty_byte(kind::OUT, &reply));
        println!("    as sense data: {}", hex::words(&sense_data).join(" "));
        self.wrong_page(3, "the same with key format 1", &but(&k, &[(9, 1), (19, 31)]), 9)?;
        self.wrong_page(
            3,
            "page K with reserved bytes 12 and 15 not zero",
            &but(&k, &[(12, 1), (15, 1)]),
            12,
        )?;
        let page = SetPage { ceem: ceem::REPORTS_EXTERNAL, decryption: decryption::DISABLE, ..SetPage::k() };
        self.wrong_page(3, "page K with CEEM 10b and DISABLE", &page.bytes(), 5)?;
        Ok(())
    }

    fn f2(&mut self) -> Played {
        let expected = "8 with the first length byte, 64; the type byte, 52; the first byte left over, 52";
        self.start("F2", "which byte of the descriptors", expected)?;
        let u_kad = descriptor(0, 6, 6);
        let page = k_with(&[u_kad.clone(), descriptor(1, 13, 13)]);
        self.wrong_page(3, "page K with a U-KAD, and an A-KAD of 13 bytes", &page.bytes(), 64)?;
        let page = k_with(&[descriptor(0, 7, 6)]);
        self.wrong_page(3, "page K with a U-KAD cut short by a byte", &page.bytes(), 52)?;
        let page = SetPage { encryption: encryption::EXTERNAL, ..k_with(&[u_kad]) };
        self.wrong_page(3, "page K with EXTERNAL, which has no descriptors, and a U-KAD", &page.bytes(), 52)?;
        Ok(())
    }

    fn f3(&mut self) -> Played {
        let expected =
            "8 with 7 for another mode than the set's, 4 for another scope, 18 for a key cut short";
        self.start("F3", "which byte of a supplemental key's page", expected)?;
        self.page(3, "page K", &SetPage::k().bytes(), 0)?;
        let page = |scope, mode| SetPage::supplemental(scope, mode, 1).bytes();
        self.wrong_page(3, "a supplemental key", &page(scope::LOCAL, decryption::MIXED), 7)?;
        self.wrong_page(3, "a supplemental key", &page(scope::ALL, decryption::DECRYPT), 4)?;
        let mut cut = page(scope::LOCAL, decryption::DECRYPT);
        cut.pop();
        set_length(&mut cut);
        self.wrong_page(3, "a supplemental key cut by a byte", &cut, 18)?;
        Ok(())
    }

    fn f4(&mut self) -> Played {
        let expected = "the same of the status reader, for host tools: 5, 17, 26";
        self.start("F4", "which byte of a status page that was damaged on its way", expected)?;
        let mut with_u_kad = [&STATUS[..], &descriptor(0, 33, 33)].concat();
        set_length(&mut with_u_kad);
        for (damage, page, byte) in [
            ("encryption mode 3", but(&STATUS, &[(5, 3)]), 5),
            ("bytes 17 and 20 not zero", but(&STATUS, &[(17, 1), (20, 1)]), 17),
            ("a U-KAD of 33 bytes", with_u_kad, 26),
        ] {
            let words = format!("The status reader is given P2's page with {damage}");
            self.tell_wrong(&words, &read_status(page), byte)?;
        }
        Ok(())
    }
}
