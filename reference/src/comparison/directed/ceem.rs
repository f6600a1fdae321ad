//! 02's request 2: CEEM 10b and 11b with decryption DISABLE in pages of which its rule is asked, in pages of which it
//! isn't, in sets of loaded records ("held sets"), and in status pages.

use crate::codes::{ceem, decryption, scope};
use crate::comparison::page_builder::{status_page_of, SetPage};
use crate::comparison::record_builder::{full, mixed_without_pending};
use crate::comparison::session::{
    event, event_of, load, power_on, read, read_status, security_in, security_out, vendor_release, write,
    Session, Sink, Stage,
};
use crate::record::{Kad, Record};
use crate::sizes::PLACES;
use crate::stream::{kind, Command};

pub fn sessions(sink: &mut Sink) {
    table(sink);
    labs_page(sink);
    order_of_checks(sink);
    public_pages(sink);
    supplemental_keys(sink);
    calls_for_held_sets(sink);
    held_sets_in_use(sink);
    status_pages(sink);
}

/// Every CEEM with every decryption mode.
fn pairs() -> impl Iterator<Item = (u8, u8)> {
    (0..16).map(|pair| (pair / 4, pair % 4))
}

/// A page with these CEEM and modes, and with LOCK and the CK bits of a turn.
fn page(scope: u8, encryption: u8, (ceem, decryption): (u8, u8), turn: usize) -> SetPage {
    let [lock, ckod, ckorp, ckorl] = [0, 1, 2, 3].map(|bit| turn >> bit & 1 != 0);
    SetPage { lock, ceem, ckod, ckorp, ckorl, ..SetPage::of_modes(scope, encryption, decryption) }
}

/// Every page of the table with each RDMC, from a LOCAL, the ALL and a PUBLIC nexus.
fn table(sink: &mut Sink) {
    let mut stage = Stage::new("CEEM and modes", mixed_without_pending(), sink);
    let mut turn = 0;
    for scope in [scope::LOCAL, scope::ALL] {
        for encryption in 0..3 {
            for pair in pairs() {
                for rdmc in 0..4 {
                    for nexus in [3, 9, 6] {
                        let page = SetPage { rdmc, ..page(scope, encryption, pair, turn) };
                        stage.call(security_out(nexus, page.bytes()));
                        turn += 1;
                    }
                }
            }
        }
    }
    stage.finish();
}

/// The lab's page and its neighbours, each after power-on, and all of them in turn.
fn labs_page(sink: &mut Sink) {
    let mut pages = vec![SetPage { decryption: decryption::RAW, ..SetPage::labs() }];
    for scope in [scope::ALL, scope::LOCAL, scope::PUBLIC] {
        pages.extend([2, 3, 1, 0].map(|ceem| SetPage { scope, ceem, ..SetPage::labs() }));
        pages.push(SetPage { scope, sdk: true, ..SetPage::labs() });
        pages.push(SetPage { scope, lock: true, ckod: true, ..SetPage::labs() });
    }
    let then = |page: &SetPage| {
        let [own, labs] = [page, &SetPage::labs()].map(|page| security_out(7, page.bytes()));
        let asks = [security_in(7, 0x0020, 24), write(7, true), write(8, true), read(7, 0, 255)];
        [vec![own], asks.to_vec(), vec![labs], asks.to_vec()].concat()
    };
    for page in &pages {
        let commands = [vec![power_on()], then(page)].concat();
        sink(Session { name: "the lab's page".to_string(), commands });
    }
    let commands = [vec![power_on()], pages.iter().flat_map(then).collect()].concat();
    sink(Session { name: "the lab's page and others in turn".to_string(), commands });
}

/// 1 to 7 come before the rule's 8, and 8 before 10; a refused page takes no place and flags nobody.
fn order_of_checks(sink: &mut Sink) {
    let page = SetPage { scope: scope::LOCAL, ..SetPage::labs() }.bytes();
    let other_length = [&page[..], &[0]].concat();
    for locked in [false, true] {
        let mut record = full([0, 1, 2, 3]);
        record.nexuses.iter_mut().for_each(|nexus| nexus.lock = locked);
        record.nexuses[5].registered = false;
        record.nexuses[6].changed_by_another_nexus = true;
        record.nexuses[6].changed_by_vendor_event = true;
        let mut not_well_formed = record.clone();
        not_well_formed.nexuses[5].scope = scope::LOCAL;
        not_well_formed.put_words_right();
        for record in [record, not_well_formed] {
            let mut stage = Stage::new("CEEM and other answers", record, sink);
            for nexus in [16, 6, 6, 6, 5, 2, 9] {
                stage.call(security_out(nexus, page.clone()));
                stage.call(Command { protocol: 0x21, ..security_out(nexus, page.clone()) });
                stage.call(Command { argument: 0x0011, ..security_out(nexus, page.clone()) });
                stage.call(security_out(nexus, page[..19].to_vec()));
                stage.call(security_out(nexus, other_length.clone()));
                stage.call(security_out(nexus, SetPage::labs().bytes()));
            }
            let taken = SetPage { scope: scope::LOCAL, ceem: 1, ..SetPage::labs() };
            stage.call(security_out(5, taken.bytes()));
            stage.finish();
        }
    }
}

/// PUBLIC pages with either SDK, from a LOCAL, the ALL and a PUBLIC nexus.
fn public_pages(sink: &mut Sink) {
    let mut stage = Stage::new("CEEM of PUBLIC pages", mixed_without_pending(), sink);
    for (turn, pair) in pairs().enumerate() {
        for sdk in [false, true] {
            for nexus in [3, 9, 6] {
                let page = page(scope::PUBLIC, turn as u8 % 3, pair, turn);
                stage.call(security_out(nexus, SetPage { sdk, ..page }.bytes()));
            }
        }
    }
    stage.finish();
}

/// Supplemental keys with every CEEM and mode, for sets of every CEEM and mode: of a LOCAL nexus, of the ALL nexus, and
/// of a LOCAL nexus that has four.
fn supplemental_keys(sink: &mut Sink) {
    for (set_ceem, mode) in pairs() {
        let mut record = mixed_without_pending();
        for place in [0, 2, 4] {
            (record.places[place].ceem, record.places[place].decryption) = (set_ceem, mode);
        }
        let mut stage = Stage::new("CEEM of supplemental keys", record, sink);
        for (turn, (ceem, decryption)) in pairs().enumerate() {
            for (nexus, scope) in [(3, scope::LOCAL), (9, scope::ALL), (15, scope::LOCAL)] {
                let (rdmc, encryption) = (turn as u8 / 4, [0, 1, 2, 255][turn % 4]);
                let key = SetPage::supplemental(scope, decryption, 0x55);
                stage.call(security_out(nexus, SetPage { ceem, rdmc, encryption, ..key }.bytes()));
            }
        }
        stage.finish();
    }
}

/// A set that no page can bring any more: its place, the nexus that owns it, its CEEM and its encryption mode.
#[derive(Clone, Copy)]
struct Held {
    place: usize,
    owner: u8,
    ceem: u8,
    encryption: u8,
}

impl Held {
    /// One in every place, with each CEEM and encryption mode.
    fn every() -> Vec<Held> {
        let mut every = Vec::new();
        for (place, owner) in (0..PLACES).zip([9, 0, 1, 2, 3]) {
            for ceem in [ceem::REPORTS_EXTERNAL, ceem::REPORTS_ENCRYPT] {
                every.extend((0..3).map(|encryption| Held { place, owner, ceem, encryption }));
            }
        }
        every
    }

    /// Puts it, with every CK bit, into a record with every place used; its owner is locked on its number.
    fn put(self, record: &mut Record) {
        let set = &mut record.places[self.place];
        (set.ceem, set.encryption, set.decryption) = (self.ceem, self.encryption, decryption::DISABLE);
        (set.ckod, set.ckorp, set.ckorl) = (true, true, true);
        set.u_kad = Kad::of(b"label");
        let owner = &mut record.nexuses[usize::from(self.owner)];
        (owner.lock, owner.saved_at_lock) = (true, set.number);
    }

    /// Its page, with this CEEM.
    fn page(self, ceem: u8) -> SetPage {
        let scope = if self.place == 0 { scope::ALL } else { scope::LOCAL };
        page(scope, self.encryption, (ceem, decryption::DISABLE), 3)
    }

    /// What its owner, and a nexus without a place, ask and change.
    fn calls(self) -> Vec<Command> {
        let mut calls = vec![
            event(kind::LOGICAL_UNIT_RESET),
            event(kind::DEMOUNT),
            event(kind::DEVICE_RESERVATION_LOSS),
            event(kind::MICROCODE),
            vendor_release(self.place as u16),
        ];
        for nexus in [self.owner, 5] {
            calls.extend([event_of(kind::NEXUS_RESERVATION_LOSS, nexus), event_of(kind::PREEMPT, nexus)]);
            calls.extend([write(nexus, true), write(nexus, false), security_in(nexus, 0x0020, 80)]);
            for block_kind in 0..=3 {
                calls.extend([255, 0, 1].map(|key| read(nexus, block_kind, key)));
            }
            calls.extend((0..4).map(|ceem| security_out(nexus, self.page(ceem).bytes())));
            for page in [SetPage::k(), SetPage::all(), SetPage::public(false)] {
                calls.push(security_out(nexus, page.bytes()));
            }
            let key = |mode| SetPage::supplemental(self.page(0).scope, mode, 0x66);
            calls.extend((0..4).map(|mode| security_out(nexus, key(mode).bytes())));
        }
        calls
    }
}

/// Every call on a record with one such set, and on one with such a set in every place.
fn calls_for_held_sets(sink: &mut Sink) {
    for held in Held::every() {
        let mut alone = full([0, 1, 2, 3]);
        held.put(&mut alone);
        let mut among_others = alone.clone();
        for other in Held::every() {
            if other.place != held.place && other.ceem == held.ceem && other.encryption == held.encryption {
                other.put(&mut among_others);
            }
        }
        for record in [alone, among_others] {
            let mut stage = Stage::new("calls for held sets", record, sink);
            held.calls().into_iter().for_each(|call| stage.call(call));
            stage.finish();
        }
    }
}

/// A held set is used; its own page doesn't bring it again; another takes its place, or a demount releases it.
fn held_sets_in_use(sink: &mut Sink) {
    for held in Held::every() {
        let mut record = full([0, 1, 2, 3]);
        held.put(&mut record);
        let nexus = held.owner;
        let asks = vec![
            security_in(nexus, 0x0020, 80),
            write(nexus, true),
            read(nexus, 0, 255),
            read(nexus, 1, 0),
            write(5, true),
        ];
        let own_page = security_out(nexus, held.page(held.ceem).bytes());
        for change in [security_out(nexus, held.page(1).bytes()), event(kind::DEMOUNT)] {
            let own_page = vec![own_page.clone()];
            let before = [vec![load(&record)], asks.clone(), own_page.clone(), asks.clone()].concat();
            let after = [vec![change], asks.clone(), own_page, asks.clone()].concat();
            sink(Session { name: "held sets in use".to_string(), commands: [before, after].concat() });
        }
    }
}

/// The status reader on every CEEMS with every mixture of modes.
fn status_pages(sink: &mut Sink) {
    let mut commands = vec![power_on()];
    for encryption in 0..3 {
        for (ceems, decryption) in pairs() {
            let mut page = status_page_of(24);
            (page[5], page[6], page[12]) = (encryption, decryption, ceems << 1);
            commands.push(read_status(page));
        }
    }
    sink(Session { name: "CEEMS and modes".to_string(), commands });
}
