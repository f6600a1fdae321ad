//! The faulty bytes that the drive tells of damaged pages: each is a field's, and each row of the table is reached.

use crate::k;
use reference::comparison::numbers::Numbers;
use reference::comparison::page_builder::{random_damage, random_list, status_header, Edit, Family, SetPage};
use reference::comparison::session::{read_status, security_out};
use reference::field_words::{field_of, table, Page, Part};
use reference::stream::{Command, Drive};
use std::collections::BTreeSet;

const PAGES: usize = 30_000;

/// A Set Data Encryption page with one damage or two.
fn damaged_set_page(numbers: &mut Numbers) -> Vec<u8> {
    let page = SetPage { list: random_list(numbers), ..numbers.pick(&Family::EVERY).page() };
    let list = 20 + page.key.len();
    let mut page = page.bytes();
    for _ in 0..=numbers.below(2) {
        random_damage(&mut page, &Edit::of_set_page(), list, numbers);
    }
    page
}

fn damaged_status_page(numbers: &mut Numbers) -> Vec<u8> {
    let mut page = [status_header(), random_list(numbers)].concat();
    page[3] = (page.len() - 4) as u8;
    for _ in 0..=numbers.below(2) {
        random_damage(&mut page, &Edit::of_status_page(), 24, numbers);
    }
    page
}

/// The names of the wrong fields of damaged pages from nexus 3, which has sent K.
fn names(mut command: impl FnMut(&mut Numbers) -> Command) -> BTreeSet<String> {
    let (mut numbers, mut names) = (Numbers::new(20_260_101), BTreeSet::new());
    for _ in 0..PAGES {
        let mut drive = Drive::new();
        drive.answer(&security_out(3, k()));
        let command = command(&mut numbers);
        let reply = drive.answer(&command);
        if reply.number == 8 {
            let field = field_of(&command, &reply).expect("an answer 8 tells the faulty byte");
            let (_, name) = field.split_once(", ").expect("a number and a name");
            assert!(
                name != "which no rule points to" && name != "past the page's end",
                "{field}: {command:?}"
            );
            names.insert(name.to_string());
        }
    }
    names
}

/// The names of a page's rows, and those of the descriptors of its list.
fn rows(parts: &[Part], descriptors: &[&str]) -> BTreeSet<String> {
    let of = |part: Part| table().iter().filter(move |row| row.part == part).map(|row| row.name);
    let of_page = parts.iter().flat_map(|&part| of(part)).map(str::to_string);
    let of_list = descriptors
        .iter()
        .flat_map(|which| of(Part::Descriptor).map(move |name| format!("{name} of the {which} descriptor")));
    of_page.chain(of_list).collect()
}

#[test]
fn every_faulty_byte_of_a_set_page_is_a_field() {
    let expected = rows(&[Part::Of(Page::SetDataEncryption), Part::LeftOver], &["first", "second"]);
    let mut names = names(|numbers| security_out(3, damaged_set_page(numbers)));
    names.remove("type of the third descriptor");
    assert_eq!(names, expected);
}

#[test]
fn every_faulty_byte_of_a_status_page_is_a_field() {
    let expected = rows(&[Part::Of(Page::Status)], &["first", "second"]);
    let mut names = names(|numbers| read_status(damaged_status_page(numbers)));
    names.remove("type of the third descriptor");
    assert_eq!(names, expected);
}
