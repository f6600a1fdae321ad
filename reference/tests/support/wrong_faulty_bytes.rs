//! Drives that tell another byte than the lowest one at which a rule breaks, or tell it in another way (02, request 6); the
//! directed sessions are to find them.

use crate::{tell, Fault, Moment};
use reference::comparison::faulty_byte_cases::RuleOfPage;
use reference::descriptors::DescriptorRule;
use reference::recording::ANSWER_BYTES;
use reference::set_page::PageRule;
use reference::status_page::StatusRule;
use reference::stream::{kind, Drive};
use std::cell::Cell;

pub const FAULTY_BYTE_FAULTS: [Fault; 42] = [
    ("page-code-points-to-1", page_code_points_to_1, 2),
    ("page-code-points-to-its-wrong-byte", page_code_points_to_its_wrong_byte, 2),
    ("key-length-points-to-19", key_length_points_to_19, 2),
    ("key-length-points-to-its-wrong-byte", key_length_points_to_its_wrong_byte, 2),
    ("second-length-byte", second_length_byte, 2),
    ("length-points-to-its-wrong-byte", length_points_to_its_wrong_byte, 2),
    ("length-points-to-its-descriptor", length_points_to_its_descriptor, 2),
    ("second-byte-points-to-its-descriptor", second_byte_points_to_its_descriptor, 2),
    ("falling-type-points-to-the-list", falling_type_points_to_the_list, 2),
    ("cut-descriptor-points-to-its-length", cut_descriptor_points_to_its_length, 2),
    ("cut-head-points-to-the-pages-end", cut_head_points_to_the_pages_end, 2),
    ("cut-data-points-to-the-pages-end", cut_data_points_to_the_pages_end, 2),
    ("length-before-cut", length_before_cut, 2),
    ("left-over-points-to-the-pages-end", left_over_points_to_the_pages_end, 2),
    ("left-over-points-to-the-last-byte", left_over_points_to_the_last_byte, 2),
    ("left-over-points-to-18", left_over_points_to_18, 2),
    ("left-over-counted-with-a-key", left_over_counted_with_a_key, 2),
    ("supplemental-scope-points-to-5", supplemental_scope_points_to_5, 2),
    ("mismatched-mode-points-to-4", mismatched_mode_points_to_4, 2),
    ("mode-that-reads-nothing-points-to-6", mode_that_reads_nothing_points_to_6, 2),
    ("key-cut-points-to-20", key_cut_points_to_20, 2),
    ("key-cut-with-sdk-1-points-to-20", key_cut_with_sdk_1_points_to_20, 2),
    ("key-cut-points-to-the-pages-end", key_cut_points_to_the_pages_end, 2),
    ("ceem-points-to-7", ceem_points_to_7, 2),
    ("reserved-bits-of-byte-4-told-last", reserved_bits_of_byte_4_told_last, 2),
    ("first-reserved-byte-always", first_reserved_byte_always, 2),
    ("fixed-zeros-of-12-point-to-13", fixed_zeros_of_12_point_to_13, 2),
    ("set-scope-points-to-5", set_scope_points_to_5, 2),
    ("highest-byte", highest_byte, 2),
    ("scope-before-page-code", scope_before_page_code, 2),
    ("key-length-before-reserved-bytes", key_length_before_reserved_bytes, 2),
    ("list-before-fields", list_before_fields, 2),
    ("counted-from-1", counted_from_1, 2),
    ("status-list-counted-without-24", status_list_counted_without_24, 2),
    ("set-list-counted-from-its-start", set_list_counted_from_its_start, 2),
    ("little-endian", little_endian, 2),
    ("one-byte-of-data", one_byte_of_data, 2),
    ("out-without-data", out_without_data, 2),
    ("status-reader-without-data", status_reader_without_data, 2),
    ("byte-told-with-7", byte_told_with_7, 2),
    ("byte-of-a-page-before", byte_of_a_page_before, 3),
    ("byte-in-a-batch", byte_in_a_batch, 2),
];

/// A page that is answered 8, and the rules that it breaks, each with its byte.
struct Wrong {
    page: Vec<u8>,
    broken: Vec<(RuleOfPage, usize)>,
}

impl Wrong {
    /// The page at hand, if it is one.
    fn at_hand(moment: &Moment) -> Option<Wrong> {
        if moment.reply.number != 8 {
            return None;
        }
        let mut drive = Drive::with(moment.before.clone());
        drive.answer(moment.command);
        Some(Wrong { page: moment.command.data.clone(), broken: RuleOfPage::broken_by(drive.account()) })
    }

    /// Whether only such rules are broken.
    fn breaks_only(&self, is_so: impl Fn(RuleOfPage) -> bool) -> bool {
        self.broken.iter().all(|&(rule, _)| is_so(rule))
    }
}

/// Some rules point to another byte of the page; the lowest byte is told.
fn pointing(moment: &mut Moment, is_so: impl Fn(RuleOfPage) -> bool, other: impl Fn(&[u8], usize) -> usize) {
    let Some(wrong) = Wrong::at_hand(moment) else { return };
    let told =
        |&(rule, byte): &(RuleOfPage, usize)| if is_so(rule) { other(&wrong.page, byte) } else { byte };
    tell(moment, wrong.broken.iter().map(told).min().expect("a rule is broken"));
}

/// Of pages that break some rules and others, the byte of those is told, whatever the others' are.
fn telling_first(moment: &mut Moment, is_so: impl Fn(RuleOfPage) -> bool) {
    let Some(wrong) = Wrong::at_hand(moment) else { return };
    let bytes = wrong.broken.iter().filter(|(rule, _)| is_so(*rule)).map(|&(_, byte)| byte);
    if let Some(byte) = bytes.min() {
        tell(moment, byte);
    }
}

/// The byte that is told becomes another one.
fn telling(moment: &mut Moment, other: impl Fn(usize) -> usize) {
    if let Some(byte) = moment.reply.faulty_byte() {
        tell(moment, other(byte));
    }
}

/// The rule of descriptors among the rules of either page.
fn descriptor_rule(rule: RuleOfPage) -> Option<DescriptorRule> {
    match rule {
        RuleOfPage::Set(PageRule::Descriptor(rule)) | RuleOfPage::Status(StatusRule::Descriptor(rule)) => {
            Some(rule)
        }
        _ => None,
    }
}

fn is_page_code(rule: RuleOfPage) -> bool {
    matches!(rule, RuleOfPage::Set(PageRule::PageCode) | RuleOfPage::Status(StatusRule::PageCode))
}

fn is_key_length(rule: RuleOfPage) -> bool {
    matches!(rule, RuleOfPage::Set(PageRule::KeyLength | PageRule::SupplementalKeyLength))
}

fn is_length(rule: RuleOfPage) -> bool {
    matches!(descriptor_rule(rule), Some(DescriptorRule::UKadLength | DescriptorRule::AKadLength))
}

fn is_cut_head(rule: RuleOfPage) -> bool {
    descriptor_rule(rule) == Some(DescriptorRule::HeaderInPage)
}

fn is_cut_data(rule: RuleOfPage) -> bool {
    descriptor_rule(rule) == Some(DescriptorRule::DataInPage)
}

fn is_left_over(rule: RuleOfPage) -> bool {
    let rules = [PageRule::NoListWithoutEncrypt, PageRule::NoListWithSupplementalKey];
    rules.map(RuleOfPage::Set).contains(&rule)
}

fn is_key_cut(rule: RuleOfPage) -> bool {
    matches!(rule, RuleOfPage::Set(PageRule::KeyInPage | PageRule::SupplementalKeyInPage))
}

/// A wrong page code points to its second byte.
fn page_code_points_to_1(moment: &mut Moment) {
    pointing(moment, is_page_code, |_, _| 1);
}

/// A wrong page code points to its second byte where the first is right.
fn page_code_points_to_its_wrong_byte(moment: &mut Moment) {
    pointing(moment, is_page_code, |page, _| usize::from(page[0] == 0));
}

/// A wrong key length points to its second byte.
fn key_length_points_to_19(moment: &mut Moment) {
    pointing(moment, is_key_length, |_, _| 19);
}

/// A wrong key length points to its second byte where the first is right.
fn key_length_points_to_its_wrong_byte(moment: &mut Moment) {
    pointing(moment, is_key_length, |page, _| if page[18] == 0 { 19 } else { 18 });
}

/// A descriptor length points to its second length byte.
fn second_length_byte(moment: &mut Moment) {
    pointing(moment, is_length, |_, byte| byte + 1);
}

/// A descriptor length points to its second length byte where the first is zero.
fn length_points_to_its_wrong_byte(moment: &mut Moment) {
    pointing(moment, is_length, |page, byte| byte + usize::from(page[byte] == 0));
}

/// A descriptor length points to its descriptor's type byte.
fn length_points_to_its_descriptor(moment: &mut Moment) {
    pointing(moment, is_length, |_, byte| byte - 2);
}

/// A descriptor's second byte points to its type byte.
fn second_byte_points_to_its_descriptor(moment: &mut Moment) {
    let is_second_byte = |rule| descriptor_rule(rule) == Some(DescriptorRule::ZeroByte);
    pointing(moment, is_second_byte, |_, byte| byte - 1);
}

/// A type that doesn't rise points to the list's first byte.
fn falling_type_points_to_the_list(moment: &mut Moment) {
    let list = if moment.command.kind == kind::OUT { 52 } else { 24 };
    let falls = |rule| descriptor_rule(rule) == Some(DescriptorRule::TypesRise);
    pointing(moment, falls, |_, _| list);
}

/// A descriptor that is cut points to its first length byte.
fn cut_descriptor_points_to_its_length(moment: &mut Moment) {
    pointing(moment, |rule| is_cut_head(rule) || is_cut_data(rule), |_, byte| byte + 2);
}

/// A descriptor whose head is cut points to the page's end.
fn cut_head_points_to_the_pages_end(moment: &mut Moment) {
    pointing(moment, is_cut_head, |page, _| page.len());
}

/// A descriptor whose data are cut points to the page's end.
fn cut_data_points_to_the_pages_end(moment: &mut Moment) {
    pointing(moment, is_cut_data, |page, _| page.len());
}

/// Of a descriptor that is cut and has a wrong length, the length is told.
fn length_before_cut(moment: &mut Moment) {
    let is_of_both = |rule| is_length(rule) || is_cut_data(rule);
    if Wrong::at_hand(moment).is_some_and(|wrong| wrong.breaks_only(is_of_both)) {
        telling_first(moment, is_length);
    }
}

/// Bytes left over point to the page's end.
fn left_over_points_to_the_pages_end(moment: &mut Moment) {
    pointing(moment, is_left_over, |page, _| page.len());
}

/// Bytes left over point to the last of them.
fn left_over_points_to_the_last_byte(moment: &mut Moment) {
    pointing(moment, is_left_over, |page, _| page.len() - 1);
}

/// Bytes left over point to the key length.
fn left_over_points_to_18(moment: &mut Moment) {
    pointing(moment, is_left_over, |_, _| 18);
}

/// Bytes left over point past a key even where there is none.
fn left_over_counted_with_a_key(moment: &mut Moment) {
    pointing(moment, is_left_over, |_, byte| byte.max(52));
}

/// A mismatched supplemental scope points to the byte of SDK.
fn supplemental_scope_points_to_5(moment: &mut Moment) {
    let is_scope = |rule| rule == RuleOfPage::Set(PageRule::SupplementalScopeIsNexusScope);
    pointing(moment, is_scope, |_, _| 5);
}

/// A mismatched supplemental mode points to the scope.
fn mismatched_mode_points_to_4(moment: &mut Moment) {
    let is_mode = |rule| rule == RuleOfPage::Set(PageRule::SupplementalModeIsSetMode);
    pointing(moment, is_mode, |_, _| 4);
}

/// A supplemental mode that is neither 2 nor 3 points to the encryption mode.
fn mode_that_reads_nothing_points_to_6(moment: &mut Moment) {
    let is_mode = |rule| rule == RuleOfPage::Set(PageRule::SupplementalModeReads);
    pointing(moment, is_mode, |_, _| 6);
}

/// A key that is cut points to the key. With a wrong length beside it, that is told.
fn key_cut_points_to_20(moment: &mut Moment) {
    pointing(moment, is_key_cut, |_, _| 20);
}

/// A supplemental key that is cut points to the key.
fn key_cut_with_sdk_1_points_to_20(moment: &mut Moment) {
    let is_cut = |rule| rule == RuleOfPage::Set(PageRule::SupplementalKeyInPage);
    pointing(moment, is_cut, |_, _| 20);
}

/// A key that is cut points to the page's end.
fn key_cut_points_to_the_pages_end(moment: &mut Moment) {
    pointing(moment, is_key_cut, |page, _| page.len());
}

/// CEEM 10b and 11b with decryption DISABLE point to the decryption mode.
fn ceem_points_to_7(moment: &mut Moment) {
    let is_ceem = |rule| rule == RuleOfPage::Set(PageRule::CeemWithDecryptionDisable);
    pointing(moment, is_ceem, |_, _| 7);
}

/// Reserved bits of byte 4 are told where nothing else is wrong.
fn reserved_bits_of_byte_4_told_last(moment: &mut Moment) {
    let is_other = |rule| rule != RuleOfPage::Set(PageRule::ReservedBitsOfByte4);
    telling_first(moment, is_other);
}

/// The reserved bytes are one field.
fn first_reserved_byte_always(moment: &mut Moment) {
    let first = if moment.command.kind == kind::OUT { 11 } else { 13 };
    let is_reserved = |rule| {
        matches!(
            rule,
            RuleOfPage::Set(PageRule::ReservedByte(_)) | RuleOfPage::Status(StatusRule::FixedZeroByte(_))
        )
    };
    pointing(moment, is_reserved, |_, _| first);
}

/// Fixed zeros of byte 12 count as the reserved bytes after it.
fn fixed_zeros_of_12_point_to_13(moment: &mut Moment) {
    let is_byte_12 = |rule| rule == RuleOfPage::Status(StatusRule::FixedZeroBitsOfByte12);
    pointing(moment, is_byte_12, |_, _| 13);
}

/// The status page's set scope points to the byte after it.
fn set_scope_points_to_5(moment: &mut Moment) {
    pointing(moment, |rule| rule == RuleOfPage::Status(StatusRule::SetScope), |_, _| 5);
}

/// The highest byte is told.
fn highest_byte(moment: &mut Moment) {
    let Some(wrong) = Wrong::at_hand(moment) else { return };
    tell(moment, wrong.broken.iter().map(|&(_, byte)| byte).max().expect("a rule is broken"));
}

/// SCOPE is looked at before the page code.
fn scope_before_page_code(moment: &mut Moment) {
    telling_first(moment, |rule| rule == RuleOfPage::Set(PageRule::Scope));
}

/// The key length is looked at before the reserved bytes.
fn key_length_before_reserved_bytes(moment: &mut Moment) {
    let is_of_both = |rule| is_key_length(rule) || matches!(rule, RuleOfPage::Set(PageRule::ReservedByte(_)));
    if Wrong::at_hand(moment).is_some_and(|wrong| wrong.breaks_only(is_of_both)) {
        telling_first(moment, is_key_length);
    }
}

/// The status reader looks at the list before the fields.
fn list_before_fields(moment: &mut Moment) {
    telling_first(moment, |rule| matches!(rule, RuleOfPage::Status(StatusRule::Descriptor(_))));
}

/// Bytes are counted from 1.
fn counted_from_1(moment: &mut Moment) {
    telling(moment, |byte| byte + 1);
}

/// The status reader counts the list's bytes from its start.
fn status_list_counted_without_24(moment: &mut Moment) {
    if moment.command.kind == kind::READ_STATUS {
        telling(moment, |byte| if byte >= 24 { byte - 24 } else { byte });
    }
}

/// OUT counts the list's bytes from its start.
fn set_list_counted_from_its_start(moment: &mut Moment) {
    if moment.command.kind == kind::OUT {
        telling(moment, |byte| if byte >= 52 { byte - 52 } else { byte });
    }
}

/// The number's low byte comes first.
fn little_endian(moment: &mut Moment) {
    telling(moment, |byte| usize::from((byte as u16).swap_bytes()));
}

/// The number has one byte.
fn one_byte_of_data(moment: &mut Moment) {
    if moment.reply.faulty_byte().is_some() {
        moment.reply.data.remove(0);
    }
}

/// OUT tells no byte.
fn out_without_data(moment: &mut Moment) {
    if moment.command.kind == kind::OUT {
        moment.reply.data.clear();
    }
}

/// The status reader tells no byte.
fn status_reader_without_data(moment: &mut Moment) {
    if moment.reply.number == 8 && moment.command.kind == kind::READ_STATUS {
        moment.reply.data.clear();
    }
}

/// Answer 7 tells the byte of the page length.
fn byte_told_with_7(moment: &mut Moment) {
    if moment.reply.number == 7 {
        tell(moment, 2);
    }
}

/// The lowest byte of all pages so far is told.
fn byte_of_a_page_before(moment: &mut Moment) {
    thread_local! {
        static LOWEST: Cell<usize> = const { Cell::new(usize::MAX) };
    }
    if let Some(byte) = moment.reply.faulty_byte() {
        LOWEST.set(LOWEST.get().min(byte));
        tell(moment, LOWEST.get());
    }
}

/// An event's answer 8 in a batch has the byte in place of the qualifier, which is zero.
fn byte_in_a_batch(moment: &mut Moment) {
    let Some(batch) = moment.command.batch().filter(|_| moment.command.kind == kind::BATCH) else { return };
    if moment.reply.number != 0 {
        return;
    }
    let recording = batch.recording();
    let mut drive = Drive::with(moment.before.clone());
    for (event, answer) in recording.events.iter().zip(moment.reply.data.chunks_exact_mut(ANSWER_BYTES)) {
        if let Some(byte) = drive.answer(&recording.command(event)).faulty_byte() {
            answer[3] = byte as u8;
        }
    }
}
