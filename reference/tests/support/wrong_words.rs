//! Drives that are wrong about the words beside the places (02, request 7), about whom a set serves, and about the flags that
//! are given from the words; the directed sessions are to find them.

use crate::{refuse, Fault, Moment};
use reference::answer::NO_SENSE;
use reference::codes::scope;
use reference::record::{Nexus, Record};
use reference::record_bytes::{
    self, COUNTER_BYTES, NEXUS_BYTES, PLACE_BYTES, RECORD_BYTES, WORDS_START, WORD_BYTES,
};
use reference::selection_words::{bit, AT_POWER_ON};
use reference::sizes::{NEXUSES, PLACES};
use reference::stream::{kind, Command, Drive, Reply};
use reference::well_formed::is_well_formed;

pub const WORD_FAULTS: [Fault; 56] = [
    ("released-bit-kept", released_bit_kept, 3),
    ("released-bit-kept-in-both-words", released_bit_kept_in_both_words, 3),
    ("released-bit-in-no-word", released_bit_in_no_word, 3),
    ("evicted-bit-kept", evicted_bit_kept, 6),
    ("local-bit-in-place-0-too", local_bit_in_place_0_too, 2),
    ("words-not-kept-by-events", words_not_kept_by_events, 3),
    ("words-not-kept-by-all-pages", words_not_kept_by_all_pages, 3),
    ("words-not-kept-in-batches", words_not_kept_in_batches, 2),
    ("bit-lost-in-own-place", bit_lost_in_own_place, 3),
    ("all-nexus-in-no-word", all_nexus_in_no_word, 2),
    ("former-all-nexus-in-no-word", former_all_nexus_in_no_word, 3),
    ("zeros-at-power-on", zeros_at_power_on, 1),
    ("wrong-words-kept-at-power-on", wrong_words_kept_at_power_on, 2),
    ("public-nexuses-left-out", public_nexuses_left_out, 2),
    ("unregistered-nexuses-left-out", unregistered_nexuses_left_out, 2),
    ("reset-clears-words", reset_clears_words, 3),
    ("refused-page-moves-bit", refused_page_moves_bit, 7),
    ("flags-from-new-words-alone", flags_from_new_words_alone, 6),
    ("flags-from-old-words-alone", flags_from_old_words_alone, 3),
    ("flags-for-moved-bits-alone", flags_for_moved_bits_alone, 3),
    ("flags-for-numbers-of-all-places", flags_for_numbers_of_all_places, 3),
    ("acting-nexus-told", acting_nexus_told, 3),
    ("demount-tells-high-nexuses-of-place-0", demount_tells_high_nexuses_of_place_0, 2),
    ("loss-tells-high-nexuses-not-registered", loss_tells_high_nexuses_not_registered, 2),
    ("one-wrong-bit-well-formed", one_wrong_bit_well_formed, 2),
    ("one-missing-bit-well-formed", one_missing_bit_well_formed, 2),
    ("bits-above-15-not-looked-at", bits_above_15_not_looked_at, 2),
    ("bit-63-not-looked-at", bit_63_not_looked_at, 2),
    ("sixteen-ones-well-formed", sixteen_ones_well_formed, 2),
    ("place-0s-word-not-looked-at", place_0s_word_not_looked_at, 2),
    ("local-words-not-looked-at", local_words_not_looked_at, 2),
    ("swapped-words-well-formed", swapped_words_well_formed, 2),
    ("words-looked-at-by-pages-alone", words_looked_at_by_pages_alone, 2),
    ("batch-puts-words-right", batch_puts_words_right, 2),
    ("answer-1-puts-words-right", answer_1_puts_words_right, 2),
    ("2-before-1-of-wrong-words", two_before_one_of_wrong_words, 2),
    ("5-before-1-of-wrong-words", five_before_one_of_wrong_words, 2),
    ("load-puts-words-right", load_puts_words_right, 1),
    ("load-refuses-wrong-words", load_refuses_wrong_words, 1),
    ("load-cuts-words-to-16-bits", load_cuts_words_to_16_bits, 1),
    ("serves-answers-a-place-above-4", serves_answers_a_place_above_4, 2),
    ("serves-takes-the-places-low-byte", serves_takes_the_places_low_byte, 2),
    ("serves-skips-bit-12-of-the-place", serves_skips_bit_12_of_the_place, 2),
    ("serves-without-check-1", serves_without_check_1, 2),
    ("serves-13-before-1", serves_13_before_1, 2),
    ("serves-asks-the-nexus", serves_asks_the_nexus, 2),
    ("serves-asks-what-is-pending", serves_asks_what_is_pending, 2),
    ("serves-clears-a-flag", serves_clears_a_flag, 2),
    ("refused-serves-clears-a-high-nexuss-flag", refused_serves_clears_a_high_nexuss_flag, 2),
    ("serves-registers", serves_registers, 2),
    ("serves-the-owner-alone", serves_the_owner_alone, 2),
    ("serves-in-other-byte-order", serves_in_other_byte_order, 2),
    ("serves-as-an-event", serves_as_an_event, 2),
    ("words-in-other-byte-order", words_in_other_byte_order, 2),
    ("words-before-the-sets", words_before_the_sets, 1),
    ("words-beside-their-sets", words_beside_their_sets, 1),
];

/// Whether the call at hand is a page or an event that is done, so that words may change.
fn is_done(moment: &Moment) -> bool {
    let may_change = matches!(moment.command.kind, kind::OUT | kind::DEMOUNT..=kind::VENDOR_RELEASE);
    may_change && moment.reply.number == 0
}

/// The nexuses that the call at hand takes from a LOCAL place to place 0, each with the place.
fn released(moment: &Moment) -> Vec<(usize, usize)> {
    let places = |nexus| (moment.before.selected_place(nexus), moment.after.selected_place(nexus));
    let is_released = |nexus: usize| match places(nexus) {
        (place, 0) if place > 0 => Some((nexus, place)),
        _ => None,
    };
    if is_done(moment) {
        (0..NEXUSES).filter_map(is_released).collect()
    } else {
        Vec::new()
    }
}

/// A released nexus's bit stays in the word of the place that it had.
fn released_bit_kept(moment: &mut Moment) {
    for (nexus, place) in released(moment) {
        moment.after.selection_words[place] |= bit(nexus);
        moment.after.selection_words[0] &= !bit(nexus);
    }
}

/// A released nexus's bit comes to place 0's word, and stays in the other.
fn released_bit_kept_in_both_words(moment: &mut Moment) {
    for (nexus, place) in released(moment) {
        moment.after.selection_words[place] |= bit(nexus);
    }
}

/// A released nexus's bit is cleared, and not set in place 0's word.
fn released_bit_in_no_word(moment: &mut Moment) {
    for (nexus, _) in released(moment) {
        moment.after.selection_words[0] &= !bit(nexus);
    }
}

/// An evicted nexus's bit stays in the word of the place that another has now.
fn evicted_bit_kept(moment: &mut Moment) {
    for (nexus, place) in released(moment) {
        if moment.after.places[place].is_used() {
            moment.after.selection_words[place] |= bit(nexus);
        }
    }
}

/// Place 0's word never loses a bit.
fn local_bit_in_place_0_too(moment: &mut Moment) {
    if is_done(moment) {
        moment.after.selection_words[0] |= moment.before.selection_words[0];
    }
}

/// The words stay as they were.
fn not_kept(moment: &mut Moment) {
    moment.after.selection_words = moment.before.selection_words;
}

/// Events don't put the words right.
fn words_not_kept_by_events(moment: &mut Moment) {
    if is_done(moment) && moment.command.kind != kind::OUT {
        not_kept(moment);
    }
}

/// Whether a page of a scope, and without SDK, was taken.
fn is_page(moment: &Moment, scope: u8) -> bool {
    let page = &moment.command.data;
    is_done(moment) && moment.command.kind == kind::OUT && page[4] >> 5 == scope && page[5] & 8 == 0
}

/// An ALL page doesn't put the words right: the sender's bit stays in its LOCAL place's.
fn words_not_kept_by_all_pages(moment: &mut Moment) {
    if is_page(moment, scope::ALL) {
        not_kept(moment);
    }
}

/// A batch leaves the words as they were.
fn words_not_kept_in_batches(moment: &mut Moment) {
    if moment.command.kind == kind::BATCH && moment.reply.number == 0 {
        not_kept(moment);
    }
}

/// A LOCAL set that its own nexus replaces: the bit is turned.
fn bit_lost_in_own_place(moment: &mut Moment) {
    let nexus = usize::from(moment.command.nexus);
    if is_page(moment, scope::LOCAL) {
        if let Some(place) = moment.before.local_place(nexus) {
            moment.after.selection_words[place] ^= bit(nexus);
        }
    }
}

/// The ALL nexus has no bit in place 0's word.
fn all_nexus_in_no_word(moment: &mut Moment) {
    if is_page(moment, scope::ALL) {
        moment.after.selection_words[0] &= !bit(usize::from(moment.command.nexus));
    }
}

/// A nexus that was ALL and is PUBLIC by another's page has no bit any more.
fn former_all_nexus_in_no_word(moment: &mut Moment) {
    for nexus in 0..NEXUSES {
        let (before, after) = (moment.before.nexuses[nexus].scope, moment.after.nexuses[nexus].scope);
        let is_sender = usize::from(moment.command.nexus) == nexus;
        if is_page(moment, scope::ALL) && !is_sender && before == scope::ALL && after == scope::PUBLIC {
            moment.after.selection_words[0] &= !bit(nexus);
        }
    }
}

/// Power-on gives all zeros, the words included.
fn zeros_at_power_on(moment: &mut Moment) {
    if moment.command.kind == kind::POWER_ON {
        moment.after.selection_words = [0; PLACES];
    }
}

/// Power-on leaves wrong words.
fn wrong_words_kept_at_power_on(moment: &mut Moment) {
    if moment.command.kind == kind::POWER_ON && has_wrong_words_alone(moment.before) {
        not_kept(moment);
    }
}

/// Place 0's word has the ALL nexus alone, if there is one.
fn public_nexuses_left_out(moment: &mut Moment) {
    if is_done(moment) {
        leave_out(moment, |nexus| nexus.scope == scope::PUBLIC);
    }
}

/// Such nexuses are left out of place 0's word.
fn leave_out(moment: &mut Moment, is_left_out: impl Fn(&Nexus) -> bool) {
    for (number, nexus) in moment.after.nexuses.iter().enumerate() {
        if is_left_out(nexus) {
            moment.after.selection_words[0] &= !bit(number);
        }
    }
}

/// Place 0's word has only nexuses that are registered.
fn unregistered_nexuses_left_out(moment: &mut Moment) {
    if is_done(moment) {
        leave_out(moment, |nexus| !nexus.registered);
    }
}

/// A reset clears the words with the marks.
fn reset_clears_words(moment: &mut Moment) {
    if moment.command.kind == kind::LOGICAL_UNIT_RESET && moment.reply.number == 0 {
        moment.after.selection_words = AT_POWER_ON;
    }
}

/// A LOCAL page that finds no place takes its sender's bit out of place 0's word.
fn refused_page_moves_bit(moment: &mut Moment) {
    if moment.reply.number == 10 {
        moment.after.selection_words[0] &= !bit(usize::from(moment.command.nexus));
    }
}

/// The flags of a page or an event are given by another rule about a nexus, to those registered before that aren't acting.
fn flagging(moment: &mut Moment, is_told: impl Fn(&Record, &Record, usize) -> bool) {
    if !is_done(moment) {
        return;
    }
    let has_acting = matches!(moment.command.kind, kind::OUT | kind::PREEMPT);
    for nexus in 0..NEXUSES {
        let before = moment.before.nexuses[nexus];
        let is_acting = has_acting && usize::from(moment.command.nexus) == nexus;
        if !before.registered || is_acting {
            continue;
        }
        let told = is_told(moment.before, moment.after, nexus);
        let after = &mut moment.after.nexuses[nexus];
        after.changed_by_another_nexus = before.changed_by_another_nexus || told && has_acting;
        after.changed_by_vendor_event = before.changed_by_vendor_event || told && !has_acting;
    }
}

/// The places whose word has a nexus's bit.
fn places_of(record: &Record, nexus: usize) -> impl Iterator<Item = usize> + '_ {
    (0..PLACES).filter(move |&place| record.selection_words[place] & bit(nexus) != 0)
}

/// Whether a place's number changes.
fn number_changes(before: &Record, after: &Record, place: usize) -> bool {
    before.places[place].number != after.places[place].number
}

/// Those in the new words of places with another number are told: one that came to a place 0 which stayed isn't.
fn flags_from_new_words_alone(moment: &mut Moment) {
    flagging(moment, |before, after, nexus| {
        places_of(after, nexus).any(|place| number_changes(before, after, place))
    });
}

/// Those in the old words of places with another number are told: with numbers that come out the same one that left isn't.
fn flags_from_old_words_alone(moment: &mut Moment) {
    flagging(moment, |before, after, nexus| {
        places_of(before, nexus).any(|place| number_changes(before, after, place))
    });
}

/// Those whose bit is in another word are told, and no others.
fn flags_for_moved_bits_alone(moment: &mut Moment) {
    flagging(moment, |before, after, nexus| before.selected_place(nexus) != after.selected_place(nexus));
}

/// Everyone is told where any place has another number.
fn flags_for_numbers_of_all_places(moment: &mut Moment) {
    flagging(moment, |before, after, _| (0..PLACES).any(|place| number_changes(before, after, place)));
}

/// A page's sender is told of its own change.
fn acting_nexus_told(moment: &mut Moment) {
    let nexus = usize::from(moment.command.nexus);
    if is_done(moment) && moment.command.kind == kind::OUT && moment.before.nexuses[nexus].registered {
        let place = moment.after.selected_place(nexus);
        let changed = moment.before.selected_place(nexus) != place
            || number_changes(moment.before, moment.after, place);
        moment.after.nexuses[nexus].changed_by_another_nexus |= changed;
    }
}

/// The nexuses of a word's high byte.
const HIGH_NEXUSES: std::ops::Range<usize> = 8..NEXUSES;

/// A demount that gives place 0 another number tells those nexuses that stay in a LOCAL place.
fn demount_tells_high_nexuses_of_place_0(moment: &mut Moment) {
    let is_demount = moment.command.kind == kind::DEMOUNT && is_done(moment);
    if is_demount && number_changes(moment.before, moment.after, 0) {
        for nexus in HIGH_NEXUSES {
            let is_told = moment.before.nexuses[nexus].registered && moment.after.selected_place(nexus) > 0;
            moment.after.nexuses[nexus].changed_by_vendor_event |= is_told;
        }
    }
}

/// A nexus reservation loss tells those nexuses whether or not they are registered.
fn loss_tells_high_nexuses_not_registered(moment: &mut Moment) {
    if moment.command.kind == kind::NEXUS_RESERVATION_LOSS {
        for (nexus, _) in released(moment).into_iter().filter(|(nexus, _)| HIGH_NEXUSES.contains(nexus)) {
            moment.after.nexuses[nexus].changed_by_vendor_event = true;
        }
    }
}

/// Whether a record is well formed but for its words.
fn has_wrong_words_alone(record: &Record) -> bool {
    let mut right = record.clone();
    right.put_words_right();
    right != *record && is_well_formed(&right)
}

/// Records whose words are wrong in some way are taken as well formed; the words are put right then.
fn taking(moment: &mut Moment, is_taken: impl Fn(&Record, [u64; PLACES]) -> bool) {
    let takes_record = matches!(moment.command.kind, kind::IN..=kind::SERVES);
    if !takes_record || !has_wrong_words_alone(moment.before) {
        return;
    }
    let right = moment.before.words_by_scopes();
    if is_taken(moment.before, right) {
        let mut drive = Drive::with(Record { selection_words: right, ..moment.before.clone() });
        *moment.reply = drive.answer(moment.command);
        *moment.after = drive.controller().record.clone();
    }
}

/// The number of wrong bits.
fn wrong_bits(record: &Record, right: [u64; PLACES]) -> u32 {
    (0..PLACES).map(|place| (record.selection_words[place] ^ right[place]).count_ones()).sum()
}

/// A record with one wrong bit is taken as well formed.
fn one_wrong_bit_well_formed(moment: &mut Moment) {
    taking(moment, |record, right| wrong_bits(record, right) == 1);
}

/// One whose words have no wrong ones is, though one is missing.
fn one_missing_bit_well_formed(moment: &mut Moment) {
    taking(moment, |record, right| {
        wrong_bits(record, right) == 1
            && (0..PLACES).all(|place| record.selection_words[place] & !right[place] == 0)
    });
}

/// Words are compared in 16 bits.
fn bits_above_15_not_looked_at(moment: &mut Moment) {
    taking(moment, |record, right| record.selection_words.map(|word| word & 0xFFFF) == right);
}

/// Words are compared in 63 bits.
fn bit_63_not_looked_at(moment: &mut Moment) {
    taking(moment, |record, right| record.selection_words.map(|word| word & !bit(63)) == right);
}

/// Words with 16 ones in all are taken.
fn sixteen_ones_well_formed(moment: &mut Moment) {
    taking(moment, |record, _| record.selection_words.map(u64::count_ones).iter().sum::<u32>() == 16);
}

/// Place 0's word may be any.
fn place_0s_word_not_looked_at(moment: &mut Moment) {
    taking(moment, |record, right| record.selection_words[1..] == right[1..]);
}

/// The words of places 1 to 4 may be any.
fn local_words_not_looked_at(moment: &mut Moment) {
    taking(moment, |record, right| record.selection_words[0] == right[0]);
}

/// The words may stand beside other places.
fn swapped_words_well_formed(moment: &mut Moment) {
    taking(moment, |record, mut right| {
        let mut words = record.selection_words;
        words.sort();
        right.sort();
        words == right
    });
}

/// Only pages ask for right words.
fn words_looked_at_by_pages_alone(moment: &mut Moment) {
    if moment.command.kind != kind::OUT {
        taking(moment, |_, _| true);
    }
}

/// A batch puts wrong words right before its events run.
fn batch_puts_words_right(moment: &mut Moment) {
    if moment.command.kind == kind::BATCH {
        taking(moment, |_, _| true);
    }
}

/// A call that is answered 1 for the words puts them right.
fn answer_1_puts_words_right(moment: &mut Moment) {
    if moment.reply.number == 1
        && moment.command.kind != kind::LOAD_RECORD
        && has_wrong_words_alone(moment.before)
    {
        moment.after.put_words_right();
    }
}

/// Where the words alone are wrong, security commands and events look at the nexus first.
fn two_before_one_of_wrong_words(moment: &mut Moment) {
    let Command { kind, nexus, .. } = moment.command;
    let looks = matches!(*kind, kind::IN | kind::OUT | kind::NEXUS_RESERVATION_LOSS | kind::PREEMPT);
    if looks && usize::from(*nexus) >= NEXUSES && has_wrong_words_alone(moment.before) {
        moment.reply.number = 2;
    }
}

/// Where the words alone are wrong, security commands look at the protocol first.
fn five_before_one_of_wrong_words(moment: &mut Moment) {
    let Command { kind, protocol, .. } = moment.command;
    let looks = matches!(*kind, kind::IN | kind::OUT) && moment.reply.number == 1;
    if looks && *protocol != 0x20 && has_wrong_words_alone(moment.before) {
        (moment.reply.number, moment.reply.sense) = (5, [5, 0x24, 0]);
    }
}

/// Whether a record was loaded.
fn is_loaded(moment: &Moment) -> bool {
    moment.command.kind == kind::LOAD_RECORD && moment.reply.number == 0
}

/// A loaded record gets the words that its scopes say.
fn load_puts_words_right(moment: &mut Moment) {
    if is_loaded(moment) {
        moment.after.put_words_right();
    }
}

/// A record with wrong words isn't taken.
fn load_refuses_wrong_words(moment: &mut Moment) {
    if is_loaded(moment) && has_wrong_words_alone(moment.after) {
        *moment.after = moment.before.clone();
        refuse(moment, 1, NO_SENSE);
    }
}

/// Words are kept in 16 bits.
fn load_cuts_words_to_16_bits(moment: &mut Moment) {
    if is_loaded(moment) {
        moment.after.selection_words = moment.after.selection_words.map(|word| word & 0xFFFF);
    }
}

/// Whether kind 13 is at hand with such an answer.
fn serves_with(moment: &Moment, number: u8) -> bool {
    moment.command.kind == kind::SERVES && moment.reply.number == number
}

/// The reply tells a word.
fn tell_word(moment: &mut Moment, word: u64) {
    *moment.reply = Reply { number: 0, sense: NO_SENSE, data: word.to_be_bytes().to_vec() };
}

/// A place above 4 serves nobody.
fn serves_answers_a_place_above_4(moment: &mut Moment) {
    if serves_with(moment, 13) {
        tell_word(moment, 0);
    }
}

/// The place is one byte.
fn serves_takes_the_places_low_byte(moment: &mut Moment) {
    let place = usize::from(moment.command.argument as u8);
    if serves_with(moment, 13) && place < PLACES {
        tell_word(moment, moment.before.selection_words[place]);
    }
}

/// Bit 12 of the place isn't looked at.
fn serves_skips_bit_12_of_the_place(moment: &mut Moment) {
    let place = usize::from(moment.command.argument & !0x1000);
    if serves_with(moment, 13) && place < PLACES {
        tell_word(moment, moment.before.selection_words[place]);
    }
}

/// The word is told of any record.
fn serves_without_check_1(moment: &mut Moment) {
    let place = usize::from(moment.command.argument);
    if serves_with(moment, 1) && place < PLACES {
        tell_word(moment, moment.before.selection_words[place]);
    }
}

/// The place is looked at before the record.
fn serves_13_before_1(moment: &mut Moment) {
    if serves_with(moment, 1) && usize::from(moment.command.argument) >= PLACES {
        refuse(moment, 13, NO_SENSE);
    }
}

/// A nexus above 15 is answered 2.
fn serves_asks_the_nexus(moment: &mut Moment) {
    let is_above = usize::from(moment.command.nexus) >= NEXUSES;
    if is_above && (serves_with(moment, 0) || serves_with(moment, 13)) {
        refuse(moment, 2, NO_SENSE);
    }
}

/// The nexus of kind 13 at hand, if it is done.
fn served_nexus(moment: &Moment) -> Option<usize> {
    let nexus = usize::from(moment.command.nexus);
    Some(nexus).filter(|&nexus| nexus < NEXUSES && serves_with(moment, 0))
}

/// What is pending for the nexus is told first.
fn serves_asks_what_is_pending(moment: &mut Moment) {
    let Some(nexus) = served_nexus(moment) else { return };
    if moment.before.nexuses[nexus].changed_by_another_nexus {
        moment.after.nexuses[nexus].changed_by_another_nexus = false;
        refuse(moment, 3, [6, 0x2A, 0x11]);
    }
}

/// What is pending for the nexus is cleared.
fn serves_clears_a_flag(moment: &mut Moment) {
    if let Some(nexus) = served_nexus(moment) {
        moment.after.nexuses[nexus].changed_by_vendor_event = false;
    }
}

/// Where kind 13 is answered 13, what another nexus changed is cleared for a nexus of a word's high byte.
fn refused_serves_clears_a_high_nexuss_flag(moment: &mut Moment) {
    let nexus = usize::from(moment.command.nexus);
    if serves_with(moment, 13) && HIGH_NEXUSES.contains(&nexus) {
        moment.after.nexuses[nexus].changed_by_another_nexus = false;
    }
}

/// The nexus is registered.
fn serves_registers(moment: &mut Moment) {
    if let Some(nexus) = served_nexus(moment) {
        moment.after.nexuses[nexus].registered = true;
    }
}

/// Only the owner of a set is told, of place 0 too.
fn serves_the_owner_alone(moment: &mut Moment) {
    if serves_with(moment, 0) {
        let set = &moment.before.places[usize::from(moment.command.argument)];
        let word = if set.is_used() { bit(usize::from(set.owner)) } else { 0 };
        tell_word(moment, word);
    }
}

/// The word is told with its low byte first.
fn serves_in_other_byte_order(moment: &mut Moment) {
    if serves_with(moment, 0) {
        moment.reply.data.reverse();
    }
}

/// Kind 13 is an event of batches: one alone is answered 0.
fn serves_as_an_event(moment: &mut Moment) {
    let Command { kind, argument, .. } = moment.command;
    let batch = moment.command.batch().filter(|_| *kind == kind::BATCH && moment.reply.number == 22);
    let is_serves = |events: &[u8]| events == [kind::SERVES, 0, 0, 0, 0, 0, 0, 0];
    if *argument >= 4 && batch.is_some_and(|batch| is_serves(batch.events)) {
        moment.reply.number = 0;
        moment.reply.data[..4].fill(0);
    }
}

/// The record's bytes are given and taken in another order.
fn in_order(moment: &mut Moment, give: impl Fn(&[u8]) -> Vec<u8>, take: impl Fn(&[u8]) -> Vec<u8>) {
    match moment.command.kind {
        kind::GIVE_RECORD => moment.reply.data = give(&moment.reply.data),
        kind::LOAD_RECORD if moment.command.data.len() == RECORD_BYTES => {
            match record_bytes::load(&take(&moment.command.data)) {
                Some(record) => {
                    *moment.after = record;
                    *moment.reply = Reply { number: 0, sense: NO_SENSE, data: Vec::new() };
                }
                None => {
                    *moment.after = moment.before.clone();
                    refuse(moment, 1, NO_SENSE);
                }
            }
        }
        _ => {}
    }
}

/// The words have their low byte first.
fn words_in_other_byte_order(moment: &mut Moment) {
    let turned = |bytes: &[u8]| {
        let mut turned = bytes.to_vec();
        turned[WORDS_START..].chunks_mut(WORD_BYTES).for_each(|word| word.reverse());
        turned
    };
    in_order(moment, turned, turned);
}

/// The words come before the sets.
fn words_before_the_sets(moment: &mut Moment) {
    let words = RECORD_BYTES - WORDS_START;
    in_order(
        moment,
        |bytes| [&bytes[..COUNTER_BYTES], &bytes[WORDS_START..], &bytes[COUNTER_BYTES..WORDS_START]].concat(),
        |bytes| {
            let (counter, rest) = bytes.split_at(COUNTER_BYTES);
            [counter, &rest[words..], &rest[..words]].concat()
        },
    );
}

/// Each word comes just after its set.
fn words_beside_their_sets(moment: &mut Moment) {
    let nexuses = NEXUSES * NEXUS_BYTES;
    in_order(
        moment,
        |bytes| {
            let (counter, rest) = bytes.split_at(COUNTER_BYTES);
            let (sets, rest) = rest.split_at(PLACES * PLACE_BYTES);
            let (nexuses, words) = rest.split_at(nexuses);
            let beside = sets.chunks(PLACE_BYTES).zip(words.chunks(WORD_BYTES));
            let beside: Vec<u8> = beside.flat_map(|(set, word)| [set, word].concat()).collect();
            [counter, &beside, nexuses].concat()
        },
        |bytes| {
            let (counter, rest) = bytes.split_at(COUNTER_BYTES);
            let (beside, nexuses) = rest.split_at(PLACES * (PLACE_BYTES + WORD_BYTES));
            let parts = || beside.chunks(PLACE_BYTES + WORD_BYTES).map(|part| part.split_at(PLACE_BYTES));
            let sets: Vec<u8> = parts().flat_map(|(set, _)| set.to_vec()).collect();
            let words: Vec<u8> = parts().flat_map(|(_, word)| word.to_vec()).collect();
            [counter, &sets, nexuses, &words].concat()
        },
    );
}
