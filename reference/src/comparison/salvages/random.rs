//! Random recordings, most of them damaged: in the ways of the replay's comparison, in those of a power loss, or both.

use crate::comparison::numbers::Numbers;
use crate::comparison::recordings::builder::{change_header, wrong_event};
use crate::comparison::recordings::case::{Case, Group};
use crate::comparison::recordings::random::{
    change_number, in_event, small_or_any, Damage, RandomRecordings,
};
use crate::recording::{FileRule, Header, HEADER_BYTES, LONGEST};

/// Makes random recordings from a seed.
pub struct RandomSalvages {
    numbers: Numbers,
    recordings: RandomRecordings,
    made: usize,
}

const DAMAGES: [Damage; 17] = [
    (Group::RandomOverwritten, "with zeros", |file, _| header_of(file).fill(0)),
    (Group::RandomOverwritten, "with FFh", |file, _| header_of(file).fill(0xFF)),
    (Group::RandomOverwritten, "with anything", |file, numbers| fill(header_of(file), numbers)),
    (Group::RandomOverwritten, "but for the page offset", |file, numbers| {
        fill(&mut file[..4], numbers);
        fill(&mut file[6..HEADER_BYTES], numbers);
    }),
    (Group::RandomOffByOne, "one number", |file, numbers| {
        let number = numbers.below(4);
        off_by_one(file, numbers, number);
    }),
    (Group::RandomOffByOne, "all but the page offset", |file, numbers| {
        [0, 1, 3].into_iter().for_each(|number| off_by_one(file, numbers, number));
    }),
    (Group::RandomPageOffset, "by eights", |file, numbers| {
        let eights = 8 * numbers.pick(&[1, 1, 1, 2, 3, 7, 32]);
        move_offset(file, if numbers.percent(50) { eights } else { -eights });
    }),
    (Group::RandomPageOffset, "by any number", |file, numbers| {
        let off = numbers.below(40) as i16 - 20;
        move_offset(file, off);
    }),
    (Group::RandomPageOffset, "to around the end", |file, numbers| {
        let end = (file.len() as u16).wrapping_add_signed(numbers.below(33) as i16 - 16);
        let end = if numbers.percent(60) { end & !7 } else { end };
        change_header(file, |header| header.page_bytes = end);
    }),
    (Group::RandomTail, "anywhere", |file, numbers| file.truncate(numbers.below(file.len() + 1))),
    (Group::RandomTail, "in the page bytes", |file, numbers| {
        let start = page_offset(file);
        file.truncate(start + numbers.below(file.len() - start + 1));
    }),
    (Group::RandomTail, "overwritten", |file, numbers| {
        let start = HEADER_BYTES + numbers.below(file.len() - HEADER_BYTES + 1);
        file[start..].fill(numbers.pick(&[0, 0xFF, 0xA5]));
    }),
    (Group::RandomBytes, "a few", |file, numbers| {
        for _ in 0..1 + numbers.below(6) {
            let at = numbers.below(file.len());
            file[at] = numbers.byte();
        }
    }),
    (Group::RandomWrongEvents, "one", |file, numbers| make_wrong(file, numbers)),
    (Group::RandomWrongEvents, "several", |file, numbers| {
        (0..2 + numbers.below(4)).for_each(|_| make_wrong(file, numbers));
    }),
    (Group::RandomGrown, "a little", |file, numbers| {
        let more = 1 + numbers.below(20);
        file.extend(numbers.bytes(more));
    }),
    (Group::RandomGrown, "to the limit and past it", |file, numbers| {
        let length = LONGEST - 2 + numbers.below(5);
        file.resize(length.max(file.len()), numbers.pick(&[0, 0xFF]));
    }),
];

impl RandomSalvages {
    /// Those of a seed.
    pub fn new(seed: u64) -> Self {
        let recordings = RandomRecordings::new(seed);
        RandomSalvages { numbers: Numbers::new(seed ^ u64::from(u32::MAX)), recordings, made: 0 }
    }

    /// The next recording: of those that the replay's comparison leaves sound, one is left so after each way to damage
    /// them in turn; some of the others are damaged twice.
    pub fn recording(&mut self) -> Case {
        let mut case = self.recordings.recording();
        if case.group != Group::RandomSound {
            if case.file.len() >= HEADER_BYTES && self.numbers.percent(20) {
                let (_, _, damage) = DAMAGES[self.numbers.below(DAMAGES.len())];
                damage(&mut case.file, &mut self.numbers);
            }
            return case;
        }
        let turn = self.made % (DAMAGES.len() + 1);
        self.made += 1;
        if let Some(&(group, name, damage)) = DAMAGES.get(turn) {
            damage(&mut case.file, &mut self.numbers);
            (case.group, case.name) = (group, name.to_string());
        }
        case
    }
}

/// The header's bytes.
fn header_of(file: &mut [u8]) -> &mut [u8] {
    &mut file[..HEADER_BYTES]
}

/// Any bytes.
fn fill(bytes: &mut [u8], numbers: &mut Numbers) {
    bytes.iter_mut().for_each(|byte| *byte = numbers.byte());
}

/// The stored page offset, or the file's end where it lies past it.
fn page_offset(file: &[u8]) -> usize {
    Header::read(file).map_or(0, |header| usize::from(header.page_bytes)).min(file.len())
}

/// One of the header's four numbers is one more or one less.
fn off_by_one(file: &mut [u8], numbers: &mut Numbers, number: usize) {
    change_number(file, number, |right| right.wrapping_add_signed(numbers.pick(&[1, -1])));
}

/// Moves the stored page offset.
fn move_offset(file: &mut [u8], off: i16) {
    change_header(file, |header| header.page_bytes = header.page_bytes.wrapping_add_signed(off));
}

/// Makes one of the events wrong, by any of their rules.
fn make_wrong(file: &mut [u8], numbers: &mut Numbers) {
    let mut wrong = wrong_event(numbers.pick(&FileRule::OF_EVENTS));
    if wrong.kind > 11 {
        wrong.kind += numbers.below(244) as u8;
    } else if wrong.argument > 1 {
        wrong.argument = small_or_any(numbers).max(2);
    }
    in_event(file, numbers, |event| *event = wrong);
}
