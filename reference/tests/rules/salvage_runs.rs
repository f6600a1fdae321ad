//! 02, request 12: what holds of every file that is salvaged, over damaged files of many kinds.

use reference::comparison::salvages::{directed, random};
use reference::recording::{
    answer_bytes, broken_rules, replay, run, whole_events, Event, Recording, Verdict,
};
use reference::salvage::{salvage, Salvaged};
use std::sync::OnceLock;

/// Damaged files, made once: the directed ones but for the longest, and random ones.
fn files() -> impl Iterator<Item = &'static [u8]> {
    static FILES: OnceLock<Vec<Vec<u8>>> = OnceLock::new();
    let made = FILES.get_or_init(|| {
        let files = directed().into_iter().chain(random(12, 1500)).map(|case| case.file);
        files.filter(|file| file.len() < 5_000).collect()
    });
    made.iter().map(Vec::as_slice)
}

/// Those that are salvaged, with what they come to and the stored page offset.
fn each_salvaged(mut check: impl FnMut(&[u8], &Salvaged, usize)) {
    let mut count = 0;
    for file in files() {
        if let Some(salvaged) = salvage(file) {
            count += 1;
            check(file, &salvaged, usize::from(u16::from_be_bytes([file[4], file[5]])));
        }
    }
    assert!(count > 2_000, "{count} files were salvaged");
}

/// The whole events before the stored page offset.
fn events_before(file: &[u8], offset: usize) -> Vec<Event> {
    whole_events(&file[8..offset]).0
}

#[test]
fn replay_takes_the_new_file() {
    each_salvaged(|_, salvaged, _| assert_eq!(replay(&salvaged.file()).verdict, Verdict::Taken));
}

#[test]
fn replay_takes_no_longer_run() {
    each_salvaged(|file, salvaged, offset| {
        let all = events_before(file, offset);
        let is_taken = |count: &usize| {
            let run = Recording { events: all[..*count].to_vec(), page_bytes: file[offset..].to_vec() };
            broken_rules(&run.bytes()).is_empty()
        };
        let longest = (0..=all.len()).rev().find(is_taken).expect("no events are taken at any time");
        assert_eq!(salvaged.recording.events, all[..longest]);
        assert_eq!(salvaged.report.dropped, all.len() - longest);
    });
}

#[test]
fn page_bytes_are_those_from_the_stored_offset_on() {
    each_salvaged(|file, salvaged, offset| {
        let new = salvaged.file();
        let new_offset = usize::from(u16::from_be_bytes([new[4], new[5]]));
        assert_eq!(new[new_offset..], file[offset..]);
        assert_eq!(new[8..new_offset], file[8..new_offset]);
        // what was dropped is all that is missing
        assert_eq!(new.len() + 8 * salvaged.report.dropped, file.len());
    });
}

#[test]
fn old_and_new_values_are_those_of_the_headers() {
    each_salvaged(|file, salvaged, _| {
        let report = salvaged.report;
        assert_eq!((&report.old.bytes()[..], &report.new.bytes()[..]), (&file[..8], &salvaged.file()[..8]));
    });
}

#[test]
fn a_sound_file_is_unchanged_and_no_other_is() {
    let mut sound = 0;
    each_salvaged(|file, salvaged, _| {
        let is_sound = replay(file).verdict == Verdict::Taken;
        sound += usize::from(is_sound);
        assert_eq!(salvaged.file() == file, is_sound);
        let nothing_changed = salvaged.report.old == salvaged.report.new && salvaged.report.dropped == 0;
        assert_eq!(nothing_changed, is_sound);
    });
    assert!(sound > 200, "{sound} files were sound");
    // and every sound file is salvaged
    files().filter(|file| broken_rules(file).is_empty()).for_each(|file| assert!(salvage(file).is_some()));
}

#[test]
fn salvaging_twice_is_salvaging_once() {
    each_salvaged(|_, salvaged, _| {
        let again = salvage(&salvaged.file()).expect("a new file is salvaged");
        assert_eq!(again.file(), salvaged.file());
        assert_eq!((again.report.old, again.report.new), (salvaged.report.new, salvaged.report.new));
        assert_eq!(again.report.dropped, 0);
    });
}

#[test]
fn replay_of_the_new_file_gives_the_answers_of_the_kept_events() {
    each_salvaged(|file, salvaged, offset| {
        let kept = &events_before(file, offset)[..salvaged.recording.events.len()];
        let pages = Recording { events: kept.to_vec(), page_bytes: file[offset..].to_vec() };
        let mut answers = Vec::new();
        let record = run(&pages, |moment| answers.extend(answer_bytes(moment.reply)));
        let replayed = replay(&salvaged.file());
        assert_eq!((replayed.answers, replayed.record), (answers, record));
    });
}

#[test]
fn all_that_is_taken_of_a_cut_sound_file_was_in_it() {
    // a shorter tail never keeps more, and what is kept are the first events
    let sound = files().filter_map(Recording::read).filter(|it| it.events.len() < 60).take(40);
    for recording in sound {
        let file = recording.bytes();
        let mut kept_before = 0;
        for length in 8..=file.len() {
            if let Some(salvaged) = salvage(&file[..length]) {
                let kept = salvaged.recording.events;
                assert!(kept.len() >= kept_before);
                assert_eq!(kept, recording.events[..kept.len()]);
                kept_before = kept.len();
            }
        }
        assert_eq!(kept_before, recording.events.len());
    }
}
