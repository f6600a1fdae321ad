//! "`--show` and `SCRIPT FILE` are the inverse of each other".

use crate::random_recordings::{random_recording, Layout};
use crate::random_texts::random_text;
use crate::{recorded, shown};
use reference::comparison::numbers::Numbers;
use reference::recording::Recording;
use reference::script::{make, show};

/// Both directions for one recording, which has to be sound.
fn assert_inverse(recording: &Recording, words: &str) {
    let file = recording.bytes();
    assert!(Recording::read(&file).is_some(), "{words} is sound");
    let text = show(recording);
    assert_eq!(recorded(&text).bytes(), file, "{words}:\n{text}");
    assert_eq!(shown(&text), text, "{words}");
}

#[test]
fn the_recording_made_from_a_shown_text_is_the_file() {
    for layout in Layout::EVERY {
        for seed in 0..1_200 {
            let recording = random_recording(&mut Numbers::new(seed), layout, 30);
            assert_inverse(&recording, &format!("{layout:?}, seed {seed}"));
        }
    }
}

#[test]
fn so_it_is_for_long_recordings() {
    for layout in Layout::EVERY {
        let recording = random_recording(&mut Numbers::new(7), layout, 700);
        assert_inverse(&recording, &format!("{layout:?}, long"));
    }
}

#[test]
fn so_it_is_for_a_recording_without_events() {
    assert_eq!(recorded("").bytes(), [0, 0, 0, 8, 0, 8, 0, 8]);
    assert_eq!(shown(""), "");
    let recording = Recording { events: Vec::new(), page_bytes: vec![1, 2, 2, 2] };
    assert_eq!(show(&recording), "page bytes 01 02*3\n");
    assert_inverse(&recording, "page bytes alone");
}

#[test]
fn a_shown_text_is_shown_again_and_another_way_comes_out_in_the_shown_way() {
    for seed in 0..5_000 {
        let text = random_text(&mut Numbers::new(seed), 12);
        assert_eq!(shown(&text.shown), text.shown, "seed {seed}");
        assert_eq!(shown(&text.written), text.shown, "seed {seed}:\n{}", text.written);
        assert_eq!(recorded(&text.written).bytes(), recorded(&text.shown).bytes(), "seed {seed}");
    }
}

/// A text in which a word, a letter or a line is changed.
fn spoiled(text: &str, numbers: &mut Numbers) -> String {
    let words = [
        "nexus", "page", "key", "local", "at", "length", "bytes", "empty", "*", "0", "FFh", "#", "\n", "é",
        "99999",
    ];
    let mut letters: Vec<char> = text.chars().collect();
    for _ in 0..1 + numbers.below(3) {
        let at = numbers.below(letters.len() + 1);
        let end = (at + numbers.pick(&[0, 1, 1, 7])).min(letters.len());
        let new = [numbers.pick(&["", " "]), numbers.pick(&words), numbers.pick(&["", " "])].concat();
        letters.splice(at..end, new.chars());
    }
    letters.into_iter().collect()
}

#[test]
fn a_spoiled_text_is_refused_at_one_of_its_lines_or_makes_a_sound_recording() {
    let mut counts = [0, 0];
    for seed in 0..8_000 {
        let mut numbers = Numbers::new(seed);
        let text = random_text(&mut numbers, 6).written;
        let text = spoiled(&text, &mut numbers);
        match make(&text) {
            Ok(recording) => assert_inverse(&recording, &format!("seed {seed}")),
            Err(fault) => assert!((1..=text.lines().count()).contains(&fault.line), "seed {seed}"),
        }
        counts[usize::from(make(&text).is_ok())] += 1;
    }
    assert!(counts.iter().all(|&count| count > 300), "{counts:?}");
}

#[test]
fn random_recordings_have_every_kind_and_both_ways_to_say_a_page() {
    let mut kinds = [0; 12];
    let mut texts = String::new();
    for seed in 0..300 {
        let recording = random_recording(&mut Numbers::new(seed), Layout::EVERY[seed as usize % 5], 30);
        recording.events.iter().for_each(|event| kinds[usize::from(event.kind)] += 1);
        texts += &show(&recording);
    }
    assert!(kinds.iter().all(|&count| count > 50), "{kinds:?}");
    for words in [
        " bytes ",
        " local ",
        " scope 5 ",
        " at ",
        " length 0\n",
        "page bytes",
        " u-kad ",
        " a-kad ",
        "bytes empty",
    ] {
        assert!(texts.contains(words), "{words}");
    }
}
