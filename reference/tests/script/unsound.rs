//! Files that are not sound: what `22` says, and that it is said exactly where the file can't be read.

use crate::random_recordings::{random_recording, Layout};
use crate::recorded;
use reference::comparison::numbers::Numbers;
use reference::recording::Recording;
use reference::script::unsound;

/// The file of a text with some bytes changed.
fn file_but(text: &str, changes: &[(usize, u8)]) -> Vec<u8> {
    let mut file = recorded(text).bytes();
    changes.iter().for_each(|&(at, value)| file[at] = value);
    file
}

/// What is said of the file.
fn said(file: &[u8]) -> String {
    assert!(Recording::read(file).is_none());
    unsound(file).expect("the file is not sound")
}

#[test]
fn the_example_of_request_3_is_sound() {
    let file = [0x00, 0x01, 0x00, 0x08, 0x00, 0x10, 0x00, 0x10, 0x05, 0, 0, 0, 0, 0, 0, 0];
    assert_eq!(unsound(&file), None);
    assert_eq!(file[..], recorded("demount").bytes());
}

#[test]
fn header_numbers_are_named() {
    let text = "demount\nout nexus 3 page 0010h bytes 01 02";
    let faults = [
        (0, 1, "header number 3, offset of the page bytes: 24, but 258 events of 8 bytes end at byte 2072"),
        (1, 3, "header number 3, offset of the page bytes: 24, but 3 events of 8 bytes end at byte 32"),
        (3, 9, "header number 2, offset of the first event: 9, but the first event is at byte 8"),
        (2, 1, "header number 2, offset of the first event: 264, but the first event is at byte 8"),
        (5, 16, "header number 3, offset of the page bytes: 16, but 2 events of 8 bytes end at byte 24"),
        (7, 27, "header number 4, total length: 27, but the file has 26 bytes"),
    ];
    for (at, value, words) in faults {
        assert_eq!(said(&file_but(text, &[(at, value)])), words);
    }
    let too_many = file_but("demount", &[(1, 3), (5, 32)]);
    let words =
        "header number 1, event count: 3, but so many events end at byte 32, and the file has 16 bytes";
    assert_eq!(said(&too_many), words);
    let one_too_many = said(&file_but("demount", &[(1, 2), (5, 24)]));
    assert!(one_too_many.starts_with("header number 1, event count: 2, but so many events end at byte 24"));
    assert_eq!(said(&[0, 0, 0, 8, 0]), "the file has 5 bytes, fewer than the 8 of its header");
    assert_eq!(said(&[]), "the file has 0 bytes, fewer than the 8 of its header");
    let long = [recorded("page bytes 00*65527").bytes(), vec![0]].concat();
    assert_eq!(said(&long), "header number 4, total length: 65535, but the file has 65536 bytes");
}

#[test]
fn events_and_their_fields_are_named() {
    let unused = "but this call doesn't use it, so it is to be 0";
    let faults = [
        ("demount", 0, 12, "kind: 12, but the kinds are 0 to 11".to_string()),
        ("demount", 0, 255, "kind: 255, but the kinds are 0 to 11".to_string()),
        ("demount", 1, 4, format!("(demount), nexus: 4, {unused}")),
        ("vendor release place 2", 1, 4, format!("(vendor release), nexus: 4, {unused}")),
        ("demount", 3, 7, format!("(demount), argument: 7, {unused}")),
        ("preempt nexus 3", 2, 1, format!("(preempt), argument: 256, {unused}")),
        ("write nexus 3 supported", 3, 2, "(write), argument: 2, but the support flag is 0 or 1".to_string()),
        ("power-on", 5, 1, format!("(power-on), page offset: 1, {unused}")),
        ("in nexus 3 page 0020h", 7, 24, format!("(in), page length: 24, {unused}")),
        (
            "out nexus 3 page 0010h bytes 01 02",
            5,
            1,
            "(out), page offset and length: 1 and 2, but that is byte 3, past the 2 page bytes".to_string(),
        ),
    ];
    for (line, at, value, words) in faults {
        let text = format!("demount\nmicrocode\n{line}");
        let said = said(&file_but(&text, &[(8 + 16 + at, value)]));
        let start = if at == 0 { "event 2, " } else { "event 2 " };
        assert_eq!(said, format!("{start}{words}"), "{line}");
    }
}

#[test]
fn a_file_is_called_unsound_exactly_where_it_cannot_be_read() {
    let mut counts = [0, 0];
    for seed in 0..20_000 {
        let mut numbers = Numbers::new(seed);
        let layout = numbers.pick(&Layout::EVERY);
        let mut file = random_recording(&mut numbers, layout, 6).bytes();
        match numbers.below(4) {
            0 => file.truncate(numbers.below(file.len() + 1)),
            1 => file.push(numbers.byte()),
            _ => {
                let at = numbers.below(file.len().min(40));
                file[at] =
                    if numbers.percent(50) { file[at] ^ 1 << numbers.below(8) } else { numbers.byte() };
            }
        }
        let sound = Recording::read(&file).is_some();
        assert_eq!(unsound(&file).is_none(), sound, "seed {seed}: {:?} {file:02X?}", unsound(&file));
        counts[usize::from(sound)] += 1;
    }
    assert!(counts[0] > 5_000 && counts[1] > 2_000, "{counts:?}");
}
