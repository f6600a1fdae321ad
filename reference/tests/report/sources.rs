//! The report takes its numbers from the claim's lines and its reasons from the drive's replies: what the second account
//! decides is not used.

use std::fs;
use std::path::{Path, PathBuf};

/// What decides: the library's own drive and controller, its replay, its claim, and the comparisons with them.
const DECIDING: [&str; 8] = [
    "second_account",
    "Drive",
    "ontroller",
    "recording::run",
    "recording::replay",
    "Moment",
    "comparison",
    "record::",
];

/// The sources in a folder and below it.
fn sources(folder: &Path) -> Vec<PathBuf> {
    let entries = fs::read_dir(folder).expect("the folder can be read");
    let paths = entries.map(|entry| entry.expect("an entry").path());
    paths.flat_map(|path| if path.is_dir() { sources(&path) } else { vec![path] }).collect()
}

#[test]
fn nothing_that_decides_is_used() {
    let root = Path::new(env!("CARGO_MANIFEST_DIR")).join("src");
    let mut files = sources(&root.join("report"));
    files.push(root.join("bin/claim_report.rs"));
    assert!(files.len() > 8, "{files:?}");
    for file in files {
        let text = fs::read_to_string(&file).expect("the source can be read");
        for word in DECIDING {
            assert!(!text.contains(word), "{} has {word}", file.display());
        }
    }
}
