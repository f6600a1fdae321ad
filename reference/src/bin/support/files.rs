//! The files of the programs for recordings.

use crate::standard::{read_input, Ended};
use reference::recording::{Recording, Verdict};
use reference::script::unsound;
use std::ffi::OsStr;
use std::fs;
use std::path::{Display, Path};

/// A file's name for a message.
pub fn shown(name: &OsStr) -> Display<'_> {
    Path::new(name).display()
}

/// A file's bytes; `-` is standard input.
pub fn read(name: &OsStr) -> Result<Vec<u8>, Ended> {
    if name == "-" {
        return read_input("-");
    }
    fs::read(name).map_err(|fault| Ended::unusable(format!("{} can't be read: {fault}", shown(name))))
}

/// A sound recording, or a line that begins with 22.
pub fn read_recording(name: &OsStr) -> Result<Recording, Ended> {
    let file = read(name)?;
    Recording::read(&file).ok_or_else(|| {
        let what = unsound(&file).unwrap_or_else(|| "replay refuses it".to_string());
        Ended::refused(format!("{} {}: {what}", Verdict::WrongRecording.number(), shown(name)))
    })
}
