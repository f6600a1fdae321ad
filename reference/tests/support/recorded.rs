//! Recordings from texts.

use reference::recording::Recording;
use reference::script::make;

/// The recording of a text that is right.
pub fn recorded(text: &str) -> Recording {
    make(text).unwrap_or_else(|fault| panic!("line {}: {}\n{text}", fault.line, fault.what))
}
