//! What a program with a fault writes.

use reference::comparison::recordings::Given;

/// Lines on standard output.
pub fn printed(text: String) -> Given {
    Given { output: text.into_bytes(), errors: Vec::new() }
}

/// A line on standard error alone.
pub fn refused(line: &str) -> Given {
    Given { output: Vec::new(), errors: format!("{line}\n").into_bytes() }
}

/// The refusal of a file.
pub fn refused_22() -> Given {
    refused("22 the recording is refused")
}
