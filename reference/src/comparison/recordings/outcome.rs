//! What another program gives for a recording, and what it is to give.

/// What a program writes: standard output and standard error. It has no exit status of use.
#[derive(Clone, PartialEq, Eq, Debug)]
pub struct Given {
    pub output: Vec<u8>,
    pub errors: Vec<u8>,
}

/// What came of a program.
#[derive(Clone, PartialEq, Eq, Debug)]
pub enum Outcome {
    Given(Given),
    /// It couldn't be started, or its output couldn't be read to the end in time.
    Nothing(String),
}

/// What a program is to give.
#[derive(Clone, PartialEq, Eq, Debug)]
pub enum Wanted {
    /// These bytes and nothing on standard error.
    Bytes(Vec<u8>),
    /// No bytes, and a line on standard error that begins with the refusal's number.
    Refusal(u8),
    /// No bytes, and a line on standard error that begins with this word: an argument makes no sense.
    Usage,
}

/// The word.
const USAGE: &[u8] = b"usage";

impl Wanted {
    /// Whether that is what came.
    pub fn is(&self, outcome: &Outcome) -> bool {
        let Outcome::Given(Given { output, errors }) = outcome else { return false };
        match self {
            Wanted::Bytes(bytes) => output == bytes && errors.is_empty(),
            Wanted::Refusal(number) => output.is_empty() && leading_number(errors) == Some(*number),
            Wanted::Usage => output.is_empty() && errors.starts_with(USAGE),
        }
    }
}

/// The number with which a text begins.
fn leading_number(text: &[u8]) -> Option<u8> {
    let digits = text.iter().take_while(|byte| byte.is_ascii_digit()).count();
    std::str::from_utf8(&text[..digits]).ok()?.parse().ok()
}
