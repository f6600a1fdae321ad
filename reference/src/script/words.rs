//! A line of a script, word by word.

use crate::digits;

/// The words of a line, in small letters, read from the first to the last.
pub struct Words {
    words: Vec<String>,
    next: usize,
}

impl Words {
    /// The words before a `#`, at which a comment starts.
    pub fn of(line: &str) -> Words {
        let said = line.split('#').next().unwrap_or_default();
        Words { words: said.split_whitespace().map(str::to_ascii_lowercase).collect(), next: 0 }
    }

    /// The next word, if any.
    pub fn peek(&self) -> Option<&str> {
        self.words.get(self.next).map(String::as_str)
    }

    /// Goes past the next word.
    pub fn skip(&mut self) {
        self.next += 1;
    }

    /// Goes past a phrase of one or more words, if it stands next.
    pub fn take(&mut self, phrase: &str) -> bool {
        let count = phrase.split(' ').count();
        let taken = self.words[self.next..].iter().take(count).eq(phrase.split(' '));
        if taken {
            self.next += count;
        }
        taken
    }

    /// A word that has to stand next.
    pub fn expect(&mut self, word: &str) -> Result<(), String> {
        if self.take(word) {
            return Ok(());
        }
        Err(self.wrong(&format!("`{word}`")))
    }

    /// A number from 0 to a limit, with the name of what it is.
    pub fn number(&mut self, what: &str, limit: u16) -> Result<u16, String> {
        let word = self.peek().ok_or_else(|| self.wrong(what))?;
        let value = number(word).ok_or_else(|| self.wrong(&format!("a number ({what})")))?;
        if value > u64::from(limit) {
            return Err(format!("{what} {word} is above {limit}"));
        }
        self.skip();
        Ok(value as u16)
    }

    /// A number of one byte.
    pub fn byte(&mut self, what: &str, limit: u8) -> Result<u8, String> {
        self.number(what, u16::from(limit)).map(|value| value as u8)
    }

    /// A page code: 01 writes them in hex, and `0010` without h is more often meant than ten.
    pub fn page_code(&mut self) -> Result<u16, String> {
        match self.peek() {
            Some(word) if number(word).is_some() && !is_hex(word) => {
                Err(format!("page code `{word}` is not in hex: `0010h` or `0x0010`"))
            }
            _ => self.number("page code", u16::MAX),
        }
    }

    /// What is wrong where something else is to stand.
    pub fn wrong(&self, what: &str) -> String {
        match self.peek() {
            Some(word) => format!("`{word}` stands where {what} is to stand"),
            None => format!("the line ends where {what} is to stand"),
        }
    }

    /// The line's end.
    pub fn end(&self) -> Result<(), String> {
        match self.peek() {
            Some(word) => Err(format!("`{word}` stands after the end of the call")),
            None => Ok(()),
        }
    }
}

/// The value of a number: decimal, hex as `20h` or `0x20`, binary as `10b`. One above 64 bits counts as the largest.
pub fn number(word: &str) -> Option<u64> {
    let (digits, radix) = match (word.strip_prefix("0x"), word.strip_suffix('h'), word.strip_suffix('b')) {
        (Some(digits), ..) | (_, Some(digits), _) => (digits, 16),
        (.., Some(digits)) => (digits, 2),
        _ => (word, 10),
    };
    digits::number(digits, radix)
}

/// Whether a number is in hex.
fn is_hex(word: &str) -> bool {
    word.starts_with("0x") || word.ends_with('h')
}
