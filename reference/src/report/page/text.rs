//! Text that comes from outside, as it stands in a page.

/// Text in an element or a quoted attribute. Control characters, which a page can't show, become a mark each.
pub fn escaped(text: &str) -> String {
    let mut escaped = String::new();
    for character in text.chars() {
        match character {
            '&' => escaped += "&amp;",
            '<' => escaped += "&lt;",
            '>' => escaped += "&gt;",
            '"' => escaped += "&quot;",
            '\'' => escaped += "&#39;",
            character if character.is_control() && character != '\n' => {
                escaped.push(char::REPLACEMENT_CHARACTER)
            }
            character => escaped.push(character),
        }
    }
    escaped
}

/// A file's name as a shell takes it as one argument that is no option.
pub fn argument(name: &str) -> String {
    let is_plain = |character: char| character.is_ascii_alphanumeric() || "._-+,:@%/".contains(character);
    let options_end = if name.starts_with('-') { "-- " } else { "" };
    if !name.is_empty() && name.chars().all(is_plain) {
        format!("{options_end}{name}")
    } else {
        format!("{options_end}'{}'", name.replace('\'', "'\\''"))
    }
}
