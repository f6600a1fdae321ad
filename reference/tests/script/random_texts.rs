//! Random texts, each in the shown way and in another way that says the same.

use crate::random_recordings::random_bytes;
use reference::comparison::numbers::Numbers;
use std::iter::zip;

/// The same words twice: as they are shown, and as a hand may write them.
#[derive(Clone, Default)]
pub struct Pair {
    pub shown: String,
    pub written: String,
}

impl Pair {
    fn of(shown: impl Into<String>, written: impl Into<String>) -> Pair {
        Pair { shown: shown.into(), written: written.into() }
    }

    fn same(words: &str) -> Pair {
        Pair::of(words, words)
    }

    /// One after the other.
    fn then(self, next: Pair) -> Pair {
        Pair::of(format!("{} {}", self.shown, next.shown), format!("{} {}", self.written, next.written))
    }
}

/// A text of up to so many lines.
pub fn random_text(numbers: &mut Numbers, lines: usize) -> Pair {
    let mut text = Pair::default();
    let mut page_bytes = 0;
    for _ in 0..numbers.below(lines + 1) {
        add_line(&mut text, &random_line(numbers, &mut page_bytes), numbers);
    }
    let mut rest = random_bytes(numbers);
    rest.truncate(24);
    if !rest.is_empty() {
        add_line(&mut text, &Pair::same("page bytes").then(list(&rest, numbers)), numbers);
    }
    text
}

/// Adds a line, written with other spacing, comments, blank lines and capital letters.
fn add_line(text: &mut Pair, line: &Pair, numbers: &mut Numbers) {
    text.shown += &format!("{}\n", line.shown);
    text.written += numbers.pick(&["", "", "\n", "   \t\n", "# power-on\n", "  #\r\n"]);
    text.written += numbers.pick(&["", "", "  ", "\t"]);
    for word in line.written.split(' ') {
        let word = if numbers.percent(30) { word.to_uppercase() } else { word.to_string() };
        text.written += &word.replace("0X", "0x");
        text.written += numbers.pick(&[" ", " ", "  ", "\t"]);
    }
    text.written += numbers.pick(&["\n", "\n", "\r\n", "# demount\n", "#\n"]);
}

/// Any line; counts the page bytes said so far.
fn random_line(numbers: &mut Numbers, page_bytes: &mut usize) -> Pair {
    match numbers.below(14) {
        0 => Pair::of("power-on", numbers.pick(&["power-on", "power on"])),
        1 => nexus("in", numbers).then(page_code(numbers)),
        2 => nexus("write", numbers).then(Pair::same(numbers.pick(&["supported", "not supported"]))),
        3 => nexus("nexus reservation loss", numbers),
        4 => nexus("preempt", numbers),
        5 => {
            let place = numbers.pick(&[0, 4, 5, 65_535]);
            Pair::same("vendor release place").then(number(place, numbers))
        }
        6 | 7 => nexus("read", numbers).then(block(numbers)).then(Pair::same("key")).then(key(numbers)),
        8 => Pair::same(numbers.pick(&[
            "logical unit reset",
            "demount",
            "device reservation loss",
            "microcode",
        ])),
        9 if *page_bytes > 0 => {
            let offset = numbers.below(*page_bytes);
            let length = numbers.below(*page_bytes - offset + 1);
            let place = Pair::same("at").then(number(offset, numbers));
            let place = place.then(Pair::same("length")).then(number(length, numbers));
            nexus("out", numbers).then(page_code(numbers)).then(place)
        }
        9 | 10 => {
            let mut bytes = random_bytes(numbers);
            bytes.insert(0, 0x77);
            bytes.truncate(numbers.pick(&[0, 1, 19, 100]));
            *page_bytes += bytes.len();
            let page = Pair::same("bytes").then(list(&bytes, numbers));
            nexus("out", numbers).then(page_code(numbers)).then(page)
        }
        _ => nexus("out", numbers).then(page_code(numbers)).then(set_page(numbers, page_bytes)),
    }
}

/// A call and its nexus.
fn nexus(call: &str, numbers: &mut Numbers) -> Pair {
    let nexus = numbers.pick(&[0, 3, 15, 16, 255]);
    Pair::same(&format!("{call} nexus")).then(number(nexus, numbers))
}

fn page_code(numbers: &mut Numbers) -> Pair {
    let code = numbers.pick(&[0x0000, 0x0010, 0x0020, 0xABCD]);
    let written =
        [format!("{code:04X}h"), format!("{code:x}h"), format!("0x{code:X}"), format!("0x{code:05x}")];
    Pair::same("page").then(Pair::of(&*written[0], &*written[numbers.below(4)]))
}

/// A number that is shown in decimal.
fn number(number: usize, numbers: &mut Numbers) -> Pair {
    let written = [
        number.to_string(),
        format!("0{number}"),
        format!("{number:X}h"),
        format!("0x{number:02x}"),
        format!("{number:b}b"),
    ];
    Pair::of(number.to_string(), &*written[numbers.below(5)])
}

fn block(numbers: &mut Numbers) -> Pair {
    let named =
        [("plain", "kind 0"), ("encrypted", "kind 1"), ("otherwise", "kind 02h"), ("kind 3", "kind 3h")];
    name(numbers.pick(&named), numbers)
}

fn key(numbers: &mut Numbers) -> Pair {
    name(
        numbers.pick(&[("main", "0"), ("none", "255"), ("none", "0FFh"), ("1", "01h"), ("254", "254")]),
        numbers,
    )
}

/// The shown word, or another for the same.
fn name((shown, other): (&str, &str), numbers: &mut Numbers) -> Pair {
    Pair::of(shown, if numbers.percent(50) { shown } else { other })
}

/// Bytes as they are shown (runs of three and more), and with other runs and spaces.
fn list(bytes: &[u8], numbers: &mut Numbers) -> Pair {
    if bytes.is_empty() {
        return Pair::same("empty");
    }
    let mut pair = Pair::default();
    let mut left = bytes;
    while let Some(&byte) = left.first() {
        let alike = left.iter().take_while(|&&other| other == byte).count();
        let single = vec![format!("{byte:02X}"); alike];
        let shown = if alike < 3 { single.join(" ") } else { format!("{byte:02X}*{alike}") };
        let written = [
            shown.clone(),
            single.join(" "),
            single.concat(),
            format!("{byte:02X}*{alike}"),
            format!("{byte:02X}*{alike:X}h"),
        ];
        let next = Pair::of(shown, &*written[numbers.below(5)]);
        pair = if pair.shown.is_empty() { next } else { pair.then(next) };
        left = &left[alike..];
    }
    pair
}

/// A Set Data Encryption page by its fields, which a hand may write in any order.
fn set_page(numbers: &mut Numbers, page_bytes: &mut usize) -> Pair {
    let scope = numbers.pick(&[
        ("public", "scope 0"),
        ("local", "scope local"),
        ("all", "scope 2"),
        ("scope 7", "scope 7h"),
    ]);
    let mut fields = vec![name(scope, numbers)];
    if scope.0 != "public" || numbers.percent(20) {
        // A PUBLIC page with both modes DISABLE is shown without them.
        let encryption = numbers.pick(&[
            ("external", "encryption 1"),
            ("encrypt", "encryption encrypt"),
            ("encryption 3", "encryption 03h"),
            if scope.0 == "public" { ("encrypt", "encrypt") } else { ("disable", "encryption disable") },
        ]);
        let decryption = numbers.pick(&[
            ("disable", "decryption 0"),
            ("raw", "decryption raw"),
            ("decrypt", "decryption 2"),
            ("mixed", "decryption 0x3"),
            ("decryption 255", "decryption 0ffh"),
        ]);
        fields.push(name(encryption, numbers).then(name(decryption, numbers)));
    }
    let bits = [
        ("lock", "lock"),
        ("ceem 01b", "ceem 1"),
        ("rdmc 11b", "rdmc 3"),
        ("sdk", "sdk"),
        ("ckod", "ckod"),
        ("ckorp", "ckorp"),
        ("ckorl", "ckorl"),
        ("algorithm 0", "algorithm 0h"),
    ];
    for bit in bits {
        if numbers.percent(30) {
            fields.push(name(bit, numbers));
        }
    }
    *page_bytes += 20;
    for (field, header) in zip(["key", "u-kad", "a-kad"], [0, 4, 4]) {
        let data = random_bytes(numbers);
        if numbers.percent(50) && (field != "key" || !data.is_empty()) {
            *page_bytes += header + data.len();
            fields.push(Pair::same(field).then(list(&data, numbers)));
        }
    }
    let shown: Vec<String> = fields.iter().map(|field| field.shown.clone()).collect();
    (1..fields.len()).for_each(|last| fields.swap(last, numbers.below(last + 1)));
    let written: Vec<String> = fields.into_iter().map(|field| field.written).collect();
    Pair::of(shown.join(" "), written.join(" "))
}
