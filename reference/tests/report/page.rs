//! What stands on a page.

use crate::markup::{assert_sound, named, rows, Element};
use crate::recorded::recorded;
use crate::running::folder;
use crate::{claim_report, lines, page_of, MONTH, MONTH_ROWS, SHA256};
use reference::claim::Counts;
use reference::recording::Recording;
use std::fs;

/// The text of the whole page but its style.
fn text(elements: &[Element]) -> &str {
    &named(elements, "main")[0].text
}

/// The names and values of the list about the recording.
fn facts(elements: &[Element]) -> Vec<(&str, &str)> {
    let (names, values) = (named(elements, "dt"), named(elements, "dd"));
    names.iter().map(|name| &*name.text).zip(values.iter().map(|value| &*value.text)).collect()
}

#[test]
fn the_month_is_told() {
    let folder = folder("report month");
    let lines = lines(250, &MONTH_ROWS);
    let done = claim_report(&folder, "250", MONTH, "month.html", &lines);
    assert_eq!(done, (0, String::new(), String::new()));
    let page = fs::read_to_string(folder.join("month.html")).expect("the page is there");
    let elements = assert_sound(&page);
    assert_eq!(named(&elements, "title")[0].text, "Claim of £50.00 for month.rec");
    assert!(text(&elements).contains("£50.00 5,000 pence\n20 encrypted writes at 250 pence each\n"));
    let expected = [
        ("File", "month.rec"),
        ("Size", "1,967 bytes"),
        ("Events", "101"),
        ("Writes", "41"),
        ("SHA-256", SHA256),
    ];
    assert_eq!(facts(&elements), expected);
    assert!(text(&elements)
        .contains("Of 41 writes, 20 encrypted and claimed. Not claimed: 2 external, 4 clear, 15 refused."));
    let hosts = rows(&elements, "hosts");
    assert_eq!(hosts[0], ["host", "encrypted", "external", "clear", "refused", "all"]);
    assert_eq!(hosts[1], ["0", "9", "0", "1", "11", "21"]);
    assert_eq!(hosts[3], ["2", "2", "2", "1", "1", "6"]);
    assert_eq!(hosts[16], ["15", "0", "0", "0", "0", "0"]);
    assert_eq!(hosts[17], ["above 15", "0", "0", "0", "0", "0"]);
    assert_eq!(hosts[18], ["total", "20", "2", "4", "15", "41"]);
    assert_eq!(hosts.len(), 19);
    let shown: Vec<&str> = named(&elements, "pre").iter().map(|shown| &*shown.text).collect();
    assert_eq!(shown, [&*lines, "sha256sum month.rec\n./claim 250 month.rec\n"]);
}

#[test]
fn a_bar_stands_beside_each_number_but_zero() {
    let file = fs::read(MONTH).expect("the month can be read");
    let elements = assert_sound(&page_of("month.rec", 250, &Recording::read(&file).expect("it is sound")));
    let bars: Vec<(&str, &str)> = elements
        .iter()
        .filter_map(|element| {
            Some((element.attribute("class")?.strip_prefix("bar ")?, element.attribute("style")?))
        })
        .collect();
    let not_zero = rows(&elements, "hosts")[1..]
        .iter()
        .flat_map(|row| row[1..5].to_vec())
        .filter(|number| number != "0")
        .count();
    assert_eq!(bars.len(), not_zero);
    // nexus 0's 11 refused writes are the most of any row; 20 of all 41 writes are encrypted
    assert_eq!(
        bars[..3],
        [("encrypted", "width:81.8%"), ("clear", "width:9.0%"), ("refused", "width:100.0%")]
    );
    assert_eq!(bars[bars.len() - 4], ("encrypted", "width:48.7%"));
}

/// A recording with every reason for which a write isn't claimed, and one write that is.
const REASONS: &str = "write nexus 2 supported
write nexus 16 supported
out nexus 1 page 0010h local disable disable lock
write nexus 1 supported
out nexus 2 page 0010h local external raw
write nexus 2 not supported
out nexus 3 page 0010h all disable disable
write nexus 4 supported
out nexus 4 page 0010h local encrypt decrypt key A7*32
write nexus 4 not supported
write nexus 4 supported
vendor release place 1
write nexus 1 supported
write nexus 1 supported
in nexus 5 page 0020h
out nexus 3 page 0010h all external raw
write nexus 5 supported";

/// Event, host, and the lines of what became of the write.
const TOLD: [(&str, &str, &[&str]); 9] = [
    ("0", "2", &["clear: the set in use, in place 0, has encryption mode DISABLE", DEFAULT_SET]),
    ("1", "16", &["refused: answer 2, nexus above 15"]),
    ("3", "1", &["clear: the set in use, in place 1, has encryption mode DISABLE"]),
    ("5", "2", &["external: the set in use, in place 2, has encryption mode EXTERNAL", NOT_BY_DRIVE]),
    ("7", "4", &["clear: the set in use, in place 0, has encryption mode DISABLE"]),
    ("9", "4", &["refused: answer 12, parameters not usable on this volume", NOT_SUPPORTED, SENSE_12]),
    ("12", "1", &["refused: answer 4, not carried out: parameters changed by a vendor event", SENSE_4]),
    ("13", "1", &["refused: answer 11, locked, and the key instance has changed", SENSE_11]),
    ("16", "5", &["refused: answer 3, not carried out: parameters changed by another nexus", SENSE_3]),
];
const DEFAULT_SET: &str = "Place 0 is empty, which is the default set: nobody set a key for this host.";
const NOT_BY_DRIVE: &str = "The drive didn't encrypt it.";
const NOT_SUPPORTED: &str =
    "The set in use has encryption mode ENCRYPT, and the volume doesn't support its algorithm.";
const SENSE_3: &str =
    "sense 6/2A/11: UNIT ATTENTION, DATA ENCRYPTION PARAMETERS CHANGED BY ANOTHER I_T NEXUS";
const SENSE_4: &str =
    "sense 6/2A/12: UNIT ATTENTION, DATA ENCRYPTION PARAMETERS CHANGED BY VENDOR SPECIFIC EVENT";
const SENSE_11: &str = "sense 7/2A/13: DATA PROTECT, DATA ENCRYPTION KEY INSTANCE COUNTER HAS CHANGED";
const SENSE_12: &str = "sense 7/74/07: DATA PROTECT, ENCRYPTION PARAMETERS NOT USEABLE";

#[test]
fn the_reasons_are_told() {
    let elements = assert_sound(&page_of("all.rec", 1, &recorded(REASONS)));
    let rows = rows(&elements, "unclaimed");
    assert_eq!(rows[0], ["events", "host", "what became of it, and why"]);
    for (row, (event, host, lines)) in rows[1..].iter().zip(TOLD) {
        assert_eq!((&*row[0], &*row[1], row[2].trim_start()), (event, host, &*lines.join("\n")));
    }
    assert_eq!(rows.len(), 1 + TOLD.len());
    assert!(text(&elements).contains("£0.01 1 penny\n1 encrypted write at 1 penny each\n"));
}

#[test]
fn a_nexus_above_15_has_the_last_row() {
    let folder = folder("report above");
    let text = [15, 16, 255].map(|nexus| format!("write nexus {nexus} supported\n")).concat();
    fs::write(folder.join("f"), recorded(&text).bytes()).expect("a file can be written");
    let lines = lines(250, &[(15, Counts([0, 0, 1, 0])), (16, Counts([0, 0, 0, 2]))]);
    assert_eq!(claim_report(&folder, "250", "f", "page.html", &lines), (0, String::new(), String::new()));
    let page = fs::read_to_string(folder.join("page.html")).expect("the page is there");
    let hosts = rows(&assert_sound(&page), "hosts");
    assert_eq!(hosts[16], ["15", "0", "0", "1", "0", "1"]);
    assert_eq!(hosts[17], ["above 15", "0", "0", "0", "2", "2"]);
}

#[test]
fn a_recording_without_writes_has_a_page() {
    let elements = assert_sound(&page_of("example.rec", 250, &recorded("demount")));
    assert!(text(&elements).contains("£0.00 0 pence\n0 encrypted writes at 250 pence each\n"));
    assert!(text(&elements).contains("Writes that are not claimed\nThere is none."));
    assert!(rows(&elements, "unclaimed").is_empty());
    assert_eq!(rows(&elements, "hosts").len(), 19);
    assert!(assert_sound(&page_of("empty.rec", 0, &Recording::default())).len() > 100);
}

#[test]
fn the_largest_amount_is_told() {
    let text_of = |count: usize| {
        let write = "write nexus 0 supported\n".repeat(count);
        format!("out nexus 0 page 0010h local encrypt decrypt key A7*32\n{write}")
    };
    let elements = assert_sound(&page_of("large.rec", 1_000_000, &recorded(&text_of(8180))));
    assert!(text(&elements)
        .contains("£81,800,000.00 8,180,000,000 pence\n8,180 encrypted writes at 1,000,000 pence"));
}

#[test]
fn names_are_escaped() {
    let folder = folder("report names");
    let file = recorded("write nexus 0 supported\n").bytes();
    let lines = lines(250, &[(0, Counts([0, 0, 1, 0]))]);
    for (name, argument) in [
        ("<script>alert(\"&amp;\")<!--.rec", "'<script>alert(\"&amp;\")<!--.rec'"),
        ("it's <b>.rec", "'it'\\''s <b>.rec'"),
        ("a b.rec", "'a b.rec'"),
        ("$HOME `x`.rec", "'$HOME `x`.rec'"),
        ("-x", "-- -x"),
        ("käse.rec", "'käse.rec'"),
    ] {
        fs::write(folder.join(name), &file).expect("a file can be written");
        let done = claim_report(&folder, "250", &format!("./{name}"), "page.html", &lines);
        assert_eq!(done, (0, String::new(), String::new()), "{name}");
        let page = fs::read_to_string(folder.join("page.html")).expect("the page is there");
        let elements = assert_sound(&page);
        assert_eq!(facts(&elements)[0].1, name);
        assert_eq!(named(&elements, "title")[0].text, format!("Claim of £0.00 for {name}"));
        let again = format!("sha256sum {argument}\n./claim 250 {argument}\n");
        assert_eq!(named(&elements, "pre")[1].text, again);
    }
    let page = page_of("<a href=\"&\">'", 250, &recorded("demount"));
    assert!(page.contains("<bdi>&lt;a href=&quot;&amp;&quot;&gt;&#39;</bdi>"));
    let marked = page_of("a\u{1B}[31m\tb", 250, &recorded("demount"));
    assert_eq!(facts(&assert_sound(&marked))[0].1, "a\u{FFFD}[31m\u{FFFD}b");
}

#[test]
fn the_same_input_gives_the_same_bytes() {
    let folder = folder("report again");
    fs::create_dir(folder.join("elsewhere")).expect("a folder can be made");
    fs::copy(MONTH, folder.join("elsewhere/month.rec")).expect("a copy");
    let lines = lines(250, &MONTH_ROWS);
    assert_eq!(claim_report(&folder, "250", MONTH, "a.html", &lines).0, 0);
    assert_eq!(claim_report(&folder, "0250", "elsewhere/month.rec", "elsewhere/b.html", &lines).0, 0);
    let read = |name: &str| fs::read(folder.join(name)).expect("the page is there");
    assert_eq!(read("a.html"), read("elsewhere/b.html"));
}
