//! The program `demo` on the reference drive: the month as its text tells it, and files that are wrong.

use crate::comments::holds;
use crate::running::{folder, outcome, put_fifo, run};
use reference::recording::Event;
use reference::stream::{kind, Command, Drive, Reply};
use std::fs::{self, File};
use std::io::Write;
use std::path::Path;
use std::thread;

const ROOT: &str = concat!(env!("CARGO_MANIFEST_DIR"), "/..");

/// The demo's status, standard output and standard error, with a root.
fn demo(root: &Path) -> (i32, String, String) {
    let root = root.to_str().expect("a name in UTF-8");
    outcome(&run(env!("CARGO_BIN_EXE_demo"), Path::new("."), &[root, env!("CARGO_BIN_EXE_drive")], b""))
}

/// The demo on the reference's drive with its replies changed.
fn demo_with(name: &str, change: fn(&mut Reply)) -> (i32, String, String) {
    let folder = folder(name);
    put_fifo(&folder, "commands");
    put_fifo(&folder, "replies");
    let [commands, replies] = ["commands", "replies"].map(|name| folder.join(name));
    let served = thread::spawn(move || {
        let mut commands = File::open(commands).expect("the commands can be read");
        let mut replies = File::create(replies).expect("the replies can be written");
        let mut drive = Drive::new();
        while let Some(command) = Command::read(&mut commands).expect("a command") {
            let mut reply = drive.answer(&command);
            change(&mut reply);
            let mut bytes = Vec::new();
            reply.give(&mut bytes);
            replies.write_all(&bytes).expect("the reply is taken");
        }
    });
    let drive = "cat replies & exec cat >commands";
    let told = outcome(&run(env!("CARGO_BIN_EXE_demo"), &folder, &[ROOT, "sh", "-c", drive], b""));
    served.join().expect("every command has its reply");
    told
}

/// The demo with the month's text changed.
fn with_text(name: &str, from: &str, to: &str) -> (i32, String, String) {
    let root = folder(name);
    fs::create_dir(root.join("examples")).expect("a folder can be made");
    let text = fs::read_to_string(Path::new(ROOT).join("examples/month.txt")).expect("the text can be read");
    assert!(text.contains(from));
    fs::write(root.join("examples/month.txt"), text.replacen(from, to, 1)).expect("a text can be written");
    fs::copy(Path::new(ROOT).join("examples/month.rec"), root.join("examples/month.rec")).expect("a copy");
    demo(&root)
}

#[test]
fn the_month_is_as_its_text_tells() {
    let (status, told, faults) = demo(Path::new(ROOT));
    assert_eq!((status, faults.as_str()), (0, ""), "{told}");
    let month: Vec<&str> = told.lines().skip_while(|line| !line.starts_with("The month ")).collect();
    let [_, refused @ .., counts, "", end] = month.as_slice() else { panic!("{month:?}") };
    assert_eq!(
        *end,
        "P1 to P10, the field pointer, the restoring host, the bridge board and the month: as documents 01 and 02 say"
    );
    assert_eq!(refused[0], "    5  in nexus 3 page 0013h -> 6 page not supported (5/24/00)");
    assert!(refused.iter().all(|line| line.contains(" -> ") && !line.contains(" -> 0 ")));
    let bytes: Vec<&str> =
        refused.iter().filter_map(|line| line.split_once(" wrong: ")).map(|(_, field)| field).collect();
    assert_eq!(bytes, ["byte 5, CEEM, RDMC, SDK and CK bits (5/26/00)", "byte 18, key length (5/26/00)"]);
    assert!(counts.contains(&format!(", {} refused; writes: ", refused.len())), "{counts}");
}

#[test]
fn a_bridge_boards_batch_is_told_event_by_event() {
    let (_, told, _) = demo(Path::new(ROOT));
    let scenes: Vec<&str> = told.split("\n\n").filter(|scene| scene.starts_with('B')).collect();
    let [batch, wrong] = scenes.as_slice() else { panic!("{scenes:?}") };
    let events = batch.lines().filter(|line| line.contains(" -> ") && line.starts_with("    "));
    let answers: Vec<&str> =
        events.filter_map(|line| line.rsplit_once(" -> ")).map(|(_, answer)| answer).collect();
    let expected = ["0 done", "0 done", "12 ", "0 done", "4 ", "11 "];
    assert_eq!(answers.len(), expected.len(), "{batch}");
    assert!(answers.iter().zip(expected).all(|(answer, begins)| answer.starts_with(begins)), "{batch}");
    assert!(batch.contains("in the 4 bytes beyond: [A5, A5, A5, A5]"), "{batch}");
    assert!(wrong.contains(" -> answer 22, ") && wrong.ends_with("The drive's record: as it was"), "{wrong}");
}

#[test]
fn whom_each_set_serves_is_told_in_words() {
    let (_, told, _) = demo(Path::new(ROOT));
    let lines = told.lines().filter_map(|line| line.strip_prefix("    place "));
    let served: Vec<&str> = lines.collect();
    let after_p5 = [
        "0 serves nexuses 0, 5 to 15",
        "1 serves nexus 4",
        "2 serves nexus 1",
        "3 serves nexus 2",
        "4 serves nexus 3",
    ];
    let after_p7 = [
        "0 serves nexuses 0 to 15",
        "1 serves nobody",
        "2 serves nobody",
        "3 serves nobody",
        "4 serves nobody",
    ];
    assert_eq!(served, [after_p5, after_p7].concat());
}

#[test]
fn a_drive_that_tells_another_word_or_none_differs() {
    let another: fn(&mut Reply) = |reply| {
        if reply.served().is_some() {
            reply.data[0] = 1;
        }
    };
    let other_order: fn(&mut Reply) = |reply| {
        if reply.served().is_some() {
            reply.data.reverse();
        }
    };
    let none: fn(&mut Reply) = |reply| {
        if reply.served().is_some() {
            *reply = Reply { number: 255, sense: [0; 3], data: Vec::new() };
        }
    };
    // of zeros the order of bytes doesn't show
    for (name, change, differing) in
        [("demo another word", another, 10), ("demo other order", other_order, 6), ("demo no word", none, 10)]
    {
        let (status, told, _) = demo_with(name, change);
        assert_eq!(
            (status, told.matches("DIFFERS: document 02 says place").count()),
            (1, differing),
            "{told}"
        );
        assert!(told.ends_with("\nP5, P7: not as documents 01 and 02 say\n"), "{name}: {told}");
    }
}

#[test]
fn wrong_fields_are_told_by_name() {
    let (_, told, _) = demo(Path::new(ROOT));
    let scenes: Vec<&str> = told.split("\n\n").filter(|scene| scene.starts_with('F')).collect();
    let fields = |scene: &str| -> Vec<String> {
        let lines =
            scene.lines().filter_map(|line| line.split_once(" -> answer 8, field of the page wrong: "));
        lines.map(|(_, field)| field.to_string()).collect()
    };
    let expected: [&[&str]; 4] = [
        &[
            "byte 18, key length",
            "byte 9, key format",
            "byte 12, reserved byte",
            "byte 5, CEEM, RDMC, SDK and CK bits",
        ],
        &[
            "byte 64, length of the second descriptor",
            "byte 52, type of the first descriptor",
            "byte 52, bytes left over",
        ],
        &["byte 7, decryption mode", "byte 4, scope, reserved bits and lock", "byte 18, key length"],
        &["byte 5, encryption mode", "byte 17, fixed zero byte", "byte 26, length of the first descriptor"],
    ];
    assert_eq!(scenes.iter().map(|scene| fields(scene)).collect::<Vec<_>>(), expected);
    let sense_data = "70 00 05 00 00 00 00 0A 00 00 00 00 26 00 00 80 00 12\n";
    assert!(scenes[0].contains(&format!("    as sense data: {sense_data}")), "{}", scenes[0]);
}

#[test]
fn a_drive_that_tells_another_byte_or_none_differs() {
    let another = |reply: &mut Reply| {
        if let (8, [_, low]) = (reply.number, &mut reply.data[..]) {
            *low += 1;
        }
    };
    let none = |reply: &mut Reply| {
        if reply.number == 8 {
            reply.data.clear();
        }
    };
    let (status, told, _) = demo_with("demo same", |_| ());
    assert_eq!((status, told.matches("DIFFERS").count()), (0, 0), "{told}");
    for (name, change) in [("demo another byte", another as fn(&mut Reply)), ("demo no byte", none)] {
        let (status, told, _) = demo_with(name, change);
        assert_eq!((status, told.matches("DIFFERS: document 0").count()), (1, 16), "{name}: {told}");
        assert_eq!(told.matches("DIFFERS: examples/month.txt says 8, byte ").count(), 2, "{name}: {told}");
        let end = "\nP3, P10, F1, F2, F3, F4, the month: not as documents 01 and 02 say\n";
        assert!(told.ends_with(end), "{name}: {told}");
    }
}

#[test]
fn a_difference_fails_the_demo() {
    for (name, from, to) in [
        ("number", "-> 6\n", "-> 7\n"),
        ("done", "-> 6\n", "\n"),
        ("refused", "-> clear", "-> 12"),
        ("decision", "-> clear", "-> external"),
        ("place", "-> encrypted, place 1", "-> encrypted, place 2"),
        ("byte", "-> 8, byte 18", "-> 8, byte 19"),
    ] {
        let (status, told, _) = with_text(&format!("demo {name}"), from, to);
        assert_eq!(status, 1, "{name}");
        assert_eq!(told.matches("DIFFERS: examples/month.txt says ").count(), 1, "{name}");
        assert!(told.ends_with("\nthe month: not as documents 01 and 02 say\n"), "{name}: {told}");
    }
}

#[test]
fn a_wrong_or_missing_file_is_a_line() {
    let wrong = |(status, told, line): (i32, String, String), words: &str| {
        assert_eq!((status, told.as_str(), line.lines().count()), (1, "", 1), "{line}");
        assert!(line.contains(words), "{line}");
    };
    wrong(demo(&folder("demo nothing")), "month.rec can't be read: ");
    wrong(with_text("demo call", "\ndemount", "\ndismount"), "month.txt:25: ");
    wrong(with_text("demo other", "\ndemount", "\nmicrocode"), "month.txt is not the text of ");
    let root = folder("demo part");
    fs::create_dir(root.join("examples")).expect("a folder can be made");
    fs::write(root.join("examples/month.rec"), [0, 0, 0, 8]).expect("a file can be written");
    wrong(demo(&root), "22 ");
    fs::copy(Path::new(ROOT).join("examples/month.rec"), root.join("examples/month.rec")).expect("a copy");
    wrong(demo(&root), "month.txt can't be read: ");
}

#[test]
fn an_answer_0_that_tells_nothing_of_the_block_is_no_answer_0() {
    let event = Event { kind: kind::WRITE, ..Event::default() };
    let reply = |data: &[u8]| Reply { number: 0, sense: [0; 3], data: data.to_vec() };
    assert!(holds("0", &reply(&[2, 1, 1]), &event));
    assert!(!holds("0", &reply(&[3, 1, 1]), &event));
    assert!(!holds("0", &reply(&[]), &event));
}

#[test]
fn a_named_place_and_a_named_byte_count() {
    let write = Event { kind: kind::WRITE, ..Event::default() };
    let encrypted = Reply { number: 0, sense: [0; 3], data: vec![2, 1, 1] };
    for (comment, is_so) in [
        ("encrypted", true),
        ("encrypted, place 1", true),
        ("encrypted, place 1, as before", true),
        ("encrypted, place 2", false),
        ("encrypted, place 11", false),
        ("encrypted, place x", false),
        ("encrypted, byte 1", false),
    ] {
        assert_eq!(holds(comment, &encrypted, &write), is_so, "{comment}");
    }
    let out = Event { kind: kind::OUT, ..Event::default() };
    let wrong = |data: &[u8]| Reply { number: 8, sense: [5, 0x26, 0], data: data.to_vec() };
    for (comment, is_so) in
        [("8", true), ("8, byte 18: half a key", true), ("8, byte 1", false), ("8, byte x", false)]
    {
        assert_eq!(holds(comment, &wrong(&[0, 18]), &out), is_so, "{comment}");
    }
    assert!(!holds("8, byte 18", &wrong(&[]), &out));
}
