//! vectors/pages.txt against the library, and the program `vectors` on the reference drive.

#![forbid(unsafe_code)]

use reference::comparison::vector_file;
use reference::stream::Drive;
use std::process::{Command as Program, Output};

const FILE: &str = concat!(env!("CARGO_MANIFEST_DIR"), "/vectors/pages.txt");

fn text() -> String {
    std::fs::read_to_string(FILE).expect("the file can be read")
}

fn vectors(arguments: &[&str]) -> Output {
    Program::new(env!("CARGO_BIN_EXE_vectors")).args(arguments).output().expect("vectors runs")
}

#[test]
fn the_library_answers_as_the_file_says() {
    let vectors = vector_file::read(&text()).expect("the file is in order");
    assert!(vectors.len() >= 60);
    for vector in vectors {
        let mut drive = Drive::new();
        assert_eq!(vector.try_on(|command| Ok(drive.answer(command))), Ok(None), "{}", vector.name);
    }
}

#[test]
fn the_program_ends_with_its_count() {
    let output = vectors(&[FILE, env!("CARGO_BIN_EXE_drive")]);
    assert!(output.status.success());
    assert!(String::from_utf8_lossy(&output.stdout).ends_with(" vectors, all as expected\n"));
}

#[test]
fn a_wrong_expectation_is_found() {
    let changes = [
        ("\nanswer: 7", "\nanswer: 8\nbyte: 0"),
        ("\nanswer: 8\nbyte: 54", "\nanswer: 7"),
        ("\nbyte: 54", "\nbyte: 55"),
        ("\nbyte: 8", "\nbyte: 0"),
        ("\nbyte: 4\n", "\nbyte: 1024\n"),
        (", CEEM 1,", ", CEEM 0,"),
        (", CEEM 2,", ", CEEM 3,"),
        (", RDMD 1,", ", RDMD 0,"),
        (", CKOD 1,", ", CKOD 0,"),
        (", decryption 3,", ", decryption 2,"),
        (", key 32\n", ", key 0\n"),
        ("\nu-kad: 6D", "\nu-kad: 6E"),
        ("\na-kad: 74", "\na-kad: 75"),
    ];
    for (right, wrong) in changes {
        let spoiled = text().replacen(right, wrong, 1);
        let vectors = vector_file::read(&spoiled).expect("the file is in order");
        let different = vectors.iter().filter(|vector| {
            let mut drive = Drive::new();
            vector.try_on(|command| Ok(drive.answer(command))) != Ok(None)
        });
        assert_eq!(different.count(), 1, "{right:?} changed to {wrong:?}");
    }
}

#[test]
fn a_byte_stands_exactly_with_answer_8() {
    for (right, wrong, fault) in [
        ("\nbyte: 54", "", "no \"byte\""),
        ("\nbyte: 54", "\nbyte: 54h", "a byte that is no number"),
        ("\nanswer: 7", "\nanswer: 7\nbyte: 2", "a byte with an answer other than 8"),
        ("\nanswer: 0", "\nanswer: 0\nbyte: 0", "a byte with an answer other than 8"),
    ] {
        let told = vector_file::read(&text().replacen(right, wrong, 1)).expect_err("the file isn't in order");
        assert!(told.ends_with(fault), "{told}");
    }
}

#[test]
fn bad_arguments_end_with_status_2() {
    for arguments in [&[] as &[&str], &[FILE], &["/nowhere", "/bin/true"], &[FILE, "/nowhere"]] {
        let output = vectors(arguments);
        assert_eq!(output.status.code(), Some(2));
        assert!(output.stdout.is_empty());
        assert!(String::from_utf8_lossy(&output.stderr).contains("usage: vectors"));
    }
    assert_eq!(vectors(&[FILE, "/bin/true"]).status.code(), Some(1));
}
