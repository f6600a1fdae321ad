//! Programs of this package, run in folders of their own.

use std::env;
use std::fs;
use std::io::Write;
use std::os::unix::fs::{symlink, PermissionsExt};
use std::path::{Path, PathBuf};
use std::process::{self, Command, Output, Stdio};

/// A folder of its own for a test.
pub fn folder(name: &str) -> PathBuf {
    emptied(Path::new(env!("CARGO_TARGET_TMPDIR")).join(name))
}

/// The same outside the checkout, for a test that makes a link: a checkout that has one isn't taken where proofs are checked.
/// The test takes the folder away when it is done.
pub fn folder_outside(name: &str) -> PathBuf {
    emptied(env::temp_dir().join(format!("{name} {}", process::id())))
}

fn emptied(folder: PathBuf) -> PathBuf {
    let _ = fs::remove_dir_all(&folder);
    fs::create_dir_all(&folder).expect("a folder can be made");
    folder
}

/// Puts something into a folder that is neither a file nor a folder. A device of the system isn't tried: where a program
/// took it for a file, it would be gone.
pub fn put_fifo(folder: &Path, name: &str) {
    let made = Command::new("mkfifo").arg(folder.join(name)).status().expect("mkfifo runs");
    assert!(made.success(), "a FIFO can be made");
}

/// Writes, by `write`, to a link in a folder of its own whose file is there: the link stays, and the file keeps its
/// permissions. Gives the new file's length.
pub fn written_through_a_link(name: &str, write: impl Fn(&Path, &str)) -> u64 {
    let folder = folder_outside(name);
    fs::write(folder.join("f"), "before").expect("a file can be written");
    fs::set_permissions(folder.join("f"), PermissionsExt::from_mode(0o640)).expect("they can be set");
    symlink("f", folder.join("l")).expect("a link can be made");
    write(&folder, "l");
    assert!(folder.join("l").is_symlink());
    let there = fs::metadata(folder.join("f")).expect("the file is there");
    assert_eq!(there.permissions().mode() & 0o777, 0o640);
    assert_eq!(names(&folder), ["f", "l"]);
    fs::remove_dir_all(&folder).expect("the folder can be taken away");
    there.len()
}

/// Runs a program in a folder.
pub fn run(program: &str, folder: &Path, arguments: &[&str], input: &[u8]) -> Output {
    let mut child = Command::new(program)
        .args(arguments)
        .current_dir(folder)
        .stdin(Stdio::piped())
        .stdout(Stdio::piped())
        .stderr(Stdio::piped())
        .spawn()
        .expect("the program starts");
    // A program that doesn't read its input may have ended.
    let _ = child.stdin.take().expect("its input is a pipe").write_all(input);
    child.wait_with_output().expect("the program ends")
}

/// The status, standard output and standard error.
pub fn outcome(output: &Output) -> (i32, String, String) {
    let text = |bytes: &[u8]| String::from_utf8_lossy(bytes).into_owned();
    (output.status.code().unwrap_or(-1), text(&output.stdout), text(&output.stderr))
}

/// The names in a folder.
pub fn names(folder: &Path) -> Vec<String> {
    let entries = fs::read_dir(folder).expect("the folder can be read");
    let mut names: Vec<String> =
        entries.map(|entry| entry.expect("an entry").file_name().to_string_lossy().into_owned()).collect();
    names.sort();
    names
}
