//! The reference drive on a pipe: commands on standard input, replies on standard output.

#![forbid(unsafe_code)]

use reference::stream::{serve, Drive};
use std::io;

fn main() -> io::Result<()> {
    serve(&mut Drive::new(), &mut io::stdin().lock(), &mut io::stdout().lock())
}
