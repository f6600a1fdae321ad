//! The reference's claim: a recording on standard input, the 18 lines on standard output.
//!
//! `claim RATE`: RATE in decimal digits, in pence. Where the claim is refused, standard output stays empty, and a line on
//! standard error begins with the refusal's number; where RATE is no number, with `usage`.

#![forbid(unsafe_code)]

#[path = "support/standard.rs"]
mod standard;

use reference::claim::second_account::{claim, Refusal};
use reference::claim::Rate;
use standard::{code, print, read_input, Ended};
use std::ffi::OsString;
use std::process::ExitCode;

const USAGE: &str = "usage: claim RATE < RECORDING   print the claim at RATE pence, decimal digits";

fn main() -> ExitCode {
    let arguments: Vec<OsString> = std::env::args_os().skip(1).collect();
    let rate = if let [rate] = arguments.as_slice() { rate.to_str().and_then(Rate::read) } else { None };
    code(rate.ok_or_else(|| Ended::unusable(USAGE.to_string())).and_then(tell))
}

/// Prints the lines.
fn tell(rate: Rate) -> Result<(), Ended> {
    let claim = claim(&read_input("the recording")?, rate).map_err(|refusal| {
        let what = match refusal {
            Refusal::WrongRecording => "the recording is refused",
            Refusal::RateAboveLimit => "the rate is above 1,000,000 pence",
        };
        Ended::refused(format!("{} {what}", refusal.number()))
    })?;
    print(claim.text())
}
