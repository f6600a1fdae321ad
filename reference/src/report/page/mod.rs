//! The page: one file without scripts or outside parts. The same input gives the same bytes.

mod hosts;
mod text;
mod unclaimed;

use super::figures::{counted, grouped, pence, pounds};
use super::{Run, Subject};
use crate::claim::{Claim, Column};
use text::{argument, escaped};

const STYLE: &str = include_str!("page.css");

/// The page of a claim that was held against the drive's replies.
pub fn page(subject: &Subject, claim: &Claim, lines: &str, runs: &[Run]) -> String {
    let name = escaped(subject.name);
    let amount = pounds(claim.amount);
    let body = [
        amount_part(subject, claim),
        recording_part(subject, claim),
        hosts::part(claim),
        unclaimed::part(runs),
        lines_part(lines),
        again_part(subject),
    ];
    format!(
        "<!DOCTYPE html>\n\
         <html lang=\"en\">\n\
         <head>\n\
         <meta charset=\"utf-8\">\n\
         <meta name=\"viewport\" content=\"width=device-width, initial-scale=1\">\n\
         <meta name=\"color-scheme\" content=\"light dark\">\n\
         <title>Claim of {amount} for {name}</title>\n\
         <style>\n{STYLE}</style>\n\
         </head>\n\
         <body>\n\
         <main>\n\
         {}\
         </main>\n\
         </body>\n\
         </html>\n",
        body.concat()
    )
}

/// The title and the amount, in large.
fn amount_part(subject: &Subject, claim: &Claim) -> String {
    let encrypted = claim.totals[Column::Encrypted];
    format!(
        "<header>\n\
         <h1>Claim for encrypted writes</h1>\n\
         <p class=\"amount\"><strong>{}</strong> <span>{}</span></p>\n\
         <p>{} at {} each</p>\n\
         </header>\n",
        pounds(claim.amount),
        pence(claim.amount),
        counted(encrypted, "encrypted write", "encrypted writes"),
        pence(subject.rate),
    )
}

/// What is claimed for: a list of names and values.
fn recording_part(subject: &Subject, claim: &Claim) -> String {
    let facts = [
        ("File", format!("<bdi>{}</bdi>", escaped(subject.name))),
        ("Size", counted(subject.recording.bytes().len() as u64, "byte", "bytes")),
        ("Events", grouped(subject.recording.events.len() as u64)),
        ("Writes", grouped(claim.totals.writes())),
        ("SHA-256", format!("<code>{}</code>", escaped(subject.sha256))),
    ];
    let facts = facts.map(|(name, value)| format!("<div><dt>{name}</dt><dd>{value}</dd></div>\n"));
    format!("<section>\n<h2>The recording</h2>\n<dl>\n{}</dl>\n</section>\n", facts.concat())
}

/// How the numbers were made, and the lines as they came.
fn lines_part(lines: &str) -> String {
    format!(
        "<section>\n\
         <h2>The lines</h2>\n\
         <p class=\"small\">A proved program replays the recording from power-on, decides each write as the drive does \
         and prints these lines: in each a row's number and its writes ({}), in the last the totals and the amount in \
         pence. This page is a rendering of them. It was written only after every row had been found equal to the \
         counts of the proved drive's own replies to the same events; the reasons above are from those replies.</p>\n\
         <pre>{}</pre>\n\
         </section>\n",
        Column::EVERY.map(Column::name).join(", "),
        escaped(lines),
    )
}

/// The commands that give the digest and the lines again.
fn again_part(subject: &Subject) -> String {
    let file = argument(subject.name);
    format!(
        "<section>\n\
         <h2>Check it again</h2>\n\
         <p>The first command prints the SHA-256 above, the second the lines above.</p>\n\
         <pre>sha256sum {file}\n./claim {} {file}\n</pre>\n\
         </section>\n",
        subject.rate,
        file = escaped(&file),
    )
}
