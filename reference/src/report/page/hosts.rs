//! The table of hosts: a row for each nexus, with a bar beside each number.

use super::super::figures::{grouped, per_cent, writes};
use crate::claim::{Claim, Column, Counts, ROW_ABOVE_15};

/// The sentence of totals, the key to the bars and the table.
pub fn part(claim: &Claim) -> String {
    let heads = Column::EVERY.map(|column| format!("<th scope=\"col\">{}</th>", column.name()));
    let largest = claim.rows.iter().flat_map(|counts| counts.0).max().unwrap_or(0);
    let rows: Vec<String> =
        claim.rows.iter().enumerate().map(|(row, counts)| table_row(&host(row), counts, largest)).collect();
    format!(
        "<section>\n\
         <h2>Writes by host</h2>\n\
         <p>{}</p>\n\
         <ul class=\"key\">\n{}</ul>\n\
         <table class=\"hosts\">\n\
         <caption>Writes of each host (nexus). Bars show a number against the largest one of any host; in the last \
         row, against all writes.</caption>\n\
         <thead>\n<tr><th scope=\"col\">host</th>{}<th scope=\"col\">all</th></tr>\n</thead>\n\
         <tbody>\n{}</tbody>\n\
         <tfoot>\n{}</tfoot>\n\
         </table>\n\
         </section>\n",
        sentence(&claim.totals),
        Column::EVERY.map(key_item).concat(),
        heads.concat(),
        rows.concat(),
        table_row("total", &claim.totals, claim.totals.writes()),
    )
}

/// The totals in a sentence.
fn sentence(totals: &Counts) -> String {
    let [encrypted, external, clear, refused] = totals.0.map(grouped);
    format!(
        "Of {}, {encrypted} encrypted and claimed. Not claimed: {external} external, {clear} clear, {refused} refused.",
        writes(totals.writes())
    )
}

/// The pattern of a column's bars, its name and its meaning.
fn key_item(column: Column) -> String {
    let name = column.name();
    let meaning = match column {
        Column::Encrypted => "by the drive, and claimed",
        Column::External => "not encrypted by the drive",
        Column::Clear => "written without encryption",
        Column::Refused => "not written",
    };
    format!("<li><span class=\"swatch {name}\"></span><span><b>{name}</b>: {meaning}</span></li>\n")
}

/// The name of a row.
fn host(row: usize) -> String {
    if row == ROW_ABOVE_15 {
        format!("above {}", row - 1)
    } else {
        row.to_string()
    }
}

/// A row of the table, its bars as parts of a number.
fn table_row(name: &str, counts: &Counts, whole: u64) -> String {
    let all = counts.writes();
    let class = if all == 0 { " class=\"none\"" } else { "" };
    let cells = Column::EVERY.map(|column| cell(column, counts[column], whole));
    format!("<tr{class}><th scope=\"row\">{name}</th>{}<td>{}</td></tr>\n", cells.concat(), grouped(all))
}

/// A number, and its bar where it isn't 0.
fn cell(column: Column, count: u64, whole: u64) -> String {
    if count == 0 {
        return "<td class=\"none\">0</td>".to_string();
    }
    let (number, name, width) = (grouped(count), column.name(), per_cent(count, whole));
    format!("<td>{number}<span class=\"bar {name}\" style=\"width:{width}\"></span></td>")
}
