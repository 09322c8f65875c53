//! Tables of names and keys.

use crate::report::{number, table};
use crate::timed::{Row, Who, KEYS, NAMES, WRITTEN};

/// Written, in nanoseconds.
pub fn written(rows: &[Row]) -> String {
    let head = [
        "what",
        "digits",
        "ns",
        "before, ns",
        "before / now",
        "pair table, ns",
        "now / pair table",
        "`write!`, ns",
        "now / `write!`",
    ];
    let nanoseconds =
        |row: &Row, who| row.time(who).map_or("-".into(), |time| format!("{:.1}", 1e3 * time));
    let line = |row: &Row| {
        vec![
            row.call.into(),
            row.records.to_string(),
            nanoseconds(row, Who::Now),
            nanoseconds(row, Who::Before),
            number(row.ratio(Who::Before, Who::Now)),
            nanoseconds(row, Who::Best),
            number(row.ratio(Who::Now, Who::Best)),
            nanoseconds(row, Who::Write),
            number(row.ratio(Who::Now, Who::Write)),
        ]
    };
    let lines = rows.iter().filter(|row| WRITTEN.contains(&row.call)).map(line);
    table(&head, "wnnnnnnnn", lines.collect())
}

pub fn read_back(rows: &[Row]) -> String {
    let head = ["written and read back", "us", "plain Rust, us", "archive / Rust"];
    let line = |row: &Row| {
        vec![
            row.call.into(),
            number(row.time(Who::Now)),
            number(row.time(Who::Best)),
            number(row.ratio(Who::Now, Who::Best)),
        ]
    };
    let lines = rows.iter().filter(|row| [NAMES, KEYS].contains(&row.call)).map(line);
    table(&head, "wnnn", lines.collect())
}
