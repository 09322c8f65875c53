//! Tables of pieces one at a time.

use crate::report::spread::{ratios, select, times, Spread};
use crate::report::{number, table, thousands};
use crate::timed::{
    file_next, next, one_by_one, Row, Who, FILE_NEXT, JOINED, NEXT, ONE_BY_ONE, SIZES,
};

/// A piece of one record, or of one hole.
pub fn ordinary(rows: &[Row]) -> String {
    let head = [
        "records",
        "next piece, us",
        "check, us",
        "/ check",
        "worst",
        "/ best Rust",
        "worst",
        "/ read plan",
        "worst",
    ];
    let line = |records: usize| {
        let over = |other| ratios(rows, NEXT, records, Who::Now, other);
        let (check, best, plan) = (over(Who::Checks), over(Who::Best), over(Who::Plan));
        vec![
            thousands(records),
            Spread::median(&times(rows, NEXT, records, Who::Now)),
            Spread::median(&times(rows, NEXT, records, Who::Checks)),
            Spread::median(&check),
            Spread::worst(&check),
            Spread::median(&best),
            Spread::worst(&best),
            Spread::median(&plan),
            Spread::worst(&plan),
        ]
    };
    table(&head, "nnnnwnwnw", next::LENGTHS.map(line).into())
}

/// A piece of the whole chunk.
pub fn joined(rows: &[Row]) -> String {
    let head =
        ["records stand", "records", "next piece, us", "read plan, us", "ratio", "/ best Rust"];
    let line = |row: &Row| {
        vec![
            row.shape.into(),
            thousands(row.records),
            number(row.time(Who::Now)),
            number(row.time(Who::Plan)),
            number(row.ratio(Who::Now, Who::Plan)),
            number(row.ratio(Who::Now, Who::Best)),
        ]
    };
    let lines = SIZES.iter().flat_map(|records| select(rows, JOINED, *records)).map(line);
    table(&head, "wnnnnn", lines.collect())
}

/// A whole read.
pub fn one_by_one(rows: &[Row]) -> String {
    let head = ["pieces", "one by one, us", "a piece, us", "read plan, us", "ratio"];
    let pieces = one_by_one::PIECES;
    let line = |row: &Row| {
        vec![
            thousands(pieces),
            number(row.time(Who::Now)),
            number(row.time(Who::Now).map(|time| time / pieces as f64)),
            number(row.time(Who::Plan)),
            number(row.ratio(Who::Now, Who::Plan)),
        ]
    };
    table(&head, "nnnnn", select(rows, ONE_BY_ONE, one_by_one::RECORDS).map(line).collect())
}

/// Across a file.
pub fn of_files(rows: &[Row]) -> String {
    let head = [
        "records of each list",
        "us",
        "/ next piece and 15 checks",
        "worst",
        "/ 16 checks",
        "worst",
    ];
    let records = file_next::RECORDS;
    let over = |other| ratios(rows, FILE_NEXT, records, Who::Now, other);
    let (singles, checks) = (over(Who::Singles), over(Who::Checks));
    let line = vec![
        thousands(records),
        Spread::median(&times(rows, FILE_NEXT, records, Who::Now)),
        Spread::median(&singles),
        Spread::worst(&singles),
        Spread::median(&checks),
        Spread::worst(&checks),
    ];
    table(&head, "nnnwnw", vec![line])
}
