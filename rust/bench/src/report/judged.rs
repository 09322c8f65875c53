//! Tables of plans made elsewhere.

use crate::report::spread::{ratios, times, Spread};
use crate::report::{number, table, thousands};
use crate::timed::{judged, judged_few, Row, Who, JUDGED, JUDGED_FEW};

/// Plans of many pieces, by read.
pub fn many(rows: &[Row]) -> String {
    let head = [
        "read, lists",
        "pieces",
        "order",
        "us",
        "a piece, ns",
        "/ in order",
        "/ own plan",
        "/ best Rust",
    ];
    let line = |row: &Row, pieces: usize| {
        let time = row.time(Who::Now);
        vec![
            row.shape.into(),
            thousands(pieces),
            order(row.call).into(),
            number(time),
            number(time.map(|time| 1e3 * time / pieces as f64)),
            number(row.ratio(Who::Now, Who::InOrder)),
            number(row.ratio(Who::Now, Who::Plan)),
            number(row.ratio(Who::Now, Who::Best)),
        ]
    };
    let lines = rows.iter().filter_map(|row| Some(line(row, pieces(row.call)?)));
    table(&head, "wnwnnnnn", lines.collect())
}

/// Of a call on many.
fn pieces(call: &str) -> Option<usize> {
    let (_, pieces) = JUDGED.iter().zip(judged::PIECES).find(|(calls, _)| calls.contains(&call))?;
    Some(pieces)
}

/// The order of the pieces is the end of a call's name.
fn order(call: &str) -> &str {
    call.rsplit(", ").next().unwrap_or(call)
}

/// Our own plans of short lists, in nanoseconds.
pub fn few(rows: &[Row]) -> String {
    let head =
        ["order", "judged, ns", "check, ns", "own plan, ns", "/ check", "worst", "/ plan", "worst"];
    let records = judged_few::RECORDS;
    let line = |call: &'static str| {
        let nanoseconds =
            |who| number(times(rows, call, records, who).map(|spread| 1e3 * spread.median));
        let over = |other| ratios(rows, call, records, Who::Now, other);
        let (check, plan) = (over(Who::Checks), over(Who::Plan));
        vec![
            order(call).into(),
            nanoseconds(Who::Now),
            nanoseconds(Who::Checks),
            nanoseconds(Who::Plan),
            Spread::median(&check),
            Spread::worst(&check),
            Spread::median(&plan),
            Spread::worst(&plan),
        ]
    };
    table(&head, "wnnnnwnw", JUDGED_FEW.map(line).into())
}
