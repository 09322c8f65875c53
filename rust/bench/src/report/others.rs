//! Tables of seeking and of the check.

use crate::report::spread::{ratios, times, Spread};
use crate::report::{number, table, thousands};
use crate::timed::{Row, Who, CHECK, FIND, SIZES};

/// Seeking, in nanoseconds.
pub fn find(rows: &[Row]) -> String {
    let head = [
        "records of the list",
        "find, ns",
        "from the front, ns",
        "find / front",
        "`partition_point`, ns",
        "find / `partition_point`",
        "worst",
    ];
    let nanoseconds = |records, who| {
        let spread = times(rows, FIND, records, who);
        spread.map_or("-".into(), |spread| format!("{:.0}", 1e3 * spread.median))
    };
    let line = |records| {
        let best = ratios(rows, FIND, records, Who::Now, Who::Best);
        vec![
            thousands(records),
            nanoseconds(records, Who::Now),
            nanoseconds(records, Who::Walk),
            Spread::median(&ratios(rows, FIND, records, Who::Now, Who::Walk)),
            nanoseconds(records, Who::Best),
            Spread::median(&best),
            Spread::worst(&best),
        ]
    };
    table(&head, "nnnnnnw", SIZES.map(line).into())
}

pub fn check(rows: &[Row]) -> String {
    let head =
        ["ids", "records", "check, us", "/ the same in Rust", "/ refusals 1 to 6 alone in Rust"];
    let line = |row: &Row| {
        vec![
            row.shape.into(),
            thousands(row.records),
            number(row.time(Who::Now)),
            number(row.ratio(Who::Now, Who::Best)),
            number(row.ratio(Who::Now, Who::Six)),
        ]
    };
    table(&head, "wnnnn", rows.iter().filter(|row| row.call == CHECK).map(line).collect())
}
