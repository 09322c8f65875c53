//! Tables of the call on an older and a newer list.

use crate::report::spread::{ratios, select, times, Spread};
use crate::report::{number, table, thousands};
use crate::timed::{added, comparison, Row, Who, ADDED, BEGINS};

/// The whole call.
pub fn added(rows: &[Row]) -> String {
    let head = ["call", "records", "us", "/ two checks", "worst"];
    let line = |call: &str, records: usize| {
        let checks = ratios(rows, call, records, Who::Now, Who::Checks);
        vec![
            call.into(),
            thousands(records),
            Spread::median(&times(rows, call, records, Who::Now)),
            Spread::median(&checks),
            Spread::worst(&checks),
        ]
    };
    let lines = ADDED.iter().flat_map(|call| added::LENGTHS.map(|records| line(call, records)));
    table(&head, "wnnnw", lines.collect())
}

/// The comparison alone, in nanoseconds.
pub fn comparison(rows: &[Row]) -> String {
    let head = ["first difference", "records", "comparison, ns", "`starts_with`, ns", "ratio"];
    let line = |place: &str, records: usize| {
        let row = select(rows, BEGINS, records).find(|row| row.shape == place);
        let nanoseconds = |who| number(row.and_then(|row| row.time(who)).map(|time| 1e3 * time));
        vec![
            place.into(),
            thousands(records),
            nanoseconds(Who::Now),
            nanoseconds(Who::Best),
            number(row.and_then(|row| row.ratio(Who::Now, Who::Best))),
        ]
    };
    let lines = comparison::PLACES
        .iter()
        .flat_map(|place| comparison::LENGTHS.map(|records| line(place, records)));
    table(&head, "wnnnn", lines.collect())
}
