//! The table of plans across a file.

use crate::report::spread::{ratios, times, Spread};
use crate::report::table;
use crate::timed::files::RECORDS;
use crate::timed::{Row, Who, FILES};

pub fn plans(rows: &[Row]) -> String {
    let head = [
        "call",
        "room to spare, us",
        "16 read plans, us",
        "room to spare / 16 read plans",
        "worst",
        "just fits / 16 read plans",
        "worst",
    ];
    let line = |call: &str| {
        let spare = ratios(rows, call, RECORDS, Who::Now, Who::Singles);
        let fits = ratios(rows, call, RECORDS, Who::Fits, Who::Singles);
        vec![
            call.into(),
            Spread::median(&times(rows, call, RECORDS, Who::Now)),
            Spread::median(&times(rows, call, RECORDS, Who::Singles)),
            Spread::median(&spare),
            Spread::worst(&spare),
            Spread::median(&fits),
            Spread::worst(&fits),
        ]
    };
    table(&head, "wnnnwnw", FILES.map(line).into())
}
