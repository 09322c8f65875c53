//! Tables of the calls that resolve a list.

use crate::report::spread::{ratios, select, times, Spread};
use crate::report::{number, table, thousands};
use crate::timed::{Row, Who, COMPACT, PLAN, SHORT, SIZES, SMALL_PLAN, TIDY, VIEW};

/// The view at each length.
pub fn view(rows: &[Row]) -> String {
    let head = [
        "records",
        "view, us",
        "/ best Rust",
        "worst",
        "/ plain sweep",
        "/ cut tree",
        "/ walk",
        "/ before",
        "worst",
    ];
    let line = |records: &usize| {
        let over = |other| ratios(rows, VIEW, *records, Who::Now, other);
        let (best, before) = (over(Who::Best), over(Who::Before));
        vec![
            thousands(*records),
            Spread::median(&times(rows, VIEW, *records, Who::Now)),
            Spread::median(&best),
            Spread::worst(&best),
            Spread::median(&over(Who::Plain)),
            Spread::median(&over(Who::Tree)),
            Spread::median(&over(Who::Walk)),
            Spread::median(&before),
            Spread::worst(&before),
        ]
    };
    table(&head, "nnnwnnnnw", SHORT.iter().chain(&SIZES).map(line).collect())
}

/// The view of the longest lists, in each shape; one figure of shorter ones too.
pub fn shapes(rows: &[Row]) -> String {
    let head = [
        "shape",
        "view, us",
        "best Rust, us",
        "view / best",
        "at 200",
        "plain sweep, us",
        "view / plain",
        "cut tree, us",
        "view / tree",
        "walk, us",
        "before, us",
        "view / before",
    ];
    let [.., fewer, most] = SIZES;
    let shorter = |row: &Row| select(rows, VIEW, fewer).find(|other| other.shape == row.shape);
    let line = |row: &Row| {
        vec![
            row.shape.into(),
            number(row.time(Who::Now)),
            number(row.time(Who::Best)),
            number(row.ratio(Who::Now, Who::Best)),
            number(shorter(row).and_then(|shorter| shorter.ratio(Who::Now, Who::Best))),
            number(row.time(Who::Plain)),
            number(row.ratio(Who::Now, Who::Plain)),
            number(row.time(Who::Tree)),
            number(row.ratio(Who::Now, Who::Tree)),
            number(row.time(Who::Walk)),
            number(row.time(Who::Before)),
            number(row.ratio(Who::Now, Who::Before)),
        ]
    };
    table(&head, "wnnnnnnnnnnn", select(rows, VIEW, most).map(line).collect())
}

/// Tidied lists, plans and compaction.
pub fn others(rows: &[Row]) -> String {
    let head = ["call", "records", "us", "/ best Rust", "worst", "/ before", "worst"];
    let line = |call: &str, records: usize| {
        let best = ratios(rows, call, records, Who::Now, Who::Best);
        let before = ratios(rows, call, records, Who::Now, Who::Before);
        vec![
            call.into(),
            thousands(records),
            Spread::median(&times(rows, call, records, Who::Now)),
            Spread::median(&best),
            Spread::worst(&best),
            Spread::median(&before),
            Spread::worst(&before),
        ]
    };
    let calls = [TIDY, PLAN, SMALL_PLAN, COMPACT];
    let lines = calls.iter().flat_map(|call| SIZES.map(|records| line(call, records)));
    table(&head, "wnnnwnw", lines.collect())
}

/// Buffers that just fit.
pub fn fits(rows: &[Row]) -> String {
    let head = ["call", "records", "just fits / room to spare", "worst"];
    let line = |call: &str, records: usize| {
        let fits = ratios(rows, call, records, Who::Fits, Who::Now);
        vec![call.into(), thousands(records), Spread::median(&fits), Spread::worst(&fits)]
    };
    let calls = [VIEW, TIDY, PLAN, SMALL_PLAN, COMPACT];
    let lines = calls.iter().flat_map(|call| SIZES.map(|records| line(call, records)));
    table(&head, "wnnw", lines.collect())
}
