//! The limits on speed: the worst figure of all shapes beside each.

use crate::report::spread::{select, Spread};
use crate::report::{number, table as table_of, thousands};
use crate::timed::{
    added, comparison, files, judged, written, Row, Who, ADDED, BEGINS, COMPACT, FILES, JOINED,
    JUDGED, NEXT, PLAN, SIZES, SMALL_PLAN, TIDY, VIEW, WRITTEN,
};

struct Limit {
    what: String,
    most: f64,
    /// A figure that is above the limit by no more than this factor may be noise.
    noise: f64,
    worst: Option<Spread>,
}

pub fn table(rows: &[Row]) -> String {
    let head = ["what", "at most", "worst", "where", ""];
    let line = |limit: Limit| {
        let worst = limit.worst.as_ref();
        vec![
            limit.what.clone(),
            limit.most.to_string(),
            number(worst.map(|spread| spread.worst)),
            worst.map_or("-".into(), |spread| spread.at.clone()),
            verdict(&limit).into(),
        ]
    };
    table_of(&head, "wnnww", limits(rows).into_iter().map(line).collect())
}

fn verdict(limit: &Limit) -> &'static str {
    match &limit.worst {
        None => "not measured",
        Some(spread) if spread.worst <= limit.most => "met",
        Some(spread) if spread.worst <= limit.most * limit.noise => "met but for noise",
        Some(_) => "not met",
    }
}

fn limits(rows: &[Row]) -> Vec<Limit> {
    let best = |call, sizes, most| over(rows, call, sizes, (Who::Best, "best Rust"), most);
    let plain = |sizes, most| over(rows, VIEW, sizes, (Who::Plain, "plain sweep in Rust"), most);
    let mut limits = vec![
        best(VIEW, &[200], 1.2),
        best(VIEW, &[2_000], 1.25),
        plain(&[200], 1.2),
        plain(&[2_000], 1.25),
        over(rows, VIEW, &[200, 2_000], (Who::Tree, "cut tree"), 1.0),
        over(rows, VIEW, &[1, 2, 4, 10], (Who::Before, "before"), 1.0),
        best(PLAN, &[200, 2_000], 1.4),
        best(SMALL_PLAN, &[200, 2_000], 1.4),
        best(COMPACT, &[200, 2_000], 1.4),
    ];
    limits.extend([VIEW, TIDY, PLAN, SMALL_PLAN, COMPACT].map(|call| growth(rows, call)));
    limits.extend([VIEW, TIDY, PLAN, SMALL_PLAN, COMPACT].map(|call| fits(rows, call)));
    let singles = (Who::Singles, "16 read plans");
    limits.extend(FILES.map(|call| over(rows, call, &[files::RECORDS], singles, 1.1)));
    limits.extend(FILES.map(|call| file_fits(rows, call)));
    limits.push(over(rows, NEXT, &[200, 2_000], (Who::Best, "best Rust"), 1.3));
    limits.push(over(rows, JOINED, &SIZES, (Who::Plan, "read plan"), 1.3));
    limits.extend(judged(rows));
    let checks = (Who::Checks, "two checks");
    limits.extend(ADDED.map(|call| over(rows, call, &added::LENGTHS, checks, 1.2)));
    limits.push(over(rows, BEGINS, &comparison::LENGTHS, (Who::Best, "`starts_with`"), 4.0));
    limits.extend(WRITTEN.into_iter().flat_map(|call| texts(rows, call)));
    limits
}

/// The archive over another program, at some lengths. "No slower" leaves less to noise.
fn over(rows: &[Row], call: &str, sizes: &[usize], other: (Who, &str), most: f64) -> Limit {
    let noise = if most > 1.0 { 1.1 } else { 1.05 };
    let worst = worst(rows, call, sizes, |row| row.ratio(Who::Now, other.0));
    Limit { what: format!("{call} / {}, at {}", other.1, list(sizes)), most, noise, worst }
}

/// Texts with ids of so many digits.
fn texts(rows: &[Row], call: &str) -> [Limit; 3] {
    let at = |digits, other, most| {
        let limit = over(rows, call, digits, other, most);
        Limit { what: limit.what + " digits", ..limit }
    };
    let before = (Who::Before, "before");
    [
        at(&written::DIGITS, (Who::Best, "pair table in Rust"), 1.1),
        at(&[12, 20], before, 0.5),
        at(&[1, 6], before, 1.0),
    ]
}

/// A buffer that just fits over one with room to spare.
fn fits(rows: &[Row], call: &str) -> Limit {
    let worst = worst(rows, call, &SIZES, |row| row.ratio(Who::Fits, Who::Now));
    Limit {
        what: format!("{call}: buffer that just fits / room to spare"),
        most: 2.0,
        noise: 1.1,
        worst,
    }
}

/// A plan of several chunks into a buffer that just fits: it is planned twice.
fn file_fits(rows: &[Row], call: &str) -> Limit {
    let worst = worst(rows, call, &[files::RECORDS], |row| row.ratio(Who::Fits, Who::Singles));
    Limit {
        what: format!("{call}: buffer that just fits / 16 read plans"),
        most: 2.1,
        noise: 1.1,
        worst,
    }
}

/// Ten times as many records.
fn growth(rows: &[Row], call: &str) -> Limit {
    let worst = worst(rows, call, &[2_000], |row| {
        let fewer = select(rows, call, 200).find(|other| other.shape == row.shape)?;
        Some(row.time(Who::Now)? / fewer.time(Who::Now)?)
    });
    Limit { what: format!("{call}: 2,000 records / 200"), most: 12.0, noise: 1.1, worst }
}

/// Pieces in another order over the same in order, and many pieces in order over few.
fn judged(rows: &[Row]) -> Vec<Limit> {
    let records = [judged::RECORDS];
    let [[few, ..], [many, ..]] = JUDGED;
    let others = JUDGED.into_iter().flat_map(|[_, others @ ..]| others);
    let mut limits: Vec<Limit> = others
        .map(|call| {
            let worst = worst(rows, call, &records, |row| row.ratio(Who::Now, Who::InOrder));
            Limit { what: format!("{call} / in order"), most: 100.0, noise: 1.1, worst }
        })
        .collect();
    let worst = worst(rows, many, &records, |row| {
        let fewer = select(rows, few, row.records).find(|other| other.shape == row.shape)?;
        Some(row.time(Who::Now)? / fewer.time(Who::Now)?)
    });
    limits.push(Limit { what: format!("{many} / 1,000"), most: 120.0, noise: 1.1, worst });
    limits
}

/// The worst of a figure, with its shape and length.
fn worst(
    rows: &[Row],
    call: &str,
    sizes: &[usize],
    figure: impl Fn(&Row) -> Option<f64>,
) -> Option<Spread> {
    let rows = sizes.iter().flat_map(|records| select(rows, call, *records));
    let place = |row: &Row| format!("{}, {}", row.shape, thousands(row.records));
    Spread::of(rows.filter_map(|row| Some((figure(row)?, place(row)))))
}

fn list(sizes: &[usize]) -> String {
    sizes.iter().map(|size| thousands(*size)).collect::<Vec<_>>().join(", ")
}
