//! One figure over the ten shapes: its median, and its worst with where that was.

use crate::measure::median;
use crate::timed::{Row, Who};

pub struct Spread {
    pub median: f64,
    pub worst: f64,
    pub at: String,
}

impl Spread {
    /// Of figures with where they were seen; none where there are none.
    pub fn of(figures: impl Iterator<Item = (f64, String)>) -> Option<Spread> {
        let figures: Vec<(f64, String)> = figures.collect();
        let (worst, at) = figures.iter().max_by(|one, other| one.0.total_cmp(&other.0))?.clone();
        let median = median(figures.into_iter().map(|(figure, _)| figure).collect());
        Some(Spread { median, worst, at })
    }

    /// The worst figure and its shape.
    pub fn worst(spread: &Option<Spread>) -> String {
        spread
            .as_ref()
            .map_or("-".into(), |s| format!("{} ({})", super::number(Some(s.worst)), s.at))
    }

    pub fn median(spread: &Option<Spread>) -> String {
        super::number(spread.as_ref().map(|s| s.median))
    }
}

/// The rows of a call at one length.
pub fn select<'a>(rows: &'a [Row], call: &'a str, records: usize) -> impl Iterator<Item = &'a Row> {
    rows.iter().filter(move |row| row.call == call && row.records == records)
}

/// One program's time, over the shapes.
pub fn times(rows: &[Row], call: &str, records: usize, who: Who) -> Option<Spread> {
    Spread::of(select(rows, call, records).filter_map(|r| Some((r.time(who)?, r.shape.into()))))
}

/// One program's time as a multiple of another's, over the shapes.
pub fn ratios(rows: &[Row], call: &str, records: usize, who: Who, other: Who) -> Option<Spread> {
    let ratio = |row: &Row| Some((row.ratio(who, other)?, row.shape.into()));
    Spread::of(select(rows, call, records).filter_map(ratio))
}
