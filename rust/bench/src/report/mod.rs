//! What was measured, as tables that a reader can take in, and a picture.

mod calls;
mod files;
mod history;
mod judged;
mod limits;
mod others;
mod picture;
mod pieces;
mod spread;
mod texts;

use crate::timed::Row;

/// The files' names and texts.
pub fn files(rows: &[Row]) -> Vec<(&'static str, String)> {
    vec![
        ("limits.md", limits::table(rows)),
        ("view.md", calls::view(rows)),
        ("shapes.md", calls::shapes(rows)),
        ("calls.md", calls::others(rows)),
        ("fits.md", calls::fits(rows)),
        ("files.md", files::plans(rows)),
        ("pieces.md", pieces::ordinary(rows)),
        ("joined.md", pieces::joined(rows)),
        ("one-by-one.md", pieces::one_by_one(rows)),
        ("file-pieces.md", pieces::of_files(rows)),
        ("judged.md", judged::many(rows)),
        ("judged-few.md", judged::few(rows)),
        ("find.md", others::find(rows)),
        ("check.md", others::check(rows)),
        ("added.md", history::added(rows)),
        ("comparison.md", history::comparison(rows)),
        ("written.md", texts::written(rows)),
        ("texts.md", texts::read_back(rows)),
        ("performance.svg", picture::svg(rows)),
    ]
}

/// A table from its head and its lines. A letter for each column says whether it holds words or
/// numbers: w or n.
fn table(head: &[&str], columns: &str, lines: Vec<Vec<String>>) -> String {
    let rule: Vec<&str> =
        columns.chars().map(|column| if column == 'w' { "---" } else { "--:" }).collect();
    let mut text = line(head) + &line(&rule);
    for cells in lines {
        text += &line(&cells);
    }
    text
}

fn line<S: AsRef<str>>(cells: &[S]) -> String {
    let cells: Vec<&str> = cells.iter().map(S::as_ref).collect();
    format!("| {} |\n", cells.join(" | "))
}

/// A number with two digits behind the point, four where it is small; or a dash.
fn number(number: Option<f64>) -> String {
    match number {
        None => "-".into(),
        Some(number) if number < 0.1 => format!("{number:.4}"),
        Some(number) => format!("{number:.2}"),
    }
}

/// 2000 as 2,000.
fn thousands(number: usize) -> String {
    match number {
        0..1_000 => number.to_string(),
        _ => format!("{},{:03}", number / 1_000, number % 1_000),
    }
}
