//! The ratios at the longest lists as a picture: one line for each call and shape, on a scale of
//! powers.

use crate::timed::{Row, Who, COMPACT, PLAN, SIZES, SMALL_PLAN, TIDY, VIEW};

const LEFT: f64 = 300.0;
const WIDTH: f64 = 560.0;
const TOP: f64 = 70.0;
const LINE: f64 = 18.0;
/// The scale goes from a ten-thousandth to ten times.
const LOW: f64 = -4.0;
const HIGH: f64 = 1.0;

/// Programs that the archive is set beside: where its legend stands, its colour and its name.
const OTHERS: [(Who, f64, &str, &str); 5] = [
    (Who::Best, 20.0, "#1f6fb4", "best Rust"),
    (Who::Plain, 540.0, "#a050a0", "plain sweep"),
    (Who::Tree, 140.0, "#d9791a", "cut tree"),
    (Who::Walk, 260.0, "#8a8a8a", "quadratic walk"),
    (Who::Before, 400.0, "#3a9a3a", "archive before"),
];
const CALLS: [&str; 5] = [VIEW, TIDY, PLAN, SMALL_PLAN, COMPACT];

pub fn svg(rows: &[Row]) -> String {
    let [.., most] = SIZES;
    let rows: Vec<&Row> =
        rows.iter().filter(|row| row.records == most && CALLS.contains(&row.call)).collect();
    let height = TOP + LINE * rows.len() as f64 + 30.0;
    let mut text = head(height);
    for (_, x, colour, name) in OTHERS {
        text += &legend(x, colour, name);
    }
    text += &bands(&rows);
    text += &scale(height - 25.0);
    for (i, row) in rows.iter().enumerate() {
        text += &line(row, TOP + LINE * (i as f64 + 0.5));
    }
    text + "</svg>\n"
}

fn head(height: f64) -> String {
    let [.., most] = SIZES;
    let title =
        format!("Time of the archive at {most} records, as a multiple of the other program's");
    format!(
        "<svg xmlns=\"http://www.w3.org/2000/svg\" width=\"900\" height=\"{height}\" \
         font-family=\"sans-serif\" font-size=\"11\">\n\
         <rect width=\"900\" height=\"{height}\" fill=\"white\"/>\n{}",
        label(20.0, 22.0, "start", &title)
    )
}

/// A band behind every second call.
fn bands(rows: &[&Row]) -> String {
    let banded =
        |row: &Row| CALLS.iter().position(|call| *call == row.call).is_some_and(|i| i % 2 == 0);
    let band = |(i, _): (usize, _)| {
        let y = TOP + LINE * i as f64;
        format!("<rect x=\"10\" y=\"{y}\" width=\"880\" height=\"{LINE}\" fill=\"#f4f4f4\"/>\n")
    };
    rows.iter().enumerate().filter(|(_, row)| banded(row)).map(band).collect()
}

fn line(row: &Row, y: f64) -> String {
    let mut text = label(LEFT - 10.0, y + 4.0, "end", &format!("{}, {}", row.call, row.shape));
    for (who, _, colour, _) in OTHERS {
        if let Some(ratio) = row.ratio(Who::Now, who) {
            text += &dot(ratio, y, colour);
        }
    }
    text
}

/// Where a ratio stands on the scale; one beyond it stands at its end.
fn x(ratio: f64) -> f64 {
    LEFT + WIDTH * (ratio.log10().clamp(LOW, HIGH) - LOW) / (HIGH - LOW)
}

fn dot(ratio: f64, y: f64, colour: &str) -> String {
    let x = x(ratio);
    format!("<circle cx=\"{x:.1}\" cy=\"{y:.1}\" r=\"4\" fill=\"{colour}\"><title>{ratio:.4}</title></circle>\n")
}

fn scale(bottom: f64) -> String {
    let marks = [
        (0.0001, "1/10000"),
        (0.001, "1/1000"),
        (0.01, "1/100"),
        (0.1, "1/10"),
        (1.0, "1"),
        (2.0, "2"),
        (10.0, "10"),
    ];
    let mark = |(ratio, name): (f64, &str)| {
        let x = x(ratio);
        let colour = if ratio == 1.0 { "#444444" } else { "#cccccc" };
        let line = format!(
            "<line x1=\"{x:.1}\" y1=\"{TOP}\" x2=\"{x:.1}\" y2=\"{bottom}\" stroke=\"{colour}\"/>\n"
        );
        line + &label(x, TOP - 8.0, "middle", name)
    };
    marks.into_iter().map(mark).collect()
}

fn legend(x: f64, colour: &str, name: &str) -> String {
    let dot = format!("<circle cx=\"{x}\" cy=\"40\" r=\"4\" fill=\"{colour}\"/>\n");
    dot + &label(x + 10.0, 44.0, "start", name)
}

fn label(x: f64, y: f64, anchor: &str, text: &str) -> String {
    format!("<text x=\"{x:.1}\" y=\"{y:.1}\" text-anchor=\"{anchor}\">{text}</text>\n")
}
