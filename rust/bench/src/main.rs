//! `bench [FOLDER]`: times of the archive beside plain Rust, and beside another archive that was
//! built before, where one is linked. The tables and the picture are written into the folder.
//!
//! All programs must give the same bytes, else the exit status is 1. Each time is the median of
//! many rounds in which the programs take turns, so that ratios hold on a busy machine too.

mod clock;
mod elsewhere;
mod files;
mod history;
mod library;
mod measure;
mod orders;
mod pairs;
mod pieces;
mod record;
mod report;
mod shapes;
mod shuffle;
#[cfg(test)]
mod tests;
mod timed;
mod yard;
mod zeros;

use std::path::Path;
use std::process::exit;

fn main() {
    let folder = std::env::args().nth(1);
    let rows = timed::all().unwrap_or_else(|difference| fail(1, &difference));
    for (name, text) in report::files(&rows) {
        if name.ends_with(".md") {
            println!("{text}");
        }
        if let Some(folder) = &folder {
            let path = Path::new(folder).join(name);
            std::fs::write(&path, text)
                .unwrap_or_else(|error| fail(2, &format!("{}: {error}", path.display())));
        }
    }
}

fn fail(status: i32, what: &str) -> ! {
    eprintln!("{what}");
    exit(status);
}
