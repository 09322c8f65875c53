//! Plans and pieces across a file.

use rng::Rng;

use crate::files::{File, LISTS};
use crate::record::CHUNK;
use crate::shapes::SHAPES;
use crate::timed::file_next;
use crate::timed::files::same;

/// What is timed is the same plan, made in one call and in 16.
#[test]
fn a_files_plan_is_that_of_its_chunks() {
    for shape in &SHAPES {
        let file = File::new(&shape.lists(50, LISTS));
        for block_size in super::BLOCKS {
            assert!(same(&file, block_size).is_some_and(|count| count > 0), "{}", shape.name);
        }
    }
}

/// What is timed is the same piece, found by one call and by 16.
#[test]
fn a_files_next_piece_is_that_of_its_chunk() {
    let mut rng = Rng::new(8);
    for shape in &SHAPES {
        let file = File::new(&shape.lists(50, LISTS));
        for chunk in 0..LISTS as u32 {
            let inside = rng.below(CHUNK.into()) as u32;
            for at in [0, inside, CHUNK - 1].map(|at| chunk * CHUNK + at) {
                assert!(file_next::same(&file, at, 50), "{}, {at}", shape.name);
            }
        }
    }
}
