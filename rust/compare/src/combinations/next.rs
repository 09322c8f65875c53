//! Pieces one at a time: every set of faults, at a place with a piece and at places without one.

use super::faulty::faulty_list;
use super::{block_size, chunk_len, expect, files, index, sets};
use crate::call::Call;
use crate::tally::Tally;

/// By variant: the last is past what its variant reads.
const PLACES: [u64; 3] = [0, u64::MAX, 1 << 30];

pub fn next_piece(tally: &mut Tally, variant: usize) {
    for faults in sets(&[7, 21, 8, 1, 2, 3, 4, 5, 6, 16]) {
        let (list, bad) = faulty_list(faults, variant);
        let (index, chunk_len) = (index(faults, variant), chunk_len(faults, variant));
        let block_size = block_size(faults, variant);
        let (start, count, at) = (0, u64::MAX, PLACES[variant]);
        let call = Call::NextPiece { list, index, chunk_len, block_size, start, count, at };
        expect(tally, &call, faults.first(bad));
    }
}

pub fn next_file_piece(tally: &mut Tally, variant: usize) {
    for faults in sets(&[21, 8, 1, 2, 3, 4, 5, 6, 16]) {
        let (files, bad) = files::one_bad_list(faults, variant);
        for file in files {
            let block_size = block_size(faults, variant);
            let (start, count) = files::read(variant);
            let at = PLACES[variant];
            let call = Call::NextFilePiece { file, block_size, start, count, at };
            expect(tally, &call, faults.first(bad));
        }
    }
}
