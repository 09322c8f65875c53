//! Kinds of pieces that are wrong whatever the lists are.

use std::ops::Range;

use second::Wrong;

use super::{four, Asked, Mark};

/// Id, block, block length and place in block.
const OBJECT: [Range<usize>; 4] = [10..18, 18..22, 22..26, 26..30];

pub const MARKS: [Mark; 14] = [
    Mark { name: "judge, rest behind pieces", is: |a| a.is_cut_short() && a.pieces() > 0 },
    Mark { name: "judge, rest alone", is: |a| a.is_cut_short() && a.pieces() == 0 && a.length > 0 },
    Mark { name: "judge, rest for nothing", is: |a| a.is_cut_short() && a.length == 0 },
    Mark { name: "judge, other mark", is: |a| a.why() == Some(Wrong::Mark) },
    Mark { name: "judge, length 0", is: |a| a.why() == Some(Wrong::Empty) },
    Mark { name: "judge, RZ with id", is: |a| a.set_in_zeros() == [true, false, false, false] },
    Mark { name: "judge, RZ with block", is: |a| a.set_in_zeros() == [false, true, false, false] },
    Mark {
        name: "judge, RZ with block len.",
        is: |a| a.set_in_zeros() == [false, false, true, false],
    },
    Mark { name: "judge, RZ with place", is: |a| a.set_in_zeros() == [false, false, false, true] },
    Mark { name: "judge, RZ with an object", is: |a| a.set_in_zeros() == [true; 4] },
    Mark { name: "judge, one past the end", is: |a| a.outside() == Some(a.length + 1) },
    Mark { name: "judge, far past the end", is: |a| a.outside() > Some(a.length + 1) },
    Mark { name: "judge, past 2^32", is: past_32_bits },
    Mark { name: "judge, piece for nothing", is: |a| a.length == 0 && a.outside().is_some() },
];

impl Asked<'_> {
    fn is_cut_short(&self) -> bool {
        self.why() == Some(Wrong::CutShort)
    }

    /// Which numbers of the wrong piece are set where it is of zeros.
    fn set_in_zeros(&self) -> [bool; 4] {
        if self.why() != Some(Wrong::ZerosOfObject) {
            return [false; 4];
        }
        let bytes = self.wrong_bytes();
        OBJECT.map(|number| bytes[number].iter().any(|byte| *byte != 0))
    }

    /// Where the wrong piece ends, if that is outside the read.
    fn outside(&self) -> Option<u64> {
        let bytes = self.wrong_bytes();
        (self.why() == Some(Wrong::Outside)).then(|| four(bytes, 6) + four(bytes, 30))
    }
}

/// In 32 bits it would end in the read.
fn past_32_bits(a: &Asked) -> bool {
    a.outside().is_some_and(|end| end >> 32 > 0 && end % (1 << 32) <= a.length)
}
