//! Kinds of pieces that are wrong because the lists give something else.

use second::Location::{self, Object, Zeros};
use second::{Piece, Wrong};

use super::{Asked, Mark};

pub const MARKS: [Mark; 14] = [
    Mark { name: "judge, RZ of other chunk", is: |a| a.is(|o| o.of_other_chunk() && o.is_zeros()) },
    Mark {
        name: "judge, RB of other chunk",
        is: |a| a.is(|o| o.of_other_chunk() && !o.is_zeros()),
    },
    Mark { name: "judge, RZ over chunk's edge", is: |a| a.is(|o| o.over_edge() && o.is_zeros()) },
    Mark { name: "judge, RB over chunk's edge", is: |a| a.is(|o| o.over_edge() && !o.is_zeros()) },
    Mark { name: "judge, RB over block's edge", is: |a| a.is(Other::over_block) },
    Mark { name: "judge, RZ into an object", is: |a| a.is(|o| o.goes_into() && o.is_zeros()) },
    Mark { name: "judge, RB into zeros", is: |a| a.is(|o| o.goes_into() && o.there == Zeros) },
    Mark { name: "judge, RB into another", is: |a| a.is(|o| o.goes_into() && o.both().is_some()) },
    Mark { name: "judge, RZ for RB", is: |a| a.is(|o| o.at_once() && o.is_zeros()) },
    Mark { name: "judge, RB for RZ", is: |a| a.is(|o| o.at_once() && o.there == Zeros) },
    Mark { name: "judge, other id", is: |a| a.is(|o| o.differs_in(0)) },
    Mark { name: "judge, other block", is: |a| a.is(|o| o.differs_in(1)) },
    Mark { name: "judge, other block length", is: |a| a.is(|o| o.differs_in(2)) },
    Mark { name: "judge, other place in block", is: |a| a.is(|o| o.differs_in(3)) },
];

/// The first byte of a piece that the lists give otherwise: what the piece says, and what is there.
struct Other {
    byte: u64,
    same_chunk: bool,
    said: Location,
    there: Location,
}

impl Asked<'_> {
    fn is(&self, kind: impl Fn(&Other) -> bool) -> bool {
        self.other().is_some_and(|other| kind(&other))
    }

    fn other(&self) -> Option<Other> {
        let Some(Wrong::Elsewhere { byte, index, from }) = self.why() else {
            return None;
        };
        let piece = Piece::from_bytes(self.wrong_bytes());
        let said = match piece.from {
            Zeros => Zeros,
            Object { id, block, length, at } => Object { id, block, length, at: at + byte },
        };
        Some(Other { byte, same_chunk: piece.index == index, said, there: from })
    }
}

impl Other {
    fn is_zeros(&self) -> bool {
        self.said == Zeros
    }

    /// Only the chunk is wrong, from the first byte on.
    fn of_other_chunk(&self) -> bool {
        self.byte == 0 && !self.same_chunk && self.said == self.there
    }

    /// What the piece says goes on there, but in the next chunk.
    fn over_edge(&self) -> bool {
        self.byte > 0 && !self.same_chunk && self.said == self.there
    }

    /// The chunk is right, and the first byte is wrong.
    fn at_once(&self) -> bool {
        self.byte == 0 && self.same_chunk
    }

    /// The chunk is right, and the first bytes are.
    fn goes_into(&self) -> bool {
        self.byte > 0 && self.same_chunk
    }

    /// The numbers of both objects: id, block, block length and place in block.
    fn both(&self) -> Option<([u64; 4], [u64; 4])> {
        let numbers = |location| match location {
            Zeros => None,
            Object { id, block, length, at } => Some([id, block, length, at]),
        };
        Some((numbers(self.said)?, numbers(self.there)?))
    }

    /// The lists have the first byte of the slice's next block there.
    fn over_block(&self) -> bool {
        let next = |said: [u64; 4], there: [u64; 4]| {
            (there[0], there[1], there[3]) == (said[0], said[1] + 1, 0)
        };
        self.goes_into() && self.both().is_some_and(|(said, there)| next(said, there))
    }

    /// From the first byte on in this number, and in no other.
    fn differs_in(&self, number: usize) -> bool {
        let alone = |said: [u64; 4], there: [u64; 4]| {
            (0..4).all(|other| (said[other] != there[other]) == (other == number))
        };
        self.at_once() && self.both().is_some_and(|(said, there)| alone(said, there))
    }
}
