//! The open records, as a set of bits in two levels. The greater a number, the lower its bit: so the
//! greatest is found by `trailing_zeros`, which waits for no earlier value of a register.

use crate::record::LIST_RECORDS;

const WORDS: usize = LIST_RECORDS / 64;

pub struct Open {
    words: [u64; WORDS],
    /// Which words have a bit.
    some: u64,
}

#[inline(always)]
fn bit(number: u32) -> u64 {
    1 << (63 - number % 64)
}

impl Open {
    #[inline(always)]
    pub fn none() -> Open {
        Open { words: [0; WORDS], some: 0 }
    }

    #[inline(always)]
    pub fn add(&mut self, number: u32) {
        self.words[(number / 64) as usize % WORDS] |= bit(number);
        self.some |= bit(number / 64);
    }

    /// The greatest number that stays; those that are greater and don't are taken out. A word is
    /// cleared in a register and stored once.
    #[inline(always)]
    pub fn greatest(&mut self, stays: impl Fn(u32) -> bool) -> Option<u32> {
        while self.some != 0 {
            let place = 63 - self.some.trailing_zeros();
            let mut word = self.words[place as usize % WORDS];
            while word != 0 {
                let number = place * 64 + 63 - word.trailing_zeros();
                if stays(number) {
                    self.words[place as usize % WORDS] = word;
                    return Some(number);
                }
                word &= word - 1;
            }
            self.words[place as usize % WORDS] = 0;
            self.some &= self.some - 1;
        }
        None
    }
}
