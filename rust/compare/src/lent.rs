//! Lent memory between guard bytes.

const GUARD: usize = 64;

/// A part of a larger buffer; everything in it is known before the call.
pub struct Lent {
    bytes: Vec<u8>,
    before: Vec<u8>,
    start: usize,
    len: usize,
}

impl Lent {
    /// A buffer of some bytes, at any alignment that `shift` gives.
    pub fn room(len: usize, shift: usize) -> Lent {
        let start = GUARD + shift % 16;
        let known = |i: usize| (i * 151 + shift * 7 + 29) as u8;
        let bytes: Vec<u8> = (0..start + len + GUARD).map(known).collect();
        Lent { before: bytes.clone(), bytes, start, len }
    }

    /// A buffer that holds the given bytes, for inputs.
    pub fn holding(content: &[u8], shift: usize) -> Lent {
        let mut lent = Lent::room(content.len(), shift);
        lent.part_mut().copy_from_slice(content);
        lent.before.copy_from_slice(&lent.bytes);
        lent
    }

    pub fn part(&self) -> &[u8] {
        &self.bytes[self.start..self.start + self.len]
    }

    pub fn part_mut(&mut self) -> &mut [u8] {
        &mut self.bytes[self.start..self.start + self.len]
    }

    /// The part as it was lent.
    pub fn part_before(&self) -> &[u8] {
        &self.before[self.start..self.start + self.len]
    }

    /// What is wrong if only the first `written` bytes of the part may have changed.
    pub fn touched(&self, written: usize) -> Option<&'static str> {
        let end = self.start + self.len;
        if self.bytes[..self.start] != self.before[..self.start] {
            return Some("a byte in front of the buffer changed");
        }
        if self.bytes[end..] != self.before[end..] {
            return Some("a byte behind the buffer changed");
        }
        if written > self.len {
            return Some("more bytes counted than lent");
        }
        if self.part()[written..] != self.part_before()[written..] {
            return Some("a byte of the buffer changed that no answer covers");
        }
        None
    }
}

#[cfg(test)]
mod tests {
    use super::Lent;

    #[test]
    fn every_changed_byte_is_noticed() {
        for shift in 0..20 {
            let total = Lent::room(40, shift).bytes.len();
            for at in 0..total {
                let mut lent = Lent::room(40, shift);
                lent.bytes[at] ^= 1;
                assert!(lent.touched(0).is_some());
                let answer = lent.start..lent.start + 30;
                assert_eq!(lent.touched(30).is_none(), answer.contains(&at));
            }
        }
    }

    #[test]
    fn count_beyond_the_buffer_is_noticed() {
        assert!(Lent::room(40, 3).touched(40).is_none());
        assert!(Lent::room(40, 3).touched(41).is_some());
    }
}
