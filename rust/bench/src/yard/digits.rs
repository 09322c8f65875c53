//! Texts and decimal numbers written into a lent buffer. The digits are counted by comparing, then
//! taken two at a time from a table, the last ones first.

/// The digits of 0 to 99.
const PAIRS: [[u8; 2]; 100] = {
    let mut pairs = [[0; 2]; 100];
    let mut n = 0;
    while n < 100 {
        pairs[n] = [b'0' + (n / 10) as u8, b'0' + (n % 10) as u8];
        n += 1;
    }
    pairs
};

/// Writes into a buffer and remembers how far.
pub struct Pen<'a> {
    out: &'a mut [u8],
    pub at: usize,
}

impl Pen<'_> {
    pub fn new(out: &mut [u8]) -> Pen<'_> {
        Pen { out, at: 0 }
    }

    pub fn text(&mut self, text: &[u8]) -> Option<()> {
        let end = self.at + text.len();
        self.out.get_mut(self.at..end)?.copy_from_slice(text);
        self.at = end;
        Some(())
    }

    pub fn digits(&mut self, mut n: u64) -> Option<()> {
        let end = self.at + count(n);
        let mut out = self.out.get_mut(self.at..end)?;
        self.at = end;
        while n > 99 {
            let q = n / 100;
            let r = (n - 100 * q) as usize;
            let (front, two) = out.split_last_chunk_mut::<2>()?;
            *two = PAIRS[r];
            out = front;
            n = q;
        }
        if n > 9 {
            *out.last_chunk_mut()? = PAIRS[n as usize];
        } else {
            *out.last_mut()? = b'0' + n as u8;
        }
        Some(())
    }
}

/// How many digits a number has.
fn count(n: u64) -> usize {
    if n < 100_000_000 {
        if n < 10_000 {
            among::<1>(n)
        } else {
            among::<5>(n)
        }
    } else if n < 10_000_000_000_000_000 {
        if n < 1_000_000_000_000 {
            among::<9>(n)
        } else {
            among::<13>(n)
        }
    } else {
        among::<17>(n)
    }
}

/// The same, where it has `LEAST` digits or up to three more.
fn among<const LEAST: u32>(n: u64) -> usize {
    let more = if n < const { 10_u64.pow(LEAST + 1) } {
        u32::from(n >= const { 10_u64.pow(LEAST) })
    } else {
        2 + u32::from(n >= const { 10_u64.pow(LEAST + 2) })
    };
    (LEAST + more) as usize
}
