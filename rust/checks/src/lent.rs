//! Buffers to lend to the engine.

use crate::guarded::Guarded;

/// Bytes beside a lent buffer, to see a write there.
const MARGIN: usize = 64;

/// A salt's bits that say where a buffer lies in its memory. Without the second it lies between two
/// margins, at any alignment.
const PLACE: u64 = 0x30;
/// It ends where a closed page begins.
pub const AT_END: u64 = 0x20;
/// It begins where a closed page ends.
pub const AT_START: u64 = 0x30;

/// The salts of several buffers in one, the first buffer's in its low bits.
pub fn salts<const N: usize>(salts: [u64; N]) -> u64 {
    let lane = |(number, salt): (usize, &u64)| salt << (LANE * number);
    salts.iter().enumerate().map(lane).sum()
}

/// Bits of one buffer's salt.
const LANE: usize = 16;

/// The salt of the buffer of this number.
pub(crate) fn salt_of(salts: u64, number: usize) -> u64 {
    salts >> (LANE * number)
}

/// A buffer in memory between closed pages, with a pattern in the bytes beside it.
pub(crate) struct Lent {
    memory: Guarded,
    start: usize,
    end: usize,
    salt: u8,
}

impl Lent {
    /// Filled with a pattern.
    pub(crate) fn new(len: usize, salt: u64) -> Self {
        let mut lent = Lent::placed(len, salt);
        lent.fill(lent.start, lent.end);
        lent
    }

    /// With these bytes.
    pub(crate) fn holding(bytes: &[u8], salt: u64) -> Self {
        let mut lent = Lent::placed(bytes.len(), salt);
        lent.slice().copy_from_slice(bytes);
        lent
    }

    fn placed(len: usize, salt: u64) -> Self {
        let alignment = (salt % 16) as usize;
        let memory = Guarded::new(len + 2 * MARGIN + alignment);
        let start = match salt & PLACE {
            AT_START => 0,
            AT_END => memory.slice().len() - len,
            _ => MARGIN + alignment,
        };
        let mut lent = Lent {
            memory,
            start,
            end: start + len,
            salt: (salt >> 8) as u8,
        };
        for (from, to) in lent.margins() {
            lent.fill(from, to);
        }
        lent
    }

    pub(crate) fn slice(&mut self) -> &mut [u8] {
        let (start, end) = (self.start, self.end);
        &mut self.memory.slice_mut()[start..end]
    }

    /// The bytes beside the buffer that are looked at. On the side of a closed page there are none.
    fn margins(&self) -> [(usize, usize); 2] {
        let after = self.memory.slice().len().min(self.end + MARGIN);
        [
            (self.start.saturating_sub(MARGIN), self.start),
            (self.end, after),
        ]
    }

    fn fill(&mut self, from: usize, to: usize) {
        let salt = self.salt;
        for (at, byte) in self.memory.slice_mut()[from..to].iter_mut().enumerate() {
            *byte = pattern(from + at, salt);
        }
    }

    fn holds_pattern(&self, from: usize, to: usize) -> bool {
        let bytes = self.memory.slice()[from..to].iter();
        let mut places = bytes.zip(from..);
        places.all(|(&byte, at)| byte == pattern(at, self.salt))
    }

    pub(crate) fn is_untouched(&self) -> bool {
        self.is_untouched_from(0)
    }

    /// Whether the bytes from this one on are as they were.
    pub(crate) fn is_untouched_from(&self, offset: usize) -> bool {
        self.holds_pattern(self.start + offset, self.end)
    }

    pub(crate) fn margins_are_untouched(&self) -> bool {
        let mut margins = self.margins().into_iter();
        margins.all(|(from, to)| self.holds_pattern(from, to))
    }
}

fn pattern(at: usize, salt: u8) -> u8 {
    (at as u8).wrapping_mul(37).wrapping_add(salt)
}

#[cfg(test)]
mod tests {
    use super::*;

    const PAGE: usize = 4096;

    #[test]
    fn places() {
        for len in [0, 1, 63, 4095, 4096, 4097, 47_128] {
            let mut at_end = Lent::new(len, AT_END);
            assert_eq!(at_end.slice().as_ptr_range().end as usize % PAGE, 0);
            let mut at_start = Lent::new(len, AT_START);
            assert_eq!(at_start.slice().as_ptr() as usize % PAGE, 0);
            for alignment in 0..16 {
                let mut between = Lent::new(len, alignment);
                assert_eq!(between.slice().as_ptr() as usize % 16, alignment as usize);
                assert_eq!(between.slice().len(), len);
            }
        }
    }

    #[test]
    fn a_write_is_seen() {
        for salt in [0, 7, AT_END, AT_START] {
            let mut lent = Lent::new(100, salt | 0x5500);
            assert!(lent.is_untouched() && lent.margins_are_untouched());
            lent.slice()[99] ^= 1;
            assert!(!lent.is_untouched() && lent.is_untouched_from(100));
            assert!(lent.margins_are_untouched());
            for (from, to) in lent.margins() {
                for at in from..to {
                    lent.memory.slice_mut()[at] ^= 1;
                    assert!(!lent.margins_are_untouched());
                    lent.memory.slice_mut()[at] ^= 1;
                }
            }
        }
    }

    #[test]
    fn pages_that_are_used_again() {
        for round in 0..3 {
            let bytes = [round; 5000];
            let mut first = Lent::holding(&bytes, AT_END);
            let mut second = Lent::new(5000, AT_START);
            assert!(first.slice() == bytes && second.is_untouched());
            second.slice().fill(!round);
            assert!(first.slice() == bytes);
        }
    }
}
