//! Bytes to lend, with marked bytes on both sides, so that a write just outside
//! them shows.

use std::hint::black_box;

const MARK: u8 = 0xa7;
/// So many marked bytes stand on each side at least.
const MARKED: usize = 32;
/// Blocks may start at any address: the header asks for no alignment.
pub const SHIFTS: usize = 8;

/// A lent block between marked bytes.
pub struct Guarded {
    all: Vec<u8>,
    from: usize,
    length: usize,
}

impl Guarded {
    pub fn new(block: &[u8], shift: usize) -> Guarded {
        let from = MARKED + shift % SHIFTS;
        let mut all = vec![MARK; from + block.len() + MARKED];
        all[from..from + block.len()].copy_from_slice(block);
        Guarded { all, from, length: block.len() }
    }

    pub fn lend(&mut self) -> &mut [u8] {
        &mut self.all[self.from..self.from + self.length]
    }

    /// The bytes as they are in memory now. The compiler must not keep what it
    /// knew of a block that was lent for reading: C code has had its address.
    pub fn bytes(&self) -> &[u8] {
        &black_box(self.all.as_slice())[self.from..self.from + self.length]
    }

    /// Where a marked byte was written, counted from the block's first byte.
    pub fn overwritten(&self) -> Option<isize> {
        let all = black_box(self.all.as_slice());
        let (before, behind) = (&all[..self.from], &all[self.from + self.length..]);
        let written = |part: &[u8]| part.iter().position(|&byte| byte != MARK);
        let first = written(before).map(|at| at as isize - self.from as isize);
        first.or_else(|| written(behind).map(|at| (self.length + at) as isize))
    }

    /// Whether the block holds these bytes and its surroundings are untouched.
    pub fn holds(&self, block: &[u8]) -> bool {
        self.bytes() == block && self.overwritten().is_none()
    }
}

#[cfg(test)]
mod tests {
    use super::*;

    #[test]
    fn a_write_on_either_side_shows() {
        for shift in 0..2 * SHIFTS {
            let mut guarded = Guarded::new(b"block", shift);
            guarded.lend().fill(0);
            assert_eq!((guarded.overwritten(), guarded.bytes()), (None, &[0; 5][..]));
            assert!(guarded.holds(&[0; 5]) && !guarded.holds(&[1; 5]));
            let from = guarded.from;
            guarded.all[from + 5] = 0;
            assert_eq!(guarded.overwritten(), Some(5));
            assert!(!guarded.holds(&[0; 5]));
            guarded.all[from - 1] = 0;
            assert_eq!(guarded.overwritten(), Some(-1));
        }
    }
}
