//! Sets of term rows, one bit for each of the 256.

/// A set of term rows.
#[derive(Clone, Copy, PartialEq, Eq)]
pub struct Set([u64; 4]);

impl Set {
    pub const EMPTY: Set = Set([0; 4]);

    pub fn insert(&mut self, row: u8) {
        self.0[(row >> 6) as usize] |= 1 << (row & 63);
    }

    /// Makes this the set of the rows, in place.
    pub fn set_to(&mut self, rows: &[u8]) {
        self.0 = [0; 4];
        for &row in rows {
            self.insert(row);
        }
    }

    pub fn remove(&mut self, row: u8) {
        self.0[(row >> 6) as usize] &= !(1 << (row & 63));
    }

    pub fn contains(&self, row: u8) -> bool {
        self.0[(row >> 6) as usize] >> (row & 63) & 1 != 0
    }

    pub fn add_all(&mut self, other: &Set) {
        for (word, more) in self.0.iter_mut().zip(other.0) {
            *word |= more;
        }
    }

    /// Visits the members, in ascending order.
    pub fn for_each(&self, mut visit: impl FnMut(u8)) {
        for (at, &word) in self.0.iter().enumerate() {
            let mut left = word;
            while left != 0 {
                visit((at << 6) as u8 | left.trailing_zeros() as u8);
                left &= left - 1;
            }
        }
    }
}
