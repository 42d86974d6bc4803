//! Lent buffers full of junk, with junk around them that no call may reach.

/// What stands before and behind a lent buffer.
const MARGIN: usize = 16;

/// A byte or a word; junk is never 0, so that what should be zeroed shows.
pub trait Cell: Copy + PartialEq + Default {
    fn junk(at: usize) -> Self;
}

impl Cell for u8 {
    fn junk(at: usize) -> u8 {
        (at.wrapping_mul(151) >> 2) as u8 | 0x41
    }
}

impl Cell for u32 {
    fn junk(at: usize) -> u32 {
        (at as u32).wrapping_mul(0x9e37_79b1) | 0x4100_0001
    }
}

#[derive(Clone)]
pub struct Lent<T> {
    all: Vec<T>,
}

impl<T: Cell> Lent<T> {
    pub fn new(len: usize) -> Self {
        Lent {
            all: (0..len + 2 * MARGIN).map(T::junk).collect(),
        }
    }

    pub fn len(&self) -> usize {
        self.all.len() - 2 * MARGIN
    }

    pub fn cells(&self) -> &[T] {
        &self.all[MARGIN..self.all.len() - MARGIN]
    }

    pub fn cells_mut(&mut self) -> &mut [T] {
        let end = self.all.len() - MARGIN;
        &mut self.all[MARGIN..end]
    }

    /// Whether all from this cell on, and all before the first, is as it was made.
    pub fn untouched_from(&self, from: usize) -> bool {
        let junk = |at: usize| self.all[at] == T::junk(at);
        (0..MARGIN).all(junk) && (MARGIN + from..self.all.len()).all(junk)
    }

    /// Whether the first cells are these, and zeros follow up to a length.
    pub fn starts_with(&self, first: &[T], then_zero_to: usize) -> bool {
        let Some(rest) = self.cells()[..then_zero_to].strip_prefix(first) else {
            return false;
        };
        rest.iter().all(|&cell| cell == T::default())
    }
}
