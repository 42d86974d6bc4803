//! A small generator of our own (splitmix64), so that lists never change by a library.

/// The state; equal seeds give equal numbers.
#[derive(Clone, Debug)]
pub struct Rng {
    state: u64,
}

impl Rng {
    pub fn new(seed: u64) -> Self {
        Self { state: seed }
    }

    /// The next 64 bits.
    pub fn word(&mut self) -> u64 {
        self.state = self.state.wrapping_add(0x9e37_79b9_7f4a_7c15);
        let mut mixed = self.state;
        mixed = (mixed ^ (mixed >> 30)).wrapping_mul(0xbf58_476d_1ce4_e5b9);
        mixed = (mixed ^ (mixed >> 27)).wrapping_mul(0x94d0_49bb_1331_11eb);
        mixed ^ (mixed >> 31)
    }

    /// A number under `end`, which is over 0 and under 2^32.
    pub fn below(&mut self, end: usize) -> usize {
        assert!(end > 0, "nothing is below 0");
        (((self.word() >> 32) * end as u64) >> 32) as usize
    }

    /// True once in `of` times.
    pub fn once_in(&mut self, of: usize) -> bool {
        self.below(of) == 0
    }

    /// One of the given.
    pub fn pick<T: Copy>(&mut self, of: &[T]) -> T {
        of[self.below(of.len())]
    }

    /// Puts the given into another order.
    pub fn shuffle<T>(&mut self, all: &mut [T]) {
        for at in (1..all.len()).rev() {
            all.swap(at, self.below(at + 1));
        }
    }

    /// So many different wires under `wires`, zeros after them.
    pub fn distinct(&mut self, count: usize, wires: usize) -> [u32; 3] {
        assert!(count <= wires, "not enough wires");
        let mut chosen = [0; 3];
        for at in 0..count {
            chosen[at] = loop {
                let wire = self.below(wires) as u32;
                if !chosen[..at].contains(&wire) {
                    break wire;
                }
            };
        }
        chosen
    }
}
