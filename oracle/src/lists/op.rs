//! One gate while a list is being made, and what makers ask of it.

use crate::records::kind::{CCX, CCZ, CH, CNOT, CSWAP, CY, CZ, H, MEASURE, RESET};
use crate::records::kind::{S, SDG, SWAP, SX, T, TDG, X, Y, Z};
use crate::records::{self, KINDS, RECORD};

use super::rng::Rng;

/// The nineteen kinds without an angle.
pub(super) const ALL_KINDS: [u8; 19] = [
    X, H, S, SDG, Z, T, TDG, CNOT, CZ, CCX, CCZ, MEASURE, RESET, Y, SX, SWAP, CY, CH, CSWAP,
];
/// The kinds the pass cancels in pairs.
pub(super) const CANCELLING: [u8; 7] = [H, X, Z, CNOT, CZ, CCX, CCZ];
/// The phases that may stand between two h.
pub(super) const PHASES: [u8; 5] = [T, S, Z, SDG, TDG];

/// Kind and words of a record.
#[derive(Clone, Copy, PartialEq, Eq, Debug)]
pub(super) struct Op {
    pub kind: u8,
    pub words: [u32; 3],
}

impl Op {
    pub fn one(kind: u8, wire: u32) -> Self {
        let words = [wire, 0, 0];
        Self { kind, words }
    }

    pub fn two(kind: u8, first: u32, second: u32) -> Self {
        let words = [first, second, 0];
        Self { kind, words }
    }

    pub fn three(kind: u8, words: [u32; 3]) -> Self {
        Self { kind, words }
    }

    /// A gate of this kind, not measure, on wires by chance.
    pub fn anywhere(kind: u8, wires: usize, rng: &mut Rng) -> Self {
        let words = rng.distinct(arity(kind), wires);
        Self { kind, words }
    }

    pub fn wires(&self) -> &[u32] {
        &self.words[..arity(self.kind)]
    }

    pub fn touches(&self, wire: u32) -> bool {
        self.wires().contains(&wire)
    }

    pub fn shares_wire(&self, other: &Self) -> bool {
        self.wires().iter().any(|&wire| other.touches(wire))
    }

    /// The gate that undoes a phase, or the gate itself.
    pub fn inverse(self) -> Self {
        let kind = match self.kind {
            S => SDG,
            SDG => S,
            T => TDG,
            TDG => T,
            same => same,
        };
        Self { kind, ..self }
    }

    /// The same gate with its wires written in another order where it has one.
    pub fn rewritten(mut self, rng: &mut Rng) -> Self {
        match self.kind {
            CZ | CCX => rng.shuffle(&mut self.words[..2]),
            CCZ => rng.shuffle(&mut self.words),
            _ => {}
        }
        self
    }

    /// Whether x, phases, cnot, cz, ccx and ccz commute by what they flip and
    /// read. This is wider than what the pass lets by, so some of these block.
    pub fn commutes(&self, other: &Self) -> bool {
        let free = |flips: &[u32], reads: &[u32]| flips.iter().all(|wire| !reads.contains(wire));
        let (flips, reads) = self.flips_and_reads();
        let (others_flips, others_reads) = other.flips_and_reads();
        free(flips, others_reads) && free(others_flips, reads)
    }

    fn flips_and_reads(&self) -> (&[u32], &[u32]) {
        match self.kind {
            X => (self.wires(), &[]),
            CNOT => (&self.words[1..2], &self.words[..1]),
            CCX => (&self.words[2..], &self.words[..2]),
            _ => (&[], self.wires()),
        }
    }
}

/// The wires a gate of this kind has.
pub(super) fn arity(kind: u8) -> usize {
    KINDS[usize::from(kind)].wires
}

/// The gates backwards, each undone.
pub(super) fn mirror(ops: &[Op]) -> Vec<Op> {
    ops.iter().rev().map(|op| op.inverse()).collect()
}

/// The records of the gates.
pub(super) fn list_of(ops: &[Op]) -> Vec<u8> {
    let mut list = Vec::with_capacity(ops.len() * RECORD);
    for op in ops {
        records::push(&mut list, op.kind, op.words);
    }
    list
}

/// Gives the wires other names, by chance; a shape made by rule then still
/// differs from seed to seed.
pub(super) fn rename_wires(ops: &mut [Op], wires: usize, rng: &mut Rng) {
    let mut names: Vec<u32> = (0..wires as u32).collect();
    rng.shuffle(&mut names);
    for op in ops {
        for word in &mut op.words[..arity(op.kind)] {
            *word = names[*word as usize];
        }
    }
}
