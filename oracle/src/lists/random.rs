//! Short random lists in which much cancels.

use crate::records::kind::{CCX, CCZ, CNOT, CZ, H, MEASURE, RESET, X};

use super::Case;
use super::op::{ALL_KINDS, CANCELLING, Op, PHASES, arity, list_of, mirror};
use super::rng::Rng;

/// The pairs that may cancel over gates between.
const PAIRS: [u8; 4] = [CNOT, CZ, CCX, CCZ];

/// A list on 1 to 8 wires and 0 to 2 bits, of up to about 60 gates.
pub fn random(seed: u64) -> Case {
    let mut rng = Rng::new(seed);
    let wires = 1 + rng.below(8);
    let bits = rng.below(3);
    let length = rng.below(57);
    Maker::new(rng, wires, bits).filled(length).case()
}

/// A list on 2 to 5 wires and 1 or 2 bits, of up to 20 gates, most of them many:
/// on few wires nearly every gate meets another.
pub fn dense(seed: u64) -> Case {
    const LONGEST: usize = 20;
    let mut rng = Rng::new(seed);
    let wires = 2 + rng.below(4);
    let bits = 1 + rng.below(2);
    let length = 8 + rng.below(LONGEST - 7);
    let mut maker = Maker::new(rng, wires, bits).filled(length);
    maker.ops.truncate(LONGEST);
    maker.case()
}

struct Maker {
    rng: Rng,
    wires: usize,
    bits: usize,
    ops: Vec<Op>,
}

impl Maker {
    fn new(rng: Rng, wires: usize, bits: usize) -> Self {
        let ops = Vec::new();
        Self {
            rng,
            wires,
            bits,
            ops,
        }
    }

    /// With blocks up to a length or a little over it.
    fn filled(mut self, length: usize) -> Self {
        while self.ops.len() < length {
            self.add_block();
        }
        self.strew();
        self
    }

    fn case(self) -> Case {
        Case {
            wires: self.wires,
            bits: self.bits,
            list: list_of(&self.ops),
        }
    }

    fn add_block(&mut self) {
        match self.rng.below(14) {
            0..3 => self.mirrored_block(),
            3..6 => self.runs_between_h(),
            6..10 => self.pair_with_gates_between(),
            10..12 => self.nested_block(),
            12 => self.any_gates(),
            _ => self.measure_or_reset(),
        }
    }

    /// One of these kinds that fits on the wires.
    fn fitting(&mut self, kinds: &[u8]) -> Option<u8> {
        let fit: Vec<u8> = kinds
            .iter()
            .copied()
            .filter(|&kind| arity(kind) <= self.wires && (kind != MEASURE || self.bits > 0))
            .collect();
        (!fit.is_empty()).then(|| self.rng.pick(&fit))
    }

    fn gate(&mut self, kinds: &[u8]) -> Option<Op> {
        let kind = self.fitting(kinds)?;
        let mut op = Op::anywhere(kind, self.wires, &mut self.rng);
        if kind == MEASURE {
            op.words[1] = self.rng.below(self.bits) as u32;
        }
        Some(op)
    }

    fn any_gates(&mut self) {
        for _ in 0..1 + self.rng.below(4) {
            let op = self.gate(&ALL_KINDS);
            self.ops.extend(op);
        }
    }

    fn measure_or_reset(&mut self) {
        let op = self.gate(&[MEASURE, RESET]);
        self.ops.extend(op);
    }

    /// A block and its mirror, wires in another order, perhaps a gate between.
    fn mirrored_block(&mut self) {
        let kinds: &[u8] = match self.rng.below(3) {
            0 => &[H, PHASES[0], PHASES[1], PHASES[2], CNOT, CZ, X],
            _ => &CANCELLING,
        };
        let length = 1 + self.rng.below(5);
        let block: Vec<Op> = (0..length).filter_map(|_| self.gate(kinds)).collect();
        self.ops.extend(&block);
        if self.rng.once_in(2)
            && let Some(&last) = block.last()
        {
            self.gates_between(last);
        }
        for op in mirror(&block) {
            let rewritten = op.rewritten(&mut self.rng);
            self.ops.push(rewritten);
        }
    }

    /// One to three runs on a wire, the h between them shared.
    fn runs_between_h(&mut self) {
        let wire = self.rng.below(self.wires) as u32;
        for _ in 0..1 + self.rng.below(3) {
            self.ops.push(Op::one(H, wire));
            if self.rng.once_in(5) {
                self.ops.push(Op::one(X, wire));
            } else {
                self.run_of_phases(wire);
            }
        }
        if !self.rng.once_in(8) {
            self.ops.push(Op::one(H, wire));
        }
    }

    /// Phases on a wire, now and then a gate elsewhere among them.
    fn run_of_phases(&mut self, wire: u32) {
        for _ in 0..self.rng.below(5) {
            let kind = self.rng.pick(&PHASES);
            self.ops.push(Op::one(kind, wire));
            if self.rng.once_in(4) {
                let elsewhere = self.gate(&ALL_KINDS).filter(|op| !op.touches(wire));
                self.ops.extend(elsewhere);
            }
        }
    }

    /// A gate of two or three wires twice or thrice, with gates between.
    fn pair_with_gates_between(&mut self) {
        let Some(pair) = self.gate(&PAIRS) else {
            return self.runs_between_h();
        };
        self.ops.push(pair);
        for _ in 0..1 + usize::from(self.rng.once_in(4)) {
            self.gates_between(pair);
            let rewritten = pair.rewritten(&mut self.rng);
            self.ops.push(rewritten);
        }
    }

    /// Up to four gates, most of which share a wire with `pair` and commute.
    fn gates_between(&mut self, pair: Op) {
        for _ in 0..self.rng.below(5) {
            let between = match self.rng.below(10) {
                0 => self.gate(&ALL_KINDS),
                _ => self.commuting_gate(pair),
            };
            self.ops.extend(between);
        }
    }

    fn commuting_gate(&mut self, pair: Op) -> Option<Op> {
        let kinds: Vec<u8> = PHASES.into_iter().chain([X, X]).chain(PAIRS).collect();
        (0..16)
            .filter_map(|_| self.gate(&kinds))
            .find(|op| op.shares_wire(&pair) && op.commutes(&pair))
    }

    /// Gates around gates on one wire, where the outer can only go once the
    /// inner are gone: what one sweep does waits for what another did.
    fn nested_block(&mut self) {
        let wire = self.rng.below(self.wires) as u32;
        let mut closing = Vec::new();
        for _ in 0..2 + self.rng.below(3) {
            match self.pair_on(wire) {
                Some(pair) if self.rng.once_in(2) => {
                    self.ops.push(pair);
                    closing.push(pair.rewritten(&mut self.rng));
                }
                _ => {
                    let phase = Op::one(self.rng.pick(&PHASES), wire);
                    self.ops.extend([Op::one(H, wire), phase]);
                    closing.extend([Op::one(H, wire), phase.inverse()]);
                }
            }
        }
        self.ops.extend(closing.into_iter().rev());
    }

    fn pair_on(&mut self, wire: u32) -> Option<Op> {
        (0..16)
            .filter_map(|_| self.gate(&PAIRS))
            .find(|pair| pair.touches(wire))
    }

    /// Now and then puts up to three gates anywhere, so that blocks mix.
    fn strew(&mut self) {
        if !self.rng.once_in(3) {
            return;
        }
        for _ in 0..1 + self.rng.below(3) {
            if let Some(op) = self.gate(&ALL_KINDS) {
                let place = self.rng.below(self.ops.len() + 1);
                self.ops.insert(place, op);
            }
        }
    }
}
