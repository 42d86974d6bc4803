//! Long lists of nested layers, of which one sweep can take off only the innermost.

use crate::records::kind::{CCX, CNOT, H, T, TDG, X};

use super::op::{Op, rename_wires};
use super::rng::Rng;

/// Layers of one nest. Each takes a sweep over all gates, so many nests side
/// by side make a list long, and not more layers.
const LAYERS: usize = 24;

/// What one nest is made of, on wires counted from its first.
pub(super) struct Nest {
    wires: usize,
    /// The gates that open and close a layer, by its number from outside.
    open: fn(usize) -> Vec<Op>,
    close: fn(usize) -> Vec<Op>,
    /// The gates in the middle.
    heart: fn() -> Vec<Op>,
}

/// h t .. tdg h: a Hadamard sweep only takes out the innermost.
pub(super) const HADAMARD: Nest = Nest {
    wires: 1,
    open: |_| vec![Op::one(H, 0), Op::one(T, 0)],
    close: |_| vec![Op::one(TDG, 0), Op::one(H, 0)],
    heart: Vec::new,
};

/// cnots around each other, each reading what the next inner one flips or the
/// other way round: a commuting sweep only takes out the innermost.
pub(super) const COMMUTING: Nest = Nest {
    wires: 3,
    open: |layer| vec![crossed(layer)],
    close: |layer| vec![crossed(layer)],
    heart: || {
        let inner = Op::three(CCX, [0, 1, 2]);
        vec![inner, Op::one(X, 2), inner]
    },
};

/// h t cnot .. x cnot tdg h: the commuting sweep takes the innermost cnots, the
/// pair sweep the x they held, and only the next round the h around them.
pub(super) const ROUND: Nest = Nest {
    wires: 2,
    open: |_| vec![Op::one(H, 0), Op::one(T, 0), Op::two(CNOT, 0, 1)],
    close: |_| {
        let x = Op::one(X, 1);
        vec![x, Op::two(CNOT, 0, 1), Op::one(TDG, 0), Op::one(H, 0)]
    },
    heart: Vec::new,
};

fn crossed(layer: usize) -> Op {
    match layer % 2 {
        0 => Op::two(CNOT, 0, 1),
        _ => Op::two(CNOT, 1, 0),
    }
}

impl Nest {
    /// The gates of a nest of so many layers.
    fn size(&self, layers: usize) -> usize {
        let layer = (self.open)(0).len() + (self.close)(0).len();
        layers * layer + (self.heart)().len()
    }

    /// How deep each nest is: full ones, then one that fills up what is left.
    fn depths(&self, gates: usize) -> Vec<usize> {
        let mut depths = vec![LAYERS; gates / self.size(LAYERS)];
        let left = gates % self.size(LAYERS);
        let last = (0..LAYERS).rev().find(|&layers| self.size(layers) <= left);
        depths.extend(last.filter(|&layers| layers > 0));
        depths
    }

    /// The wires a list of so many gates has.
    pub(super) fn wires(&self, gates: usize) -> usize {
        self.wires * self.depths(gates).len().max(1)
    }

    /// Nests side by side, written layer by layer over all of them.
    pub(super) fn make(&self, gates: usize, rng: &mut Rng) -> Vec<Op> {
        let depths = self.depths(gates);
        let mut ops = Vec::with_capacity(gates);
        let mut put = |nest: usize, gates: Vec<Op>| {
            let base = (nest * self.wires) as u32;
            ops.extend(gates.into_iter().map(|op| moved(op, base)));
        };
        for layer in 0..LAYERS {
            for nest in (0..depths.len()).filter(|&nest| layer < depths[nest]) {
                put(nest, (self.open)(layer));
            }
        }
        for nest in 0..depths.len() {
            put(nest, (self.heart)());
        }
        for layer in (0..LAYERS).rev() {
            for nest in (0..depths.len()).filter(|&nest| layer < depths[nest]) {
                put(nest, (self.close)(layer));
            }
        }
        let wires = self.wires(gates);
        rename_wires(&mut ops, wires, rng);
        ops
    }
}

/// The gate on wires that start at `base`.
fn moved(op: Op, base: u32) -> Op {
    let mut words = op.words;
    let count = op.wires().len();
    words[..count].iter_mut().for_each(|word| *word += base);
    Op { words, ..op }
}
