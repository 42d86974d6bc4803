//! The published `cancel` once more, in a copy that also counts, for the number of journal steps.

#![allow(
    dead_code,
    reason = "the copy has an entry of its own, and it is not used"
)]

use std::cell::Cell;

// The text names this crate by its bare name.
use crate::rustc_hash;

// As compiled in `cancel`, with `count_firing();` after each firing of a Hadamard sweep.
include!(concat!(env!("OUT_DIR"), "/cancel_counting.rs"));

thread_local! {
    static FIRINGS: Cell<u64> = const { Cell::new(0) };
}

fn count_firing() {
    FIRINGS.set(FIRINGS.get() + 1);
}

/// The steps that a journal of the pass has, by the sweeps that write them.
#[derive(Clone, Copy, Default, PartialEq, Eq, Debug)]
pub struct Steps {
    pub pair: u64,
    pub hadamard: u64,
    pub commuting: u64,
}

impl Steps {
    pub fn all(&self) -> u64 {
        self.pair + self.hadamard + self.commuting
    }
}

/// A step of the pair and the commuting sweep takes out two gates.
fn pairs_gone(before: usize, after: usize) -> u64 {
    assert!(before >= after && (before - after).is_multiple_of(2));
    ((before - after) / 2) as u64
}

/// A copy of `CancelGates::run_with_state` without what it does for angles: the
/// result, the counter `walked`, and the steps.
pub fn run_with_steps(circuit: &Circuit) -> (Circuit, u64, Steps) {
    let mut steps = Steps::default();
    let mut scratch = Scratch::new(circuit.num_qubits, circuit.gates.len());
    FIRINGS.set(0);
    let mut gates = cancel_pairs(&circuit.gates, &mut scratch);
    steps.pair += pairs_gone(circuit.gates.len(), gates.len());
    loop {
        let (reduced, reduce_changed) = reduce_hadamards(gates, &mut scratch);
        let before = reduced.len();
        let (pair_reduced, pair_changed) = cancel_commuting_pairs(reduced, &mut scratch);
        steps.commuting += pairs_gone(before, pair_reduced.len());
        let before = pair_reduced.len();
        gates = cancel_pairs(&pair_reduced, &mut scratch);
        scratch.spare = pair_reduced;
        steps.pair += pairs_gone(before, gates.len());
        let cancel_changed = gates.len() != before;
        if !reduce_changed && !pair_changed && !cancel_changed {
            break;
        }
    }
    steps.hadamard = FIRINGS.get();
    let mut output = circuit.empty_like();
    for gate in gates {
        output.apply(gate);
    }
    (output, scratch.walked as u64, steps)
}
