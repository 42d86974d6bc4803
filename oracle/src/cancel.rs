//! The published `cancel`, unchanged, with a way to its private counter.

// The text names this crate by its bare name.
use crate::rustc_hash;

include!(concat!(env!("OUT_DIR"), "/cancel.rs"));

/// What fired in one round of the loop.
#[derive(Clone, Copy, PartialEq, Eq, Debug)]
pub struct Round {
    /// Hadamard sweeps that changed the list.
    pub hadamard: u32,
    /// Commuting sweeps that changed the list.
    pub commuting: u32,
    /// Whether the closing pair sweep changed the list.
    pub pair: bool,
}

/// The result of the pass and its private counter `walked`.
pub fn run_counted(circuit: &Circuit) -> (Circuit, u64) {
    run_in_rounds(circuit, |_| ())
}

/// A copy of `CancelGates::run_with_state`, the same calls in the same order,
/// as the text keeps its counter to itself. It also tells of each round; a
/// sweep that finds nothing ends its repetition, hence the `- 1`.
pub fn run_in_rounds(circuit: &Circuit, mut each: impl FnMut(Round)) -> (Circuit, u64) {
    let mut state = PassState::default();
    let lowered = crate::angle::lowered_if_needed(circuit);
    let circuit = &lowered;
    let n = circuit.num_qubits;
    let mut scratch = Scratch::new(n, circuit.gates.len());
    std::mem::swap(&mut scratch.angles, &mut state.angles);
    let mut gates = cancel_pairs(&circuit.gates, &mut scratch);
    loop {
        let start = scratch.stamp;
        let (reduced, reduce_changed) = reduce_hadamards(gates, &mut scratch);
        let middle = scratch.stamp;
        let (pair_reduced, pair_changed) = cancel_commuting_pairs(reduced, &mut scratch);
        let end = scratch.stamp;
        let before = pair_reduced.len();
        gates = cancel_pairs(&pair_reduced, &mut scratch);
        scratch.spare = pair_reduced;
        let cancel_changed = gates.len() != before;
        each(Round {
            hadamard: middle - start - 1,
            commuting: end - middle - 1,
            pair: cancel_changed,
        });
        if !reduce_changed && !pair_changed && !cancel_changed {
            break;
        }
    }
    let mut output = circuit.empty_like();
    for gate in gates {
        output.apply(gate);
    }
    std::mem::swap(&mut scratch.angles, &mut state.angles);
    (output, scratch.walked as u64)
}
