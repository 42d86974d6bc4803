//! The published Rust pass, unchanged, behind lists of records, with lists to try it on.

// The published text and what it needs under the names it uses.
mod cancel;
pub mod circuit;
mod pass;
mod steps;

// Stand-ins for what is not in the text given, each under its published name.
#[path = "stand_in/angle.rs"]
mod angle;
#[path = "stand_in/angle_stats.rs"]
mod angle_stats;
#[path = "stand_in/qasm.rs"]
mod qasm;
#[path = "stand_in/rustc_hash.rs"]
mod rustc_hash;
#[path = "stand_in/symbolic_angle.rs"]
mod symbolic_angle;

pub mod lists;
pub mod notation;
pub mod records;

pub use cancel::Round;
pub use steps::Steps;

use circuit::Circuit;
use pass::Pass;

/// The list that comes out and the gates examined by commuting walks.
#[derive(Clone, PartialEq, Eq, Debug)]
pub struct Answer {
    pub list: Vec<u8>,
    pub walked: u64,
}

/// The pass on valid records, through a copy of its loop that shows `walked`.
pub fn run(wires: usize, bits: usize, list: &[u8]) -> Answer {
    let (output, walked) = cancel::run_counted(&circuit_of(wires, bits, list));
    Answer {
        list: records::encode(output.gates()),
        walked,
    }
}

/// The pass on valid records, by its own public entry.
pub fn run_untouched(wires: usize, bits: usize, list: &[u8]) -> Vec<u8> {
    let output = cancel::CancelGates.run(&circuit_of(wires, bits, list));
    records::encode(output.gates())
}

/// What fired in each round of the pass on valid records; nothing in the last.
pub fn rounds(wires: usize, bits: usize, list: &[u8]) -> Vec<Round> {
    let mut rounds = Vec::new();
    cancel::run_in_rounds(&circuit_of(wires, bits, list), |round| rounds.push(round));
    rounds
}

/// The same answer by a copy of the text that counts, and the steps that a
/// journal of the pass has on valid records.
pub fn run_with_steps(wires: usize, bits: usize, list: &[u8]) -> (Answer, Steps) {
    let (output, walked, steps) = steps::run_with_steps(&circuit_of(wires, bits, list));
    let list = records::encode(output.gates());
    (Answer { list, walked }, steps)
}

/// Built in place: `decode` has already looked for a wire named twice.
fn circuit_of(wires: usize, bits: usize, list: &[u8]) -> Circuit {
    Circuit {
        num_qubits: wires,
        num_cbits: bits,
        gates: records::decode(list),
    }
}
