//! Long lists by chance: Clifford+T, mirrors, runs, fan-out, all h, all kinds.

use crate::records::kind::{CNOT, CZ, H, MEASURE, S, SDG, T, TDG, X, Z};

use super::op::{ALL_KINDS, CANCELLING, Op, PHASES, mirror, rename_wires};
use super::rng::Rng;

/// Random gates of these kinds, not measure.
pub(super) fn gates_of(kinds: &[u8], gates: usize, wires: usize, rng: &mut Rng) -> Vec<Op> {
    (0..gates)
        .map(|_| {
            let kind = rng.pick(kinds);
            Op::anywhere(kind, wires, rng)
        })
        .collect()
}

/// A random circuit of Clifford gates and T, as often met: most are cnot, h, t.
pub(super) fn clifford_t(gates: usize, wires: usize, rng: &mut Rng) -> Vec<Op> {
    let kinds = [
        CNOT, CNOT, CNOT, CNOT, CZ, H, H, H, T, T, TDG, TDG, S, SDG, X, Z,
    ];
    gates_of(&kinds, gates, wires, rng)
}

/// A random circuit of Clifford gates and T, then its inverse backwards.
pub(super) fn mirrored_clifford_t(gates: usize, wires: usize, rng: &mut Rng) -> Vec<Op> {
    with_mirror(clifford_t(gates / 2, wires, rng))
}

/// A random circuit of gates that undo themselves, then the same backwards.
pub(super) fn circuit_and_mirror(gates: usize, wires: usize, rng: &mut Rng) -> Vec<Op> {
    with_mirror(gates_of(&CANCELLING, gates / 2, wires, rng))
}

/// The gates, then their inverses backwards.
pub(super) fn with_mirror(mut ops: Vec<Op>) -> Vec<Op> {
    let back = mirror(&ops);
    ops.extend(back);
    ops
}

/// On each wire h, a run of phases, h, a run, and so on.
pub(super) fn runs_between_h(gates: usize, wires: usize, rng: &mut Rng) -> Vec<Op> {
    let mut ops = Vec::with_capacity(gates + 6);
    while ops.len() < gates {
        let wire = rng.below(wires) as u32;
        ops.push(Op::one(H, wire));
        for _ in 0..1 + rng.below(6) {
            ops.push(Op::one(rng.pick(&PHASES), wire));
        }
    }
    ops.truncate(gates);
    ops
}

/// All nineteen kinds, cancelling ones as often as the rest together.
pub(super) fn all_kinds(gates: usize, wires: usize, bits: usize, rng: &mut Rng) -> Vec<Op> {
    (0..gates)
        .map(|_| {
            let cancelling = rng.once_in(2);
            let kind = rng.pick(if cancelling {
                &CANCELLING
            } else {
                &ALL_KINDS[..]
            });
            let mut op = Op::anywhere(kind, wires, rng);
            if kind == MEASURE {
                op.words[1] = rng.below(bits) as u32;
            }
            op
        })
        .collect()
}

/// The wires of a fan-out of so many gates: the control and a target a pair.
pub(super) fn fan_out_wires(gates: usize) -> usize {
    1 + gates * 4 / 9
}

/// A cnot from wire 0 to each other wire, then phases on the control and x on
/// targets, which pass, then the cnots again in another order. All cnots go.
pub(super) fn fan_out(gates: usize, rng: &mut Rng) -> Vec<Op> {
    let wires = fan_out_wires(gates);
    let between = (0..gates - 2 * (wires - 1))
        .map(|_| match rng.below(2) {
            0 if wires > 1 => Op::one(X, 1 + rng.below(wires - 1) as u32),
            _ => Op::one(rng.pick(&PHASES), 0),
        })
        .collect();
    fan_out_around(wires, between, rng)
}

/// The wires of a blocked fan-out of so many gates.
pub(super) fn fan_out_blocked_wires(gates: usize) -> usize {
    1 + gates.saturating_sub(1) / 2
}

/// The same with one x on the control between: each walk goes over all cnots
/// before it is blocked, and none goes.
pub(super) fn fan_out_blocked(gates: usize, rng: &mut Rng) -> Vec<Op> {
    let between = vec![Op::one(X, 0); gates.min(1)];
    fan_out_around(fan_out_blocked_wires(gates), between, rng)
}

fn fan_out_around(wires: usize, between: Vec<Op>, rng: &mut Rng) -> Vec<Op> {
    let mut targets: Vec<u32> = (1..wires as u32).collect();
    let mut ops: Vec<Op> = targets.iter().map(|&to| Op::two(CNOT, 0, to)).collect();
    ops.extend(between);
    rng.shuffle(&mut targets);
    ops.extend(targets.iter().map(|&to| Op::two(CNOT, 0, to)));
    rename_wires(&mut ops, wires, rng);
    ops
}
