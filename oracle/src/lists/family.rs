//! The families of long lists, for tests and for times.

use crate::records::LIMIT;
use crate::records::kind::H;

use super::op::{Op, list_of};
use super::rng::Rng;
use super::{Case, arithmetic, layered, long};

/// A way to make a long list.
#[derive(Clone, Copy, PartialEq, Eq, Debug)]
pub enum Family {
    CliffordT64,
    CliffordT512,
    CliffordT4096,
    MirroredCliffordT,
    CircuitAndMirror,
    Adder,
    AddThenSubtract,
    Multiplier,
    FanOut,
    FanOutBlocked,
    RunsBetweenH,
    AllH,
    AllKinds,
    LayerARound,
    LayerAHadamardSweep,
    LayerACommutingSweep,
}

/// The wires of families that leave them open.
const WIRES: usize = 64;
/// The wires of the list of all kinds, and its bits.
const ALL_KINDS_WIRES: usize = 256;
/// The most gates of a fan-out: its walks grow with the square.
const FAN_OUT_LIMIT: usize = 20_000;

impl Family {
    pub const ALL: [Family; 16] = [
        Family::CliffordT64,
        Family::CliffordT512,
        Family::CliffordT4096,
        Family::MirroredCliffordT,
        Family::CircuitAndMirror,
        Family::Adder,
        Family::AddThenSubtract,
        Family::Multiplier,
        Family::FanOut,
        Family::FanOutBlocked,
        Family::RunsBetweenH,
        Family::AllH,
        Family::AllKinds,
        Family::LayerARound,
        Family::LayerAHadamardSweep,
        Family::LayerACommutingSweep,
    ];

    pub fn name(self) -> &'static str {
        match self {
            Family::CliffordT64 => "random Clifford+T, 64 wires",
            Family::CliffordT512 => "random Clifford+T, 512 wires",
            Family::CliffordT4096 => "random Clifford+T, 4096 wires",
            Family::MirroredCliffordT => "mirrored Clifford+T",
            Family::CircuitAndMirror => "circuit and mirror",
            Family::Adder => "adder",
            Family::AddThenSubtract => "add then subtract",
            Family::Multiplier => "multiplier",
            Family::FanOut => "fan-out",
            Family::FanOutBlocked => "fan-out blocked",
            Family::RunsBetweenH => "runs between h",
            Family::AllH => "all h",
            Family::AllKinds => "all kinds",
            Family::LayerARound => "one layer a round",
            Family::LayerAHadamardSweep => "one layer a Hadamard sweep",
            Family::LayerACommutingSweep => "one layer a commuting sweep",
        }
    }

    /// The most gates this family is made with: 20,000 for the fan-outs.
    pub fn largest(self) -> usize {
        match self {
            Family::FanOut | Family::FanOutBlocked => FAN_OUT_LIMIT,
            _ => LIMIT,
        }
    }

    /// A list of `gates` gates or up to 3 in 100 less, and never over `largest`.
    pub fn make(self, gates: usize, seed: u64) -> Case {
        let gates = gates.min(self.largest());
        let mut rng = Rng::new(seed);
        let (wires, ops) = self.ops(gates, &mut rng);
        let bits = match self {
            Family::AllKinds => ALL_KINDS_WIRES,
            _ => 0,
        };
        Case {
            wires,
            bits,
            list: list_of(&ops),
        }
    }

    /// The wires and the gates.
    fn ops(self, gates: usize, rng: &mut Rng) -> (usize, Vec<Op>) {
        match self {
            Family::CliffordT64 => (64, long::clifford_t(gates, 64, rng)),
            Family::CliffordT512 => (512, long::clifford_t(gates, 512, rng)),
            Family::CliffordT4096 => (4096, long::clifford_t(gates, 4096, rng)),
            Family::MirroredCliffordT => (WIRES, long::mirrored_clifford_t(gates, WIRES, rng)),
            Family::CircuitAndMirror => (WIRES, long::circuit_and_mirror(gates, WIRES, rng)),
            Family::Adder => (arithmetic::ADDER_WIRES, arithmetic::adders(gates, rng)),
            Family::AddThenSubtract => {
                let add = arithmetic::adders(gates / 2, rng);
                (arithmetic::ADDER_WIRES, long::with_mirror(add))
            }
            Family::Multiplier => {
                let multiply = arithmetic::multipliers(gates, rng);
                (arithmetic::MULTIPLIER_WIRES, multiply)
            }
            Family::FanOut => (long::fan_out_wires(gates), long::fan_out(gates, rng)),
            Family::FanOutBlocked => {
                let wires = long::fan_out_blocked_wires(gates);
                (wires, long::fan_out_blocked(gates, rng))
            }
            Family::RunsBetweenH => (WIRES, long::runs_between_h(gates, WIRES, rng)),
            Family::AllH => (WIRES, long::gates_of(&[H], gates, WIRES, rng)),
            Family::AllKinds => {
                let wires = ALL_KINDS_WIRES;
                (wires, long::all_kinds(gates, wires, wires, rng))
            }
            Family::LayerARound => nests(&layered::ROUND, gates, rng),
            Family::LayerAHadamardSweep => nests(&layered::HADAMARD, gates, rng),
            Family::LayerACommutingSweep => nests(&layered::COMMUTING, gates, rng),
        }
    }
}

fn nests(nest: &layered::Nest, gates: usize, rng: &mut Rng) -> (usize, Vec<Op>) {
    (nest.wires(gates), nest.make(gates, rng))
}
