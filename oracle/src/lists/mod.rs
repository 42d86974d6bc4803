//! Lists to try the pass on: the same seed gives the same list, everywhere.

mod arithmetic;
mod family;
mod layered;
mod long;
mod op;
mod random;
pub mod rng;
mod short;
pub mod small;

pub use family::Family;
pub use random::{dense, random};
pub use short::{all_short, alphabet_one_wire, alphabet_three_wires, alphabet_two_wires};

/// A valid list with the numbers of wires and classical bits it is valid on.
#[derive(Clone, PartialEq, Eq, Debug)]
pub struct Case {
    pub wires: usize,
    pub bits: usize,
    pub list: Vec<u8>,
}
