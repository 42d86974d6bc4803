//! All short lists over an alphabet of gates.

use crate::records::kind::{CCX, CCZ, CH, CNOT, CSWAP, CY, CZ, SWAP};
use crate::records::{RECORD, record};

use super::op::{ALL_KINDS, arity};

type Letter = [u8; RECORD];

/// Every list of so many letters, in the order of a counter whose last place
/// moves fastest.
pub fn all_short(alphabet: &[Letter], length: usize) -> impl Iterator<Item = Vec<u8>> {
    let mut next = (length == 0 || !alphabet.is_empty()).then(|| vec![0; length]);
    std::iter::from_fn(move || {
        let digits = next.take()?;
        let list = digits.iter().flat_map(|&at| alphabet[at]).collect();
        next = counted_up(digits, alphabet.len());
        Some(list)
    })
}

fn counted_up(mut digits: Vec<usize>, base: usize) -> Option<Vec<usize>> {
    let place = digits.iter().rposition(|&digit| digit + 1 < base)?;
    digits[place] += 1;
    digits[place + 1..].fill(0);
    Some(digits)
}

/// Every kind of one wire, for 1 wire and 1 bit.
pub fn alphabet_one_wire() -> Vec<Letter> {
    on_each_wire(1)
}

/// Every kind of one or two wires, for 2 wires and 1 bit; both orders except
/// for swap, which no rule looks into.
pub fn alphabet_two_wires() -> Vec<Letter> {
    let mut letters = on_each_wire(2);
    for kind in [CNOT, CZ, CY, CH] {
        letters.push(record(kind, [0, 1, 0]));
        letters.push(record(kind, [1, 0, 0]));
    }
    letters.push(record(SWAP, [0, 1, 0]));
    letters
}

/// Every kind, for 3 wires and 1 bit: all orders of cnot, cz and ccx, three of
/// ccz, and enough of the kinds that only ever block to block on every wire.
pub fn alphabet_three_wires() -> Vec<Letter> {
    let turns = [[0, 1, 2], [1, 2, 0], [2, 0, 1]];
    let flips = [[0, 2, 1], [1, 0, 2], [2, 1, 0]];
    let pair = |words: [u32; 3]| [words[0], words[1], 0];
    let mut letters = on_each_wire(3);
    for words in turns.into_iter().chain(flips) {
        letters.push(record(CNOT, pair(words)));
        letters.push(record(CZ, pair(words)));
        letters.push(record(CCX, words));
    }
    for words in turns {
        letters.push(record(CCZ, words));
        letters.push(record(CSWAP, words));
        for kind in [SWAP, CY, CH] {
            letters.push(record(kind, pair(words)));
        }
    }
    letters
}

/// The kinds of one wire on each wire; measures all write bit 0.
fn on_each_wire(wires: u32) -> Vec<Letter> {
    let kinds = || ALL_KINDS.into_iter().filter(|&kind| arity(kind) == 1);
    (0..wires)
        .flat_map(|wire| kinds().map(move |kind| record(kind, [wire, 0, 0])))
        .collect()
}
