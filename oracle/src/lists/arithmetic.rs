//! Long lists that compute: ripple-carry adders and multipliers in GF(2^k).

use crate::records::kind::{CCX, CNOT, X};

use super::op::Op;
use super::rng::Rng;

/// Bits of one number in an adder.
const ADDER_WIDTH: u32 = 32;
/// Numbers the adders work on.
const ADDER_NUMBERS: u32 = 8;
/// All numbers, a carry in and a carry out.
pub(super) const ADDER_WIRES: usize = (ADDER_NUMBERS * ADDER_WIDTH + 2) as usize;

/// One number added to another or taken from it, over and over.
pub(super) fn adders(gates: usize, rng: &mut Rng) -> Vec<Op> {
    let mut ops = Vec::with_capacity(gates + 300);
    while ops.len() < gates {
        let [from, to, _] = rng.distinct(2, ADDER_NUMBERS as usize);
        // b - a is the complement of (the complement of b) + a.
        let subtract = rng.once_in(2);
        if subtract {
            complement(to, &mut ops);
        }
        add(from, to, &mut ops);
        if subtract {
            complement(to, &mut ops);
        }
    }
    ops.truncate(gates);
    ops
}

fn bit(number: u32, place: u32) -> u32 {
    number * ADDER_WIDTH + place
}

fn complement(number: u32, ops: &mut Vec<Op>) {
    ops.extend((0..ADDER_WIDTH).map(|place| Op::one(X, bit(number, place))));
}

/// The adder of Cuccaro and others: majorities up, carry out, and down again.
fn add(from: u32, to: u32, ops: &mut Vec<Op>) {
    let carry_in = ADDER_NUMBERS * ADDER_WIDTH;
    let carry_out = carry_in + 1;
    let below = |place: u32| match place {
        0 => carry_in,
        _ => bit(from, place - 1),
    };
    for place in 0..ADDER_WIDTH {
        let (carry, sum, carried) = (below(place), bit(to, place), bit(from, place));
        ops.push(Op::two(CNOT, carried, sum));
        ops.push(Op::two(CNOT, carried, carry));
        ops.push(Op::three(CCX, [carry, sum, carried]));
    }
    ops.push(Op::two(CNOT, bit(from, ADDER_WIDTH - 1), carry_out));
    for place in (0..ADDER_WIDTH).rev() {
        let (carry, sum, carried) = (below(place), bit(to, place), bit(from, place));
        ops.push(Op::three(CCX, [carry, sum, carried]));
        ops.push(Op::two(CNOT, carried, carry));
        ops.push(Op::two(CNOT, carry, sum));
    }
}

/// k of GF(2^k), with x^k = x^4 + x^3 + x + 1, the field of 64 bits.
const FIELD_WIDTH: usize = 64;
const FIELD_TAIL: u64 = 0b1_1011;
/// Numbers the multipliers work on; few, so that some products come again.
const FIELD_NUMBERS: usize = 10;
pub(super) const MULTIPLIER_WIRES: usize = FIELD_NUMBERS * FIELD_WIDTH;

/// The product of two numbers added to a third, over and over, ccx only.
pub(super) fn multipliers(gates: usize, rng: &mut Rng) -> Vec<Op> {
    let powers = reduced_powers();
    let mut ops = Vec::with_capacity(gates + 3 * FIELD_WIDTH * FIELD_WIDTH);
    while ops.len() < gates {
        let numbers = rng.distinct(3, FIELD_NUMBERS);
        let wire = |which: usize, place: usize| numbers[which] * FIELD_WIDTH as u32 + place as u32;
        for first in 0..FIELD_WIDTH {
            for second in 0..FIELD_WIDTH {
                let power = powers[first + second];
                for place in (0..FIELD_WIDTH).filter(|&place| power >> place & 1 == 1) {
                    let words = [wire(0, first), wire(1, second), wire(2, place)];
                    ops.push(Op::three(CCX, words));
                }
            }
        }
    }
    ops.truncate(gates);
    ops
}

/// x^0 to x^(2k-2), each as the sum of powers under k.
fn reduced_powers() -> Vec<u64> {
    let mut power = 1_u64;
    (0..2 * FIELD_WIDTH - 1)
        .map(|_| {
            let this = power;
            let carry = power >> (FIELD_WIDTH - 1) & 1;
            power = (power << 1) ^ (carry * FIELD_TAIL);
            this
        })
        .collect()
}
