//! What the published text does where our numbers 10, 11 and 12 refuse.

use std::panic::catch_unwind;

use oracle::circuit::{Circuit, Gate};
use oracle::records::{kind, record};
use oracle::run_untouched;

#[test]
fn a_wire_out_of_range_panics() {
    let list = record(kind::H, [5, 0, 0]).to_vec();
    assert!(catch_unwind(|| run_untouched(1, 0, &list)).is_err());
    assert_eq!(run_untouched(6, 0, &list), list);
}

#[test]
fn a_wire_twice_makes_no_circuit() {
    let gate = |target| Gate::cnot { control: 1, target };
    assert!(Circuit::from_gates(2, 0, vec![gate(1)]).is_err());
    assert!(Circuit::from_gates(2, 0, vec![gate(0)]).is_ok());
}

/// No part of the published text looks at a classical bit.
#[test]
fn a_bit_out_of_range_is_passed() {
    let list = record(kind::MEASURE, [0, 7, 0]).to_vec();
    assert_eq!(run_untouched(1, 1, &list), list);
}
