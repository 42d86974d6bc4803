//! Records to gates and back, records to text and back, and what is refused.

use std::panic::catch_unwind;

use oracle::lists::{alphabet_three_wires, random};
use oracle::records::{self, KINDS, kind};
use oracle::{circuit::GateKind, notation};

#[test]
fn records_and_gates() {
    for seed in 0..2_000 {
        let list = random(seed).list;
        assert_eq!(records::encode(&records::decode(&list)), list);
    }
    let far = records::record(kind::CCX, [u32::MAX, 65_535, 0]);
    assert_eq!(records::encode(&records::decode(&far)), far);
}

#[test]
fn records_and_text() {
    for seed in 0..2_000 {
        let list = random(seed).list;
        assert_eq!(notation::parse(&notation::show(&list)), Ok(list));
    }
    let text = "h0 sdg11 cnot(0,1) measure(0,1) ccz(2,0,1) reset3 sx4 cswap(5,6,7)";
    assert_eq!(notation::show(&notation::parse(text).unwrap()), text);
    assert_eq!(notation::parse(""), Ok(Vec::new()));
    assert_eq!(notation::show(&[]), "");
}

#[test]
fn bytes_of_a_record() {
    let bytes = [10, 0, 0, 0, 1, 0, 0, 0, 2, 1, 0, 0, 3, 0, 1, 0];
    assert_eq!(notation::parse("ccx(1,258,65539)"), Ok(bytes.to_vec()));
    let mut list = Vec::new();
    records::push(&mut list, kind::CCX, [1, 258, 65_539]);
    assert_eq!(list, bytes);
}

/// Each letter's code, name and operand count against the published enum.
#[test]
fn table_agrees_with_the_enum() {
    let mut seen = [false; 27];
    for letter in alphabet_three_wires() {
        let row = KINDS[usize::from(letter[0])];
        let gate = records::decode(&letter).remove(0);
        let published = match gate.kind() {
            GateKind::Cx => "cnot",
            other => other.name(),
        };
        assert_eq!(row.name, published);
        assert_eq!(row.wires, oracle::circuit::qubit_operands(&gate).0);
        seen[usize::from(letter[0])] = true;
    }
    for (row, seen) in KINDS.iter().zip(seen) {
        assert_ne!(row.angle, seen, "{}", row.name);
    }
}

#[test]
fn refused_records() {
    let with = |at: usize, byte: u8| {
        let mut bytes = records::record(kind::CNOT, [0, 1, 0]);
        bytes[at] = byte;
        bytes
    };
    let bad = [
        with(0, kind::RZ),
        with(0, 27),
        with(0, 255),
        with(1, 1),
        with(3, 1),
        with(15, 1),
        with(4, 1),
        records::record(kind::CCZ, [4, 5, 4]),
        records::record(kind::MEASURE, [0, 0, 1]),
        records::record(kind::X, [0, 1, 0]),
    ];
    for bytes in bad {
        assert!(records::check(9, 9, &bytes).is_err(), "{bytes:?}");
        assert!(catch_unwind(|| records::decode(&bytes)).is_err());
        assert!(notation::show(&bytes).starts_with('?'));
    }
    let measure = records::record(kind::MEASURE, [3, 2, 0]);
    assert!(records::check(4, 3, &measure).is_ok());
    assert!(records::check(3, 3, &measure).is_err());
    assert!(records::check(4, 2, &measure).is_err());
    assert!(records::check(4, 3, &measure[..15]).is_err());
    assert!(catch_unwind(|| records::decode(&measure[..15])).is_err());
}

#[test]
fn refused_text() {
    for text in [
        "rz0",
        "q0",
        "h",
        "h(0)",
        "0",
        "cnot0",
        "cnot(0,0)",
        "cnot(0)",
        "cnot(0,1",
        "cnot(0,1,2)",
        "ccx(0,1)",
        "measure0",
        "h+1",
        "h00",
        "x4294967296",
        "cnot(0, 1)",
        "h0,h1",
    ] {
        assert!(notation::parse(text).is_err(), "{text}");
    }
}
