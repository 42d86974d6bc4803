//! Lists as 16-byte records, and the one table of kinds they are written with.

use crate::circuit::Gate;

/// The bytes of one record.
pub const RECORD: usize = 16;
/// The most records a list may have.
pub const LIMIT: usize = 1_048_576;

/// Kind codes, in the order of the enum `Gate`.
pub mod kind {
    pub const X: u8 = 0;
    pub const H: u8 = 1;
    pub const S: u8 = 2;
    pub const SDG: u8 = 3;
    pub const Z: u8 = 4;
    pub const T: u8 = 5;
    pub const TDG: u8 = 6;
    pub const RZ: u8 = 7;
    pub const CNOT: u8 = 8;
    pub const CZ: u8 = 9;
    pub const CCX: u8 = 10;
    pub const CCZ: u8 = 11;
    pub const MEASURE: u8 = 12;
    pub const RESET: u8 = 13;
    pub const P: u8 = 14;
    pub const Y: u8 = 15;
    pub const SX: u8 = 16;
    pub const RX: u8 = 17;
    pub const RY: u8 = 18;
    pub const SWAP: u8 = 19;
    pub const CY: u8 = 20;
    pub const CP: u8 = 21;
    pub const CRX: u8 = 22;
    pub const CRY: u8 = 23;
    pub const CRZ: u8 = 24;
    pub const CH: u8 = 25;
    pub const CSWAP: u8 = 26;
}

/// One row of the table of kinds.
#[derive(Clone, Copy, Debug)]
pub struct Kind {
    pub name: &'static str,
    pub wires: usize,
    /// Whether the kind carries an angle, which no record here can.
    pub angle: bool,
}

const fn plain(name: &'static str, wires: usize) -> Kind {
    let angle = false;
    Kind { name, wires, angle }
}

const fn turned(name: &'static str, wires: usize) -> Kind {
    let angle = true;
    Kind { name, wires, angle }
}

/// Name and operand count of each kind, by its code.
pub const KINDS: [Kind; 27] = [
    plain("x", 1),
    plain("h", 1),
    plain("s", 1),
    plain("sdg", 1),
    plain("z", 1),
    plain("t", 1),
    plain("tdg", 1),
    turned("rz", 1),
    plain("cnot", 2),
    plain("cz", 2),
    plain("ccx", 3),
    plain("ccz", 3),
    plain("measure", 1),
    plain("reset", 1),
    turned("p", 1),
    plain("y", 1),
    plain("sx", 1),
    turned("rx", 1),
    turned("ry", 1),
    plain("swap", 2),
    plain("cy", 2),
    turned("cp", 2),
    turned("crx", 2),
    turned("cry", 2),
    turned("crz", 2),
    plain("ch", 2),
    plain("cswap", 3),
];

/// The words a kind uses: its wires, and for measure the classical bit.
pub fn words_used(code: u8) -> usize {
    KINDS[usize::from(code)].wires + usize::from(code == kind::MEASURE)
}

/// Appends one record.
pub fn push(list: &mut Vec<u8>, kind: u8, words: [u32; 3]) {
    list.extend_from_slice(&record(kind, words));
}

/// One record by itself.
#[inline]
pub fn record(kind: u8, words: [u32; 3]) -> [u8; RECORD] {
    let mut bytes = [0; RECORD];
    bytes[0] = kind;
    for (place, word) in bytes[4..].chunks_exact_mut(4).zip(words) {
        place.copy_from_slice(&word.to_le_bytes());
    }
    bytes
}

/// The whole records of a list.
pub fn each(list: &[u8]) -> &[[u8; RECORD]] {
    list.as_chunks().0
}

/// Kind and words of one record.
#[inline]
pub fn parts(record: &[u8; RECORD]) -> (u8, [u32; 3]) {
    let [kind, _, _, _, words @ ..] = record;
    let word = |at: usize| u32::from_le_bytes(words.as_chunks().0[at]);
    (*kind, [word(0), word(1), word(2)])
}

/// Why a record is no valid angle-free gate, wires and bits of any size.
#[inline]
pub fn fault(record: &[u8; RECORD]) -> Option<&'static str> {
    let (code, [a, b, c]) = parts(record);
    let Some(row) = KINDS.get(usize::from(code)) else {
        return Some("no such kind");
    };
    if row.angle {
        return Some("the kind carries an angle");
    }
    let used = words_used(code);
    if record[1..4] != [0; 3] || (used < 2 && b != 0) || (used < 3 && c != 0) {
        return Some("byte 1 to 3 or an unused word is not zero");
    }
    if (row.wires > 1 && a == b) || (row.wires > 2 && (a == c || b == c)) {
        return Some("a wire twice");
    }
    None
}

/// Whether a list is valid on so many wires and bits, and if not, where and why.
pub fn check(wires: usize, bits: usize, list: &[u8]) -> Result<(), String> {
    if !list.len().is_multiple_of(RECORD) {
        return Err(format!("{} bytes are no multiple of 16", list.len()));
    }
    if list.len() / RECORD > LIMIT {
        return Err(format!("{} records are too many", list.len() / RECORD));
    }
    for (place, record) in each(list).iter().enumerate() {
        if let Some(fault) = fault(record) {
            return Err(format!("record {place}: {fault}"));
        }
        let (code, words) = parts(record);
        let used = &words[..KINDS[usize::from(code)].wires];
        if used.iter().any(|&wire| wire as usize >= wires) {
            return Err(format!("record {place}: no such wire"));
        }
        if code == kind::MEASURE && words[1] as usize >= bits {
            return Err(format!("record {place}: no such bit"));
        }
    }
    Ok(())
}

/// The records of gates without angles; panics on one with an angle.
pub fn encode(gates: &[Gate]) -> Vec<u8> {
    let records: Vec<[u8; RECORD]> = gates.iter().map(record_of).collect();
    records.into_flattened()
}

/// The gates of valid angle-free records; panics on any other bytes.
pub fn decode(list: &[u8]) -> Vec<Gate> {
    assert!(
        list.len().is_multiple_of(RECORD),
        "{} bytes are no multiple of 16",
        list.len()
    );
    let records = each(list).iter().enumerate();
    records
        .map(|(place, record)| match fault(record) {
            None => gate_of(record),
            Some(fault) => panic!("record {place}: {fault}"),
        })
        .collect()
}

#[inline]
fn gate_of(record: &[u8; RECORD]) -> Gate {
    let (code, [a, b, c]) = parts(record);
    let (control, target) = (a, b);
    match code {
        kind::X => Gate::x(a),
        kind::H => Gate::h(a),
        kind::S => Gate::s(a),
        kind::SDG => Gate::sdg(a),
        kind::Z => Gate::z(a),
        kind::T => Gate::t(a),
        kind::TDG => Gate::tdg(a),
        kind::CNOT => Gate::cnot { control, target },
        kind::CZ => Gate::cz { control, target },
        kind::CCX => Gate::ccx {
            control1: a,
            control2: b,
            target: c,
        },
        kind::CCZ => Gate::ccz {
            control1: a,
            control2: b,
            target: c,
        },
        kind::MEASURE => Gate::measure { qubit: a, cbit: b },
        kind::RESET => Gate::reset(a),
        kind::Y => Gate::y(a),
        kind::SX => Gate::sx(a),
        kind::SWAP => Gate::swap(a, b),
        kind::CY => Gate::cy { control, target },
        kind::CH => Gate::ch { control, target },
        kind::CSWAP => Gate::cswap {
            control: a,
            first: b,
            second: c,
        },
        _ => unreachable!("kind {code} was refused before"),
    }
}

#[inline]
fn record_of(gate: &Gate) -> [u8; RECORD] {
    let (kind, words) = match *gate {
        Gate::x(a) => (kind::X, [a, 0, 0]),
        Gate::h(a) => (kind::H, [a, 0, 0]),
        Gate::s(a) => (kind::S, [a, 0, 0]),
        Gate::sdg(a) => (kind::SDG, [a, 0, 0]),
        Gate::z(a) => (kind::Z, [a, 0, 0]),
        Gate::t(a) => (kind::T, [a, 0, 0]),
        Gate::tdg(a) => (kind::TDG, [a, 0, 0]),
        Gate::cnot { control, target } => (kind::CNOT, [control, target, 0]),
        Gate::cz { control, target } => (kind::CZ, [control, target, 0]),
        Gate::ccx {
            control1,
            control2,
            target,
        } => (kind::CCX, [control1, control2, target]),
        Gate::ccz {
            control1,
            control2,
            target,
        } => (kind::CCZ, [control1, control2, target]),
        Gate::measure { qubit, cbit } => (kind::MEASURE, [qubit, cbit, 0]),
        Gate::reset(a) => (kind::RESET, [a, 0, 0]),
        Gate::y(a) => (kind::Y, [a, 0, 0]),
        Gate::sx(a) => (kind::SX, [a, 0, 0]),
        Gate::swap(a, b) => (kind::SWAP, [a, b, 0]),
        Gate::cy { control, target } => (kind::CY, [control, target, 0]),
        Gate::ch { control, target } => (kind::CH, [control, target, 0]),
        Gate::cswap {
            control,
            first,
            second,
        } => (kind::CSWAP, [control, first, second]),
        Gate::rz(..)
        | Gate::p(..)
        | Gate::rx(..)
        | Gate::ry(..)
        | Gate::cp { .. }
        | Gate::crx { .. }
        | Gate::cry { .. }
        | Gate::crz { .. } => panic!("a gate with an angle has no record: {gate:?}"),
    };
    record(kind, words)
}
