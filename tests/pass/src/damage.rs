//! What is refused: single records of all sorts, damaged copies of good lists, rooms too small.

use crate::trial::Trial;
use crate::{Part, Share};
use oracle::lists::rng::Rng;
use oracle::lists::{Case, dense, random};
use oracle::records::{kind, push, record};

const ANGLES: [u8; 8] = [7, 14, 17, 18, 21, 22, 23, 24];

pub fn parts(share: Share) -> Vec<Part> {
    let damaged = share.of(1_000_000, 200_000);
    let rooms = share.of(2_000, 200);
    vec![
        ("single records".into(), Box::new(singles())),
        (
            format!("{damaged} damaged lists"),
            Box::new((0..damaged).map(damaged_list)),
        ),
        (
            format!("{rooms} lists, each in 125 rooms"),
            Box::new((0..rooms).flat_map(in_rooms)),
        ),
        ("the largest sizes".into(), Box::new(largest())),
    ]
}

/// Every code with words and bytes at the edges, on up to 3 wires and 2 bits.
fn singles() -> impl Iterator<Item = Trial> {
    const WORDS: [u32; 4] = [0, 1, 2, u32::MAX];
    (0..=255u8).flat_map(|code| {
        (0..4 * 64 * 12).map(move |mixed: usize| {
            let [padding, words, on] = [mixed % 4, mixed / 4 % 64, mixed / 256];
            let words = [words % 4, words / 4 % 4, words / 16].map(|at| WORDS[at]);
            let mut list = record(code, words).to_vec();
            if padding > 0 {
                list[padding] = 0x80;
            }
            Trial::exact(on % 4, on / 4, list)
        })
    })
}

/// A good list with one to three faults.
pub fn damaged_list(seed: u64) -> Trial {
    let mut rng = Rng::new(!seed);
    let mut trial: Trial = good(seed).into();
    for _ in 0..1 + rng.below(3) {
        match rng.below(16) {
            0 => resize(&mut trial, &mut rng),
            1 => cut_or_lengthen(&mut trial, &mut rng),
            2..5 => narrow_a_room(&mut trial, &mut rng),
            5 => trial.wires = trial.wires.saturating_sub(1 + rng.below(2)),
            6 => trial.bits = trial.bits.saturating_sub(1),
            _ => damage_a_record(&mut trial, &mut rng),
        }
    }
    trial
}

fn good(seed: u64) -> Case {
    if seed.is_multiple_of(2) {
        random(seed)
    } else {
        dense(seed)
    }
}

/// Number 1.
fn resize(trial: &mut Trial, rng: &mut Rng) {
    let over = rng.pick(&[65_537, 65_538, 1 << 32, usize::MAX / 4 + 1, usize::MAX]);
    match rng.below(3) {
        0 => trial.wires = over,
        1 => trial.bits = over,
        _ => (trial.wires, trial.bits) = (over, over),
    }
}

/// Number 2.
fn cut_or_lengthen(trial: &mut Trial, rng: &mut Rng) {
    let by = 1 + rng.below(15);
    if rng.once_in(2) {
        trial.list.resize(trial.list.len() + by, rng.word() as u8);
    } else {
        trial.list.truncate(trial.list.len().saturating_sub(by));
    }
}

/// Numbers 4, 5 and 6.
fn narrow_a_room(trial: &mut Trial, rng: &mut Rng) {
    let by = rng.pick(&[-1, -2, -16, -1_000_000]);
    match rng.below(3) {
        0 => trial.out = by,
        1 => trial.work = by,
        _ => trial.journal = by,
    }
}

/// Numbers 7 to 12, in a record that may have a fault already.
fn damage_a_record(trial: &mut Trial, rng: &mut Rng) {
    let records = trial.list.as_chunks_mut::<16>().0;
    if records.is_empty() {
        return;
    }
    let at = rng.below(records.len());
    let damaged = &mut records[at];
    let put = |damaged: &mut [u8; 16], word: usize, value: u32| {
        damaged[4 + 4 * word..8 + 4 * word].copy_from_slice(&value.to_le_bytes());
    };
    let wires = trial.wires.min(65_536) as u32;
    let bits = trial.bits.min(65_536) as u32;
    match rng.below(7) {
        0 => damaged[0] = rng.pick(&ANGLES),
        1 => damaged[0] = 27 + rng.below(256 - 27) as u8,
        2 => damaged[1 + rng.below(3)] = 1 << rng.below(8),
        3 => put(damaged, 1 + rng.below(2), 1 << rng.below(32)),
        4 => {
            let over = rng.pick(&[wires, wires + 1, 1 << 31, u32::MAX]);
            put(damaged, rng.below(3), over);
        }
        5 => {
            let kinds = [kind::CNOT, kind::CZ, kind::SWAP, kind::CY, kind::CH];
            let wire = rng.below(wires.max(1) as usize) as u32;
            *damaged = match rng.below(4) {
                0 => record(rng.pick(&kinds), [wire, wire, 0]),
                1 => record(kind::CCX, [wire, wire, 0]),
                2 => record(kind::CCZ, [0, wire, wire]),
                _ => record(kind::CSWAP, [wire, 1, wire]),
            };
        }
        _ => {
            let over = rng.pick(&[bits, bits + 1, u32::MAX]);
            *damaged = record(kind::MEASURE, [0, over, 0]);
        }
    }
}

/// Each buffer empty, one short, exact, and longer by a few.
fn in_rooms(seed: u64) -> impl Iterator<Item = Trial> {
    const BY: [i64; 5] = [-1_000_000, -1, 0, 1, 7];
    let case = good(seed);
    (0..125).map(move |mixed| {
        let mut trial: Trial = case.clone().into();
        trial.out = BY[mixed % 5];
        trial.work = BY[mixed / 5 % 5];
        trial.journal = BY[mixed / 25];
        trial
    })
}

/// At the limits and one over them.
fn largest() -> impl Iterator<Item = Trial> {
    let wide = || {
        let mut list = Vec::new();
        push(&mut list, kind::CCZ, [65_535, 0, 32_768]);
        push(&mut list, kind::T, [65_535, 0, 0]);
        push(&mut list, kind::MEASURE, [7, 65_535, 0]);
        push(&mut list, kind::CCZ, [0, 65_535, 32_768]);
        list
    };
    let sizes = [65_535, 65_536, 65_537, usize::MAX];
    let widths = sizes
        .into_iter()
        .flat_map(move |wires| sizes.map(move |bits| Trial::exact(wires, bits, wide())));
    // Few steps: the plain list takes time for each, however little is between.
    let long = |bytes: usize| {
        let mut list = record(kind::Y, [0, 0, 0]).repeat(1_048_578);
        list[16..32].copy_from_slice(&record(kind::CNOT, [1, 2, 0]));
        list[16 * 1_048_574..16 * 1_048_575].copy_from_slice(&record(kind::CNOT, [1, 2, 0]));
        list.truncate(bytes);
        Trial::exact(3, 0, list)
    };
    let most = 16 * 1_048_576;
    let lengths = [most, most + 1, most + 16, most + 17];
    let over = [
        Fault::Wires,
        Fault::Rooms,
        Fault::Record(0),
        Fault::Record(1_048_576),
    ];
    let over = over
        .into_iter()
        .map(move |fault| fault.put(long(most + 16)));
    let last = Fault::Record(1_048_575).put(long(most));
    widths
        .chain(lengths.into_iter().map(long))
        .chain(over)
        .chain([last])
}

/// A second fault of a list that is too long: which of them is named?
enum Fault {
    Wires,
    Rooms,
    Record(usize),
}

impl Fault {
    fn put(self, mut trial: Trial) -> Trial {
        match self {
            Fault::Wires => trial.wires = 65_537,
            Fault::Rooms => (trial.out, trial.work, trial.journal) = (-1, -1, -1),
            Fault::Record(at) => trial.list[16 * at] = ANGLES[0],
        }
        trial
    }
}
