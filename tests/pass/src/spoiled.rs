//! Shows that the comparison can fail: right outcomes with one thing spoiled, each of which has to be noticed.

use crate::trial::{Ran, Trial};
use oracle::lists::random;
use oracle::notation;

type Spoil = fn(&mut Ran);

const SPOILS: [(&str, Spoil); 16] = [
    ("number", |ran| ran.answer.number ^= 1),
    ("place", |ran| ran.answer.place += 1),
    ("left", |ran| ran.answer.left += 1),
    ("steps", |ran| ran.answer.steps += 1),
    ("walked", |ran| ran.answer.walked += 1),
    ("the input", |ran| ran.list[0] ^= 1),
    ("out, first byte", |ran| ran.out.cells_mut()[0] ^= 1),
    ("out, last asked for", |ran| flip(ran.out.cells_mut(), 3)),
    ("out, first beyond", |ran| flip(ran.out.cells_mut(), 2)),
    ("out, last", |ran| flip(ran.out.cells_mut(), 1)),
    ("journal, first byte", |ran| ran.journal.cells_mut()[0] ^= 1),
    ("journal, last asked for", |ran| {
        flip(ran.journal.cells_mut(), 3)
    }),
    ("journal, first beyond", |ran| {
        flip(ran.journal.cells_mut(), 2)
    }),
    ("work, first word", |ran| ran.work.cells_mut()[0] ^= 1),
    ("work, last asked for", |ran| {
        let at = ran.work.len() - 3;
        ran.work.cells_mut()[at] ^= 1;
    }),
    ("work, first beyond", |ran| {
        let at = ran.work.len() - 2;
        ran.work.cells_mut()[at] ^= 1;
    }),
];

/// Changes a byte so far from the end.
fn flip(bytes: &mut [u8], from_end: usize) {
    let at = bytes.len() - from_end;
    bytes[at] ^= 1;
}

/// How many were noticed, or one that was not.
pub fn noticed() -> Result<u64, String> {
    let mut noticed = 0;
    for trial in trials() {
        let ran = trial.run();
        trial.judge(&ran)?;
        for (what, spoil) in SPOILS {
            let mut spoiled = ran.clone();
            spoil(&mut spoiled);
            if trial.judge(&spoiled).is_ok() {
                return Err(format!("spoiled and not noticed: {what}, {trial}"));
            }
            noticed += 1;
        }
    }
    Ok(noticed)
}

/// Two cells more than asked for, so that there is a beyond: lists that change, that stay, that are refused.
fn trials() -> impl Iterator<Item = Trial> {
    let short = ["h0 s0 h0", "cnot(0,1) t0 cnot(0,1)", "y0", "h0 h0 x7"];
    let short = short.map(|text| Trial::exact(4, 1, notation::parse(text).expect(text)));
    let random = (0..1_000).map(|seed| Trial::from(random(seed)));
    short
        .into_iter()
        .chain(random)
        .filter(|trial| !trial.list.is_empty())
        .map(|mut trial| {
            (trial.out, trial.work, trial.journal) = (2, 2, 2);
            trial
        })
}
