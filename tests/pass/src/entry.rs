//! The entry that takes its own room gives what the one in lent room gives.

use crate::damage::damaged_list;
use crate::trial::Trial;
use oracle::lists::random;
use stridebank::{Done, Refusal};

/// How many agreed, or the first that did not.
pub fn agrees(seeds: u64) -> Result<u64, String> {
    let mut agreed = 0;
    for seed in 0..seeds {
        for trial in [random(seed).into(), damaged_list(seed)] {
            one(Trial::exact(trial.wires, trial.bits, trial.list))?;
            agreed += 1;
        }
    }
    // No room of these sizes can be taken, and none has to be.
    for (wires, bits) in [(usize::MAX, 0), (0, usize::MAX), (usize::MAX / 4 + 1, 1)] {
        one(Trial::exact(wires, bits, vec![0; 17]))?;
        agreed += 1;
    }
    one(Trial::exact(1, 0, vec![0; 16 * 1_048_577]))?;
    Ok(agreed + 1 + texts()?)
}

fn one(trial: Trial) -> Result<(), String> {
    let lent = trial.run();
    let Refusal { number, place } = Refusal {
        number: lent.answer.number,
        place: lent.answer.place,
    };
    let wanted = match number {
        0 => Ok(Done {
            list: lent.out.cells()[..16 * lent.answer.left as usize].to_vec(),
            journal: lent.journal.cells()[..16 * lent.answer.steps as usize].to_vec(),
            walked: lent.answer.walked,
        }),
        _ => Err(Refusal { number, place }),
    };
    let found = stridebank::cancel(trial.wires, trial.bits, &trial.list);
    if found == wanted {
        return Ok(());
    }
    Err(format!("{trial}: gives {found:?}, in lent room {wanted:?}"))
}

/// Each number has its own words.
fn texts() -> Result<u64, String> {
    let mut clauses = Vec::new();
    for number in 1..=12 {
        let text = Refusal { number, place: 5 }.to_string();
        let clause = text.strip_prefix(&format!("refused {number} 5: "));
        match clause.map(str::to_owned) {
            Some(clause) if !clauses.contains(&clause) => clauses.push(clause),
            _ => return Err(format!("the text of number {number}: {text}")),
        }
    }
    Ok(12)
}
