//! One call of the pass: what is given, what came of it, and whether that is right.

use crate::buffers::Lent;
use crate::model::{self, Lengths};
use crate::{plain, replay};
use oracle::lists::Case;
use oracle::notation;
use std::time::{Duration, Instant};
use stridebank::{Answer, cancel_in};

/// How long a smaller list that shows a difference is looked for.
const WHILE: Duration = Duration::from_secs(10);

/// What a call is given; the room is more or less than what document 01 asks for.
#[derive(Clone, Debug)]
pub struct Trial {
    pub wires: usize,
    pub bits: usize,
    pub list: Vec<u8>,
    pub out: i64,
    pub work: i64,
    pub journal: i64,
}

/// What came of it.
#[derive(Clone)]
pub struct Ran {
    pub answer: Answer,
    pub list: Vec<u8>,
    pub out: Lent<u8>,
    pub work: Lent<u32>,
    pub journal: Lent<u8>,
}

impl From<Case> for Trial {
    fn from(case: Case) -> Self {
        Trial::exact(case.wires, case.bits, case.list)
    }
}

impl Trial {
    /// With exactly the room asked for.
    pub fn exact(wires: usize, bits: usize, list: Vec<u8>) -> Self {
        let (out, work, journal) = (0, 0, 0);
        Trial {
            wires,
            bits,
            list,
            out,
            work,
            journal,
        }
    }

    fn gates(&self) -> usize {
        self.list.len() / 16
    }

    /// The words asked for, or some where there are more wires than any room holds.
    fn words(&self) -> usize {
        16 * self.gates() + 4 * self.wires.min(65_537)
    }

    /// The lengths of what is lent.
    pub fn lengths(&self) -> Lengths {
        let by = |asked: usize, more: i64| asked.saturating_add_signed(more as isize);
        Lengths {
            out: by(self.list.len(), self.out),
            work: by(self.words(), self.work),
            journal: by(24 * self.gates(), self.journal),
        }
    }

    /// What document 01 refuses it with.
    pub fn refusal(&self) -> Option<(u64, u64)> {
        model::refusal(self.wires, self.bits, &self.list, self.lengths())
    }

    pub fn run(&self) -> Ran {
        let lengths = self.lengths();
        let list = self.list.clone();
        let mut out = Lent::new(lengths.out);
        let mut work = Lent::new(lengths.work);
        let mut journal = Lent::new(lengths.journal);
        let answer = cancel_in(
            self.wires,
            self.bits,
            &list,
            out.cells_mut(),
            work.cells_mut(),
            journal.cells_mut(),
        );
        Ran {
            answer,
            list,
            out,
            work,
            journal,
        }
    }

    /// Runs and judges.
    pub fn check(&self) -> Result<(), String> {
        self.judge(&self.run())
    }

    /// The first thing that is not as it has to be.
    pub fn judge(&self, ran: &Ran) -> Result<(), String> {
        expect(ran.list == self.list, || "the input was changed".into())?;
        match self.refusal() {
            Some((number, place)) => refused(ran, number, place),
            None => self.succeeded(ran),
        }
    }

    fn succeeded(&self, ran: &Ran) -> Result<(), String> {
        let (published, steps) = oracle::run_with_steps(self.wires, self.bits, &self.list);
        let wanted = Answer {
            left: (published.list.len() / 16) as u64,
            steps: steps.all(),
            walked: published.walked,
            ..Answer::default()
        };
        same_answer(ran, wanted)?;
        let (list_len, journal_len) = (self.list.len(), 24 * self.gates());
        expect(ran.out.starts_with(&published.list, list_len), || {
            let found = &ran.out.cells()[..list_len];
            let (found, wanted) = (notation::show(found), notation::show(&published.list));
            format!("out holds {found}, not {wanted} and zeros")
        })?;
        let by_rules = plain::pass(&self.list);
        expect(by_rules.0 == published.list, || {
            "the plain model gives another list".into()
        })?;
        expect(ran.journal.starts_with(&by_rules.1, journal_len), || {
            first_step(&ran.journal.cells()[..journal_len], &by_rules.1)
        })?;
        let journal = &ran.journal.cells()[..16 * wanted.steps as usize];
        let replayed = replay::replay(&self.list, journal)?;
        expect(replayed == published.list, || {
            "the journal replays to another list".into()
        })?;
        expect(ran.work.starts_with(&[], self.words()), || {
            "the work words asked for are not all zero".into()
        })?;
        untouched(ran, list_len, self.words(), journal_len)
    }

    /// As many records left out as can be within a while with something still wrong, and what is.
    pub fn smallest(mut self, mut wrong: String) -> (Trial, String) {
        let start = Instant::now();
        let mut size = self.gates().div_ceil(2);
        while size > 0 {
            let mut smaller = false;
            let mut at = 0;
            while at < self.gates() && start.elapsed() < WHILE {
                let mut less = self.clone();
                less.list.drain(16 * at..16 * (at + size).min(self.gates()));
                match less.check() {
                    Err(still) => (self, wrong, smaller) = (less, still, true),
                    Ok(()) => at += size,
                }
            }
            if !smaller || size > 1 {
                size /= 2;
            }
        }
        (self, wrong)
    }
}

/// The first step where a journal is not as wanted; it has zeros behind the last.
fn first_step(found: &[u8], wanted: &[u8]) -> String {
    let mut zeroed = wanted.to_vec();
    zeroed.resize(found.len(), 0);
    let differs = |at: &usize| found[16 * at..].get(..16) != zeroed[16 * at..].get(..16);
    let step = |bytes: &[u8], at: usize| -> Vec<u32> {
        let words = bytes[16 * at..].as_chunks().0.iter().take(4);
        words.map(|&word| u32::from_le_bytes(word)).collect()
    };
    match (0..found.len() / 16).find(differs) {
        Some(at) => {
            let (found, wanted) = (step(found, at), step(&zeroed, at));
            format!("step {at} of the journal is {found:?}, not {wanted:?}")
        }
        None => "the last bytes of the journal are not zero".into(),
    }
}

fn refused(ran: &Ran, number: u64, place: u64) -> Result<(), String> {
    let wanted = Answer {
        number,
        place,
        ..Answer::default()
    };
    same_answer(ran, wanted)?;
    untouched(ran, 0, 0, 0)
}

fn same_answer(ran: &Ran, wanted: Answer) -> Result<(), String> {
    expect(ran.answer == wanted, || {
        format!("the answer is {:?}, not {wanted:?}", ran.answer)
    })
}

/// From these places on all that was lent is as it was.
fn untouched(ran: &Ran, out: usize, work: usize, journal: usize) -> Result<(), String> {
    let each = [
        ("out", ran.out.untouched_from(out)),
        ("work", ran.work.untouched_from(work)),
        ("journal", ran.journal.untouched_from(journal)),
    ];
    for (name, fine) in each {
        expect(fine, || format!("{name} was touched where it may not be"))?;
    }
    Ok(())
}

fn expect(fine: bool, wrong: impl FnOnce() -> String) -> Result<(), String> {
    if fine { Ok(()) } else { Err(wrong()) }
}

impl std::fmt::Display for Trial {
    fn fmt(&self, f: &mut std::fmt::Formatter) -> std::fmt::Result {
        let Trial { wires, bits, .. } = self;
        write!(f, "{wires} wires, {bits} bits, {:?}", self.lengths())?;
        write!(f, ": {}", notation::show(&self.list))
    }
}
