//! The copy of the loop gives what the published entry gives, on lists worth trying.

use oracle::lists::{Case, random};
use oracle::records::{self, KINDS, RECORD, kind};
use oracle::{rounds, run, run_untouched};

const LISTS: u64 = 100_000;

/// How often each thing happened over all lists.
#[derive(Default)]
struct Tally {
    kinds: [usize; 27],
    wires: [usize; 9],
    /// Runs between two h on a wire, by their sum modulo 8.
    sums: [usize; 8],
    shortened: usize,
    emptied: usize,
    unchanged: usize,
    commuting: usize,
    one_h_less: usize,
    many_rounds: usize,
}

#[test]
fn counted_equals_untouched_on_lists_worth_trying() {
    let mut tally = Tally::default();
    for seed in 0..LISTS {
        let case = random(seed);
        let (wires, bits, list) = (case.wires, case.bits, &case.list);
        let answer = run(wires, bits, list);
        assert!(
            run_untouched(wires, bits, list) == answer.list,
            "seed {seed}"
        );
        tally.add(&case, &answer.list);
    }
    tally.assert_worth();
}

#[test]
fn lists_are_valid_and_the_seed_decides() {
    for seed in 0..LISTS {
        let case = random(seed);
        assert_eq!(records::check(case.wires, case.bits, &case.list), Ok(()));
        assert!(case.list.len() <= 80 * RECORD);
        assert_eq!(case, random(seed));
    }
    let distinct: std::collections::HashSet<Vec<u8>> = (0..LISTS).map(|s| random(s).list).collect();
    assert!(distinct.len() as u64 > LISTS * 9 / 10);
}

impl Tally {
    fn add(&mut self, case: &Case, output: &[u8]) {
        let rounds = rounds(case.wires, case.bits, &case.list);
        self.wires[case.wires] += 1;
        for record in records::each(&case.list) {
            self.kinds[usize::from(record[0])] += 1;
        }
        for wire in 0..case.wires {
            self.add_sums(&case.list, wire as u32);
        }
        self.shortened += usize::from(output.len() < case.list.len());
        self.emptied += usize::from(output.is_empty() && !case.list.is_empty());
        self.unchanged += usize::from(output == case.list);
        self.commuting += usize::from(rounds.iter().any(|round| round.commuting > 0));
        // Only the rewrites of k = 2 and k = 6 take out one h; all others take two or none.
        self.one_h_less += (count_h(&case.list) - count_h(output)) % 2;
        self.many_rounds += usize::from(rounds.len() > 2);
    }

    fn add_sums(&mut self, list: &[u8], wire: u32) {
        let mut open = None;
        for record in records::each(list) {
            let (code, words) = records::parts(record);
            if !words[..KINDS[usize::from(code)].wires].contains(&wire) {
                continue;
            }
            open = match (code, open) {
                (kind::H, Some(sum)) => {
                    self.sums[sum] += 1;
                    Some(0)
                }
                (kind::H, None) => Some(0),
                (_, sum) => sum.zip(worth(code)).map(|(sum, worth)| (sum + worth) % 8),
            };
        }
    }

    fn assert_worth(&self) {
        for (row, &times) in KINDS.iter().zip(&self.kinds) {
            assert_eq!(times > 5_000, !row.angle, "{} {times} times", row.name);
        }
        for (wires, &times) in self.wires.iter().enumerate().skip(1) {
            assert!(times > 10_000, "{wires} wires {times} times");
        }
        for (sum, &times) in self.sums.iter().enumerate() {
            assert!(times > 10_000, "sum {sum} {times} times");
        }
        assert!(self.shortened > 50_000, "{} shortened", self.shortened);
        assert!(self.emptied > 1_000, "{} emptied", self.emptied);
        assert!(self.unchanged > 1_000, "{} unchanged", self.unchanged);
        assert!(self.commuting > 10_000, "{} commuting", self.commuting);
        assert!(self.one_h_less > 1_000, "{} of one h less", self.one_h_less);
        assert!(self.many_rounds > 5_000, "{} rounds", self.many_rounds);
    }
}

fn count_h(list: &[u8]) -> usize {
    let records = records::each(list).iter();
    records.filter(|record| record[0] == kind::H).count()
}

/// The eighth turns of a phase.
fn worth(code: u8) -> Option<usize> {
    match code {
        kind::T => Some(1),
        kind::S => Some(2),
        kind::Z => Some(4),
        kind::SDG => Some(6),
        kind::TDG => Some(7),
        _ => None,
    }
}
