//! The long lists are what they say, and the copy of the loop agrees on them.

use oracle::lists::alphabet_three_wires;
use oracle::lists::{Case, Family, all_short, alphabet_one_wire, alphabet_two_wires};
use oracle::records::{self, RECORD, kind};
use oracle::{Round, rounds, run, run_untouched};

fn gates(case: &Case) -> usize {
    case.list.len() / RECORD
}

/// The kinds that occur, upwards.
fn kinds(case: &Case) -> Vec<u8> {
    let mut kinds: Vec<u8> = case.list.iter().step_by(RECORD).copied().collect();
    kinds.sort_unstable();
    kinds.dedup();
    kinds
}

#[test]
fn valid_and_of_the_size_asked() {
    for family in Family::ALL {
        for asked in [1_000, 5_000] {
            let case = family.make(asked, 7);
            let name = family.name();
            assert_eq!(
                records::check(case.wires, case.bits, &case.list),
                Ok(()),
                "{name}"
            );
            let made = gates(&case);
            assert!(made <= asked && made * 100 >= asked * 97, "{name}: {made}");
        }
    }
}

#[test]
fn small_sizes() {
    for family in Family::ALL {
        for asked in 0..60 {
            let case = family.make(asked, 7);
            assert!(gates(&case) <= asked);
            assert_eq!(records::check(case.wires, case.bits, &case.list), Ok(()));
        }
    }
}

#[test]
fn never_over_the_limit() {
    for family in Family::ALL {
        let case = family.make(2_000_000, 7);
        let made = gates(&case);
        let largest = family.largest();
        let name = family.name();
        assert!(
            made <= largest && made * 100 >= largest * 97,
            "{name}: {made}"
        );
        assert!(case.wires <= 65_536, "{name}: {} wires", case.wires);
        assert_eq!(records::check(case.wires, case.bits, &case.list), Ok(()));
    }
}

#[test]
fn the_seed_decides() {
    for family in Family::ALL {
        assert_eq!(family.make(1_000, 7), family.make(1_000, 7));
        assert_ne!(family.make(1_000, 7), family.make(1_000, 8));
    }
}

#[test]
fn counted_and_untouched_agree() {
    for family in Family::ALL {
        for (asked, seed) in [(1_000, 1), (1_000, 2), (4_000, 3)] {
            let case = family.make(asked, seed);
            let answer = run(case.wires, case.bits, &case.list);
            let untouched = run_untouched(case.wires, case.bits, &case.list);
            assert!(answer.list == untouched, "{}", family.name());
        }
    }
}

/// What a family is for happens in it.
#[test]
fn families_do_what_they_are_for() {
    for family in Family::ALL {
        let case = family.make(4_000, 5);
        let answer = run(case.wires, case.bits, &case.list);
        let left = answer.list.len() / RECORD;
        let rounds = rounds(case.wires, case.bits, &case.list);
        let most = |count: fn(&Round) -> u32| rounds.iter().map(count).max().unwrap_or(0);
        let kinds = kinds(&case);
        let name = family.name();
        match family {
            Family::CircuitAndMirror | Family::AddThenSubtract => assert_eq!(left, 0, "{name}"),
            Family::AllH => assert!(left <= case.wires, "{name}"),
            Family::Adder => assert_eq!(kinds, [kind::X, kind::CNOT, kind::CCX], "{name}"),
            Family::Multiplier => assert_eq!(kinds, [kind::CCX], "{name}"),
            Family::FanOut => {
                let cnots = records::each(&answer.list).iter();
                assert_eq!(cnots.filter(|gate| gate[0] == kind::CNOT).count(), 0);
                assert!(answer.walked > 1_000_000, "{name}: {}", answer.walked);
            }
            Family::FanOutBlocked => {
                assert_eq!(left, gates(&case), "{name}");
                assert!(answer.walked > 1_000_000, "{name}: {}", answer.walked);
            }
            Family::LayerARound => {
                // The cnots of the innermost layer, the h of each with the cnots
                // of the next, the h of the outermost, and nothing.
                let fired = |round: &Round| (round.hadamard, round.commuting);
                assert_eq!(rounds.len(), 26, "{name}");
                assert_eq!(fired(&rounds[0]), (0, 1), "{name}");
                assert!(rounds[1..24].iter().all(|round| fired(round) == (1, 1)));
                assert_eq!(fired(&rounds[24]), (1, 0), "{name}");
            }
            Family::LayerAHadamardSweep => assert_eq!(most(|round| round.hadamard), 24, "{name}"),
            Family::LayerACommutingSweep => {
                assert_eq!(most(|round| round.commuting), 25, "{name}");
            }
            _ => assert!(left < gates(&case) && left > 0, "{name}: {left}"),
        }
    }
}

/// As many lists as there are, all different, all valid on their wires.
#[test]
fn all_short_lists() {
    let alphabets = [
        (1, alphabet_one_wire()),
        (2, alphabet_two_wires()),
        (3, alphabet_three_wires()),
    ];
    for (wires, letters) in alphabets {
        assert_eq!(all_short(&letters, 0).collect::<Vec<_>>(), [Vec::new()]);
        let mut lists: Vec<Vec<u8>> = all_short(&letters, 2).collect();
        assert!(
            lists
                .iter()
                .all(|list| records::check(wires, 1, list).is_ok())
        );
        lists.sort();
        lists.dedup();
        assert_eq!(lists.len(), letters.len() * letters.len());
        for list in all_short(&letters, 2) {
            assert_eq!(run(wires, 1, &list).list, run_untouched(wires, 1, &list));
        }
    }
    assert_eq!(all_short(&[], 3).count(), 0);
}
