//! The copy that counts gives the same answers, and its steps are those of a journal.

use oracle::lists::{Case, dense, random, small};
use oracle::records::{self, KINDS, RECORD, kind};
use oracle::{Steps, notation, run, run_with_steps};

const LISTS: u64 = 20_000;

/// The steps of a list, after a look that all else is as without counting.
fn steps_of(case: &Case) -> Steps {
    let (answer, steps) = run_with_steps(case.wires, case.bits, &case.list);
    let list = notation::show(&case.list);
    assert_eq!(answer, run(case.wires, case.bits, &case.list), "{list}");
    steps
}

fn on_small(text: &str) -> Case {
    Case {
        wires: small::WIRES,
        bits: small::BITS,
        list: notation::parse(text).expect(text),
    }
}

/// Document 01: at most half the gates and the h gates of the input.
fn assert_bound(case: &Case, steps: Steps) {
    let gates = records::each(&case.list);
    let h = gates.iter().filter(|gate| gate[0] == kind::H).count();
    let most = gates.len() / 2 + h;
    assert!(steps.all() <= most as u64, "{steps:?}, at most {most}");
}

#[test]
fn counting_changes_nothing() {
    for seed in 0..LISTS {
        for case in [random(seed), dense(seed)] {
            let steps = steps_of(&case);
            assert_bound(&case, steps);
        }
    }
}

#[test]
fn known_steps() {
    let steps = |pair, hadamard, commuting| Steps {
        pair,
        hadamard,
        commuting,
    };
    let known = [
        ("", steps(0, 0, 0)),
        ("h0 h0", steps(1, 0, 0)),
        ("h0 s0 h0", steps(0, 1, 0)),
        ("h0 x0 h0", steps(0, 1, 0)),
        ("h0 t0 h0 s0 h0", steps(0, 1, 0)),
        ("h0 s0 h0 h1 z1 h1", steps(0, 2, 0)),
        ("h0 t0 tdg0 h0 x0 h1 h1 x0", steps(2, 1, 0)),
        ("cnot(0,1) t0 cnot(0,1)", steps(0, 0, 1)),
        ("cnot(0,1) t1 cnot(0,1)", steps(0, 0, 0)),
        ("cz(0,1) ccx(0,1,2) cz(0,1) ccx(0,1,2)", steps(0, 0, 2)),
        ("cnot(0,1) h0 t0 tdg0 h0 cnot(0,1)", steps(0, 1, 1)),
        ("h0 ccx(0,1,2) h1 h1 x2 ccx(1,0,2) h0", steps(2, 0, 1)),
    ];
    for (text, expected) in known {
        assert_eq!(steps_of(&on_small(text)), expected, "{text}");
    }
}

/// A journal is empty exactly where nothing changed.
#[test]
fn small_lists() {
    for (text, output, _) in small::DOCUMENT.into_iter().chain(small::MORE) {
        let steps = steps_of(&on_small(text));
        assert_eq!(steps.all() == 0, text == output, "{text}");
    }
}

/// Valid, short, of every kind, and in every sweep much fires.
#[test]
fn dense_lists_are_worth_trying() {
    let mut kinds = [0; 27];
    let mut wires = [0; 6];
    let mut fired = [0; 3];
    let mut in_all = 0;
    for seed in 0..LISTS {
        let case = dense(seed);
        assert_eq!(records::check(case.wires, case.bits, &case.list), Ok(()));
        assert!((1..=20 * RECORD).contains(&case.list.len()));
        assert_eq!(case, dense(seed));
        wires[case.wires] += 1;
        for record in records::each(&case.list) {
            kinds[usize::from(record[0])] += 1;
        }
        let steps = steps_of(&case);
        let counts = [steps.pair, steps.hadamard, steps.commuting];
        for (sweep, count) in fired.iter_mut().zip(counts) {
            *sweep += u64::from(count > 0);
        }
        in_all += u64::from(!counts.contains(&0));
    }
    for (row, times) in KINDS.iter().zip(kinds) {
        assert_eq!(times > 1_000, !row.angle, "{} {times} times", row.name);
    }
    assert!(wires[2..].iter().all(|&times| times > LISTS / 8));
    assert!(fired.iter().all(|&lists| lists > LISTS / 3), "{fired:?}");
    assert!(in_all > LISTS / 10, "{in_all}");
}
