//! The program `rows`, run as a script would.

mod programs;

use std::process::Output;

use programs::{run, text};

fn rows(words: &[&str]) -> Output {
    run(env!("CARGO_BIN_EXE_rows"), words)
}

#[test]
fn a_line_for_each_list() {
    let out = rows(&["--random", "5", "--seed", "7"]);
    assert!(out.status.success());
    let said = text(&out.stdout);
    let lines: Vec<&str> = said.lines().collect();
    let of = |group: &str| lines.iter().filter(|line| line.starts_with(group)).count();
    assert!(lines.iter().all(|line| line.split('\t').count() == 8));
    assert_eq!((of("document\t"), of("more\t")), (14, 18));
    assert_eq!(of("short\t"), 1 + 31 + 31 * 31 + 31 * 31 * 31);
    assert_eq!(of("random\t"), 5);
    assert!(lines.contains(&"document\t4\th0 s0 h0\tsdg0 h0 sdg0\t0\t0\t1\t0"));
    assert!(lines.contains(&"document\t4\tcnot(0,1) t0 cnot(0,1)\tt0\t3\t0\t0\t1"));
}

#[test]
fn the_seed_decides() {
    let random = |seed: &str| -> Vec<String> {
        let said = text(&rows(&["--random", "4", "--seed", seed]).stdout);
        let lines = said.lines().filter(|line| line.starts_with("random"));
        lines.map(str::to_owned).collect()
    };
    assert_eq!(random("3"), random("3"));
    assert_eq!(random("3")[1..], random("4")[..3]);
}

#[test]
fn help_and_wrong_use() {
    let help = rows(&["--help"]);
    assert!(help.status.success());
    assert!(text(&help.stdout).starts_with("usage: rows "));
    for words in [
        &["--random"][..],
        &["--random", "few"],
        &["--lists", "3"],
        &["--random", "2", "--seed", "18446744073709551615"],
    ] {
        let out = rows(words);
        assert_eq!(out.status.code(), Some(2), "{words:?}");
        assert!(text(&out.stderr).starts_with("usage: rows "));
        assert!(out.stdout.is_empty());
    }
}
