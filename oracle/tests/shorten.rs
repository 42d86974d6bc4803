//! The program `shorten`, run as a person would.

mod programs;

use std::path::PathBuf;
use std::process::Output;

use programs::{run, text};

fn shorten(words: &[&str]) -> Output {
    run(env!("CARGO_BIN_EXE_shorten"), words)
}

#[test]
fn the_example_gets_shorter() {
    let example = concat!(env!("CARGO_MANIFEST_DIR"), "/../examples/adder.gates");
    let out = shorten(&[example]);
    assert!(out.status.success());
    let said = text(&out.stdout);
    assert!(said.starts_with("before: 48 gates\n  cnot(1,2) "), "{said}");
    assert!(
        said.contains("\nafter: 28 gates, 311 looked at by commuting walks\n"),
        "{said}"
    );
    assert!(said.ends_with(" cnot(1,0) cnot(1,2)\n"), "{said}");
}

#[test]
fn help_and_wrong_use() {
    let help = shorten(&["--help"]);
    assert!(help.status.success());
    assert!(text(&help.stdout).starts_with("usage: shorten FILE"));
    let nothing = shorten(&[]);
    assert_eq!(nothing.status.code(), Some(2));
    assert!(text(&nothing.stderr).starts_with("usage: shorten FILE"));
}

#[test]
fn what_cannot_be_read_is_named() {
    let missing = shorten(&["no/such/file"]);
    assert_eq!(missing.status.code(), Some(1));
    assert!(text(&missing.stderr).starts_with("shorten: no/such/file: "));

    let path = PathBuf::from(env!("CARGO_TARGET_TMPDIR")).join("twice.gates");
    std::fs::write(&path, "h0 # one\ncnot(1,1)\n").expect("a file of its own");
    let twice = shorten(&[path.to_str().expect("a plain path")]);
    assert_eq!(twice.status.code(), Some(1));
    assert!(text(&twice.stderr).trim_end().ends_with(": cnot(1,1)"));
    assert!(twice.stdout.is_empty());
}
