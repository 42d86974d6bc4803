//! Copies the published files to OUT_DIR, where `include!` can take them, and
//! one of them a second time with calls that count.

use std::path::Path;
use std::{env, fs};

/// The published files that are compiled.
const FILES: [&str; 3] = ["cancel.rs", "circuit.rs", "pass.rs"];

fn main() {
    let package = env::var("CARGO_MANIFEST_DIR").expect("cargo names the package");
    let out = env::var("OUT_DIR").expect("cargo names the output directory");
    println!("cargo:rerun-if-changed=build.rs");
    for name in FILES {
        let from = Path::new(&package).join("../docs/src/src").join(name);
        println!("cargo:rerun-if-changed={}", from.display());
        let text =
            fs::read_to_string(&from).unwrap_or_else(|error| panic!("{}: {error}", from.display()));
        let text = without_leading_marks(&text);
        write(&out, name, &text);
        if name == "cancel.rs" {
            write(&out, "cancel_counting.rs", &counting_firings(&text));
        }
    }
}

fn write(out: &str, name: &str, text: &str) {
    fs::write(Path::new(out).join(name), text).unwrap_or_else(|error| panic!("{name}: {error}"));
}

/// The same text with `//` for `//!` on its first lines: `include!` refuses a
/// comment there that documents the file it stands in.
fn without_leading_marks(text: &str) -> String {
    let mut out = String::with_capacity(text.len());
    let mut rest = text;
    while let Some(comment) = rest.strip_prefix("//!") {
        let end = comment.find('\n').map_or(comment.len(), |at| at + 1);
        out.push_str("//");
        out.push_str(&comment[..end]);
        rest = &comment[end..];
    }
    out.push_str(rest);
    out
}

/// The same text with a call after each place where a Hadamard sweep notes that
/// it fired: once for an x between two h, once for a run.
fn counting_firings(text: &str) -> String {
    const SWEEP: &str = "fn reduce_hadamards_pass(";
    const FIRED: &str = "changed = true;";
    let (before, rest) = text.split_once(SWEEP).expect("the Hadamard sweep");
    let (body, after) = rest.split_once("\n}\n").expect("its end");
    assert_eq!(body.matches(FIRED).count(), 2, "places where it fires");
    let body = body.replace(FIRED, &format!("{FIRED} count_firing();"));
    format!("{before}{SWEEP}{body}\n}}\n{after}")
}
