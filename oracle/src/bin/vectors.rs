//! Writes the sample of the crate `vectors`: lists with what the published Rust makes of them.

use std::io::{self, Write};
use std::process::ExitCode;

use oracle::lists::{Case, dense, random, small};
use oracle::{notation, run, run_untouched};

const HELP: &str = "usage: vectors > crates/vectors/stdin
For each list words of four bytes, little-endian: wires, bits, records, records left, walked; then
the records, and those left. The fourteen small lists of document 01, 18 more that a plausible slip
gets wrong, and as many random ones of at most 64 records as 65,536 bytes hold.";

/// What the program can read at once, and the records that it has room for.
const ROOM: usize = 65_536;
const MOST: usize = 64;

fn main() -> ExitCode {
    if std::env::args().nth(1).is_some() {
        println!("{HELP}");
        return ExitCode::from(2);
    }
    let mut sample = Vec::new();
    for (list, ..) in small::DOCUMENT.iter().chain(&small::MORE) {
        let list = notation::parse(list).expect("a list of the table");
        add(
            &mut sample,
            &Case {
                wires: small::WIRES,
                bits: small::BITS,
                list,
            },
        );
    }
    for seed in 0.. {
        let before = sample.len();
        let case = if seed % 2 == 0 {
            dense(seed)
        } else {
            random(seed)
        };
        if case.list.len() / 16 <= MOST {
            add(&mut sample, &case);
        }
        if sample.len() > ROOM {
            sample.truncate(before);
            break;
        }
    }
    match io::stdout().write_all(&sample) {
        Ok(()) => ExitCode::SUCCESS,
        Err(error) => {
            eprintln!("vectors: {error}");
            ExitCode::FAILURE
        }
    }
}

/// A list and the Rust's answer, by its own entry and by the copy that counts.
fn add(sample: &mut Vec<u8>, case: &Case) {
    let answer = run(case.wires, case.bits, &case.list);
    assert_eq!(
        answer.list,
        run_untouched(case.wires, case.bits, &case.list)
    );
    let counts = [
        case.wires,
        case.bits,
        case.list.len() / 16,
        answer.list.len() / 16,
        usize::try_from(answer.walked).expect("few looks"),
    ];
    for count in counts {
        sample.extend(u32::try_from(count).expect("a small number").to_le_bytes());
    }
    sample.extend(&case.list);
    sample.extend(&answer.list);
}
