//! Lists with what the published Rust makes of them, for comparing other accounts of the pass with it.

use std::io::{self, BufWriter, Write};
use std::process::ExitCode;

use oracle::lists::{Case, all_short, alphabet_two_wires, dense, small};
use oracle::{notation, run, run_untouched, run_with_steps};

const HELP: &str = "usage: rows [--random N] [--seed S]
Prints a line for each list, its fields parted by tabs: group, wires, list, list that comes out,
walked, steps of the pair sweeps, of the Hadamard sweeps, of the commuting sweeps.
  document  the fourteen small lists of document 01
  more      small lists that a plausible slip gets wrong
  short     all lists of up to three gates on two wires
  random    N lists of up to 20 gates on 2 to 5 wires, of the seeds from S on (default 1000 from 0)";

/// The longest of the lists that are all tried.
const SHORT: usize = 3;

struct Options {
    random: u64,
    seed: u64,
}

fn main() -> ExitCode {
    let words: Vec<String> = std::env::args().skip(1).collect();
    if words == ["--help"] {
        println!("{HELP}");
        return ExitCode::SUCCESS;
    }
    let Some(options) = read(&words) else {
        eprintln!("{HELP}");
        return ExitCode::from(2);
    };
    match write_all(&options) {
        Ok(()) => ExitCode::SUCCESS,
        Err(error) => {
            eprintln!("rows: {error}");
            ExitCode::FAILURE
        }
    }
}

fn read(words: &[String]) -> Option<Options> {
    let mut options = Options {
        random: 1000,
        seed: 0,
    };
    for pair in words.chunks(2) {
        let [name, value] = pair else { return None };
        let field = match name.as_str() {
            "--random" => &mut options.random,
            "--seed" => &mut options.seed,
            _ => return None,
        };
        *field = value.parse().ok()?;
    }
    options.seed.checked_add(options.random)?;
    Some(options)
}

fn write_all(options: &Options) -> io::Result<()> {
    let mut out = BufWriter::new(io::stdout().lock());
    for (group, table) in [("document", &small::DOCUMENT[..]), ("more", &small::MORE)] {
        for (input, _, _) in table {
            let list = notation::parse(input).expect("a list of the table");
            let (wires, bits) = (small::WIRES, small::BITS);
            write_row(&mut out, group, &Case { wires, bits, list })?;
        }
    }
    let letters = alphabet_two_wires();
    for list in (0..=SHORT).flat_map(|length| all_short(&letters, length)) {
        let (wires, bits) = (2, 1);
        write_row(&mut out, "short", &Case { wires, bits, list })?;
    }
    for seed in options.seed..options.seed + options.random {
        write_row(&mut out, "random", &dense(seed))?;
    }
    out.flush()
}

fn write_row(out: &mut impl Write, group: &str, case: &Case) -> io::Result<()> {
    let (wires, bits, list) = (case.wires, case.bits, &case.list);
    let answer = run(wires, bits, list);
    assert_eq!(answer.list, run_untouched(wires, bits, list));
    // The copy that counts is asked for the steps only.
    let (counted, steps) = run_with_steps(wires, bits, list);
    assert_eq!(counted, answer);
    writeln!(
        out,
        "{group}\t{wires}\t{}\t{}\t{}\t{}\t{}\t{}",
        notation::show(list),
        notation::show(&answer.list),
        answer.walked,
        steps.pair,
        steps.hadamard,
        steps.commuting,
    )
}
