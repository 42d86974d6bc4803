//! Compares the proved pass with the published Rust and with a plain model of document 01. The last line is
//! 'N passed, 0 failed', or the first difference with the smallest list found that shows it.

mod buffers;
mod damage;
mod entry;
mod lists;
mod model;
mod plain;
mod replay;
mod spoiled;
mod trial;

use std::process::ExitCode;
use std::time::Instant;
use trial::Trial;

/// A name and what is tried under it.
pub type Part = (String, Box<dyn Iterator<Item = Trial>>);

#[derive(Clone, Copy, PartialEq, Eq)]
pub enum Share {
    All,
    Some,
}

impl Share {
    pub fn of<T>(self, all: T, some: T) -> T {
        match self {
            Share::All => all,
            Share::Some => some,
        }
    }
}

fn main() -> ExitCode {
    let args: Vec<String> = std::env::args().skip(1).collect();
    let (share, only) = match args.iter().map(String::as_str).collect::<Vec<_>>()[..] {
        [] => (Share::Some, ""),
        ["all"] => (Share::All, ""),
        ["all", only] => (Share::All, only),
        _ => {
            eprintln!(
                "use: tests/pass/run [all [PART]]   (PART: some letters of the parts' names)"
            );
            return ExitCode::from(2);
        }
    };
    match compared(share, only) {
        Ok(passed) => {
            println!("{passed} passed, 0 failed");
            ExitCode::SUCCESS
        }
        Err(difference) => {
            println!("{difference}");
            ExitCode::FAILURE
        }
    }
}

/// How much was compared, or the first difference.
fn compared(share: Share, only: &str) -> Result<u64, String> {
    let mut passed = 0;
    let mut told = |name: &str, part: &mut dyn FnMut() -> Result<u64, String>| {
        if name.contains(only) {
            eprintln!("{name}");
            let start = Instant::now();
            let count = part()?;
            let seconds = start.elapsed().as_secs_f64();
            println!("{name}: {count} compared, {seconds:.1} s");
            passed += count;
        }
        Ok::<(), String>(())
    };
    let mut met = [0; 13];
    for (name, mut trials) in lists::parts(share).into_iter().chain(damage::parts(share)) {
        told(&name, &mut || each(&name, &mut trials, &mut met))?;
    }
    // These show no smallest list, so they come after those that do.
    told("the table of document 01", &mut lists::table)?;
    let seeds = share.of(200_000, 20_000);
    told("the entry with its own room", &mut || entry::agrees(seeds))?;
    told("spoiled outcomes noticed", &mut spoiled::noticed)?;
    println!("successes, and refusals by number: {met:?}");
    match met.iter().position(|&times| times == 0) {
        _ if passed == 0 => Err(format!("no part's name holds '{only}'")),
        Some(number) if only.is_empty() => Err(format!("number {number} was never met")),
        _ => Ok(passed),
    }
}

/// Checks each, and counts the numbers met.
fn each(
    name: &str,
    trials: &mut dyn Iterator<Item = Trial>,
    met: &mut [u64; 13],
) -> Result<u64, String> {
    const TELL: u64 = 1_000_000;
    let mut count = 0;
    for trial in trials {
        if let Err(wrong) = trial.check() {
            let (smallest, wrong) = trial.smallest(wrong);
            return Err(format!("{name}: {wrong}; {smallest}"));
        }
        met[trial.refusal().map_or(0, |(number, _)| number as usize)] += 1;
        count += 1;
        if count % TELL == 0 {
            eprintln!("  {count}");
        }
    }
    Ok(count)
}
