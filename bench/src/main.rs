//! Times the live list. One line for each list and size; times are the least of several runs, spread over a minute or two.
mod live;

use live::Live;
use oracle::lists::rng::Rng;
use oracle::lists::{Case, Family, random};
use std::hint::black_box;
use std::time::Instant;

const SIZES: [usize; 3] = [10_000, 100_000, 1_000_000];
const SWEEPS: usize = 4;
const RUNS: usize = 4;
const ASKED: usize = 100_000;

fn main() {
    let only_compare = match std::env::args().nth(1).as_deref() {
        None => false,
        Some("compare") => true,
        Some(_) => {
            eprintln!(
                "use: bench/run [compare]   (compare: no times, only the comparison with a plain list)"
            );
            std::process::exit(2);
        }
    };
    compare(20_000);
    if only_compare {
        return;
    }
    let mut rows = Vec::new();
    for sweep in 0..SWEEPS {
        eprintln!("timing, {} of {SWEEPS}", sweep + 1);
        for (at, (name, make)) in lists().into_iter().enumerate() {
            let case = make();
            if sweep == 0 {
                seen_valid(&case);
                rows.push(Row::new(name, &case));
            }
            rows[at].time(&case);
        }
    }
    println!(
        "| list | gates | wires | copy and zero, ms | load, ms | link, ms | times copy and zero | position, ns | slot at, ns | drop, ns |"
    );
    println!("|---|---|---|---|---|---|---|---|---|---|");
    for row in rows {
        println!("{row}");
    }
}

type Make = Box<dyn Fn() -> Case>;

/// All lists in all sizes, each made when it is asked for.
fn lists() -> Vec<(&'static str, Make)> {
    let mut all: Vec<(&str, Make)> = Vec::new();
    for family in Family::ALL {
        for gates in SIZES.into_iter().filter(|&g| g <= family.largest()) {
            all.push((family.name(), Box::new(move || family.make(gates, 1))));
        }
    }
    for (name, kinds) in [
        ("cnot and cz at random", &[8u8, 9][..]),
        ("cnot, cz, ccx, ccz at random", &[8, 9, 10, 11]),
    ] {
        for gates in SIZES {
            all.push((name, Box::new(move || pairs(gates, 4_096, kinds))));
        }
    }
    all
}

/// A list of pair gates only, on random wires: the most work for the links between equals.
fn pairs(gates: usize, wires: usize, kinds: &[u8]) -> Case {
    let mut rng = Rng::new(7);
    let mut list = Vec::new();
    for _ in 0..gates {
        let kind = rng.pick(kinds);
        let count = if kind < 10 { 2 } else { 3 };
        oracle::records::push(&mut list, kind, rng.distinct(count, wires));
    }
    Case {
        wires,
        bits: 0,
        list,
    }
}

/// Runs once and keeps the time if it is the shortest so far.
fn least(seconds: &mut f64, run: impl FnOnce()) {
    let start = Instant::now();
    run();
    *seconds = seconds.min(start.elapsed().as_secs_f64());
}

/// The least time seen of each part, in seconds; of the last three for all slots that are asked.
struct Row {
    name: &'static str,
    gates: usize,
    wires: usize,
    floor: f64,
    load: f64,
    link: f64,
    position: f64,
    slot_at: f64,
    dropped: f64,
}

impl Row {
    fn new(name: &'static str, case: &Case) -> Self {
        let [floor, load, link, position, slot_at, dropped] = [f64::MAX; 6];
        Row {
            name,
            gates: case.list.len() / 16,
            wires: case.wires,
            floor,
            load,
            link,
            position,
            slot_at,
            dropped,
        }
    }

    fn asked(&self) -> Vec<usize> {
        let mut slots: Vec<usize> = (0..self.gates).collect();
        Rng::new(3).shuffle(&mut slots);
        slots.truncate(ASKED);
        slots
    }

    /// All in turn, so that a machine that is slow for a while is slow for each of them.
    fn time(&mut self, case: &Case) {
        let mut live = Live::room(self.gates, self.wires);
        let slots = self.asked();
        for _ in 0..RUNS {
            least(&mut self.floor, || {
                live.records.copy_from_slice(&case.list);
                live.work.fill(0);
                black_box((&live.records, &live.work));
            });
            least(&mut self.load, || live.load(&case.list));
            least(&mut self.link, || live.link());
            least(&mut self.position, || {
                for &s in &slots {
                    black_box(live.position(s));
                }
            });
            least(&mut self.slot_at, || {
                for &s in &slots {
                    black_box(live.slot_at(s as u32));
                }
            });
            least(&mut self.dropped, || {
                slots.iter().for_each(|&s| live.drop_slot(s))
            });
        }
    }
}

impl std::fmt::Display for Row {
    fn fmt(&self, f: &mut std::fmt::Formatter) -> std::fmt::Result {
        let each = |run: f64| 1e9 * run / self.gates.min(ASKED) as f64;
        write!(
            f,
            "| {} | {} | {} | {:.2} | {:.2} | {:.2} | {:.1} | {:.0} | {:.0} | {:.0} |",
            self.name,
            self.gates,
            self.wires,
            1e3 * self.floor,
            1e3 * self.load,
            1e3 * self.link,
            (self.load + self.link) / self.floor,
            each(self.position),
            each(self.slot_at),
            each(self.dropped)
        )
    }
}

/// What loading asks of a list, tested once and outside the times.
fn seen_valid(case: &Case) {
    oracle::records::check(case.wires, case.bits, &case.list).expect("a valid list");
}

/// Positions, slots, drops and the end, against a plain list of slots.
fn compare(lists: u64) {
    let mut asked = 0u64;
    for seed in 0..lists {
        let case = random(seed);
        seen_valid(&case);
        let gates = case.list.len() / 16;
        let mut live = Live::room(gates, case.wires);
        live.load(&case.list);
        live.link();
        let mut model: Vec<usize> = (0..gates).collect();
        let mut rng = Rng::new(seed);
        while !model.is_empty() && !rng.once_in(12) {
            for (position, &slot) in model.iter().enumerate() {
                assert_eq!(live.position(slot) as usize, position, "seed {seed}");
                assert_eq!(live.slot_at(position as u32), slot, "seed {seed}");
                asked += 2;
            }
            let slot = model.remove(rng.below(model.len()));
            live.drop_slot(slot);
        }
        assert_eq!(live.finish(), model.len(), "seed {seed}");
        let mut want: Vec<u8> = model
            .iter()
            .flat_map(|&s| case.list[16 * s..16 * s + 16].to_vec())
            .collect();
        want.resize(16 * gates, 0);
        assert!(
            live.records == want && live.work.iter().all(|&w| w == 0),
            "seed {seed}"
        );
    }
    println!(
        "Compared with a plain list of slots: {lists} lists, {asked} questions, no difference.\n"
    );
}
