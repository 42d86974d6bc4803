//! A journal replayed on a plain list by document 01's "Journal", and what its steps ask of gates.

/// One gate as its kind and its words.
#[derive(Clone, Copy, PartialEq, Eq, Debug)]
pub struct Gate {
    pub kind: u8,
    pub words: [u32; 3],
}

const X: u8 = 0;
pub const H: u8 = 1;
const S: u8 = 2;
const SDG: u8 = 3;
const Z: u8 = 4;
const T: u8 = 5;
const TDG: u8 = 6;
const CNOT: u8 = 8;
const CZ: u8 = 9;
const CCX: u8 = 10;
const CCZ: u8 = 11;

impl Gate {
    pub fn wires(&self) -> &[u32] {
        match self.kind {
            8 | 9 | 19 | 20 | 25 => &self.words[..2],
            10 | 11 | 26 => &self.words,
            _ => &self.words[..1],
        }
    }

    pub fn touches(&self, wire: u32) -> bool {
        self.wires().contains(&wire)
    }

    pub fn shares(&self, other: &Gate) -> bool {
        self.wires().iter().any(|&wire| other.touches(wire))
    }

    /// The wires in an order that is the same for equal gates.
    fn canonical(&self) -> Gate {
        let mut gate = *self;
        match gate.kind {
            CZ | CCX => gate.words[..2].sort_unstable(),
            CCZ => gate.words.sort_unstable(),
            _ => {}
        }
        gate
    }

    pub fn equals(&self, other: &Gate) -> bool {
        self.canonical() == other.canonical()
    }

    pub fn cancels(&self) -> bool {
        matches!(self.kind, H | X | Z) || self.walks()
    }

    /// The kinds that the commuting sweep takes up.
    pub fn walks(&self) -> bool {
        matches!(self.kind, CNOT | CZ | CCX | CCZ)
    }

    fn diagonal(&self) -> bool {
        self.worth().is_some() || matches!(self.kind, CZ | CCZ)
    }

    /// What a gate of a run counts, in eighth turns.
    pub fn worth(&self) -> Option<u32> {
        match self.kind {
            T => Some(1),
            S => Some(2),
            Z => Some(4),
            SDG => Some(6),
            TDG => Some(7),
            _ => None,
        }
    }

    pub fn is_x(&self) -> bool {
        self.kind == X
    }

    /// Controls and target of a cnot or ccx.
    fn controlled_x(&self) -> Option<(&[u32], u32)> {
        match self.kind {
            CNOT => Some((&self.words[..1], self.words[1])),
            CCX => Some((&self.words[..2], self.words[2])),
            _ => None,
        }
    }

    /// May this gate pass the given one of the four kinds that walk?
    pub fn passes(&self, pair: &Gate) -> bool {
        if !self.shares(pair) {
            return true;
        }
        let [a, b, c] = pair.words;
        match pair.kind {
            CNOT => match self.kind {
                X => !self.touches(a),
                CNOT => self.words[0] != b && self.words[1] != a,
                _ => self.diagonal() && !self.touches(b),
            },
            CCX => match self.controlled_x() {
                Some((controls, target)) => target != a && target != b && !controls.contains(&c),
                None if self.kind == X => self.touches(c),
                None => self.diagonal() && !self.touches(c),
            },
            CZ | CCZ => match self.controlled_x() {
                Some((_, target)) => !pair.touches(target),
                None => self.diagonal(),
            },
            _ => false,
        }
    }
}

/// Step kind, first position, last position, 0.
pub type Step = [u32; 4];

/// Does one step, if it is allowed.
pub fn apply(list: &mut Vec<Gate>, step: Step) -> Result<(), String> {
    let [kind, first, last, fourth] = step;
    let (first, last) = (first as usize, last as usize);
    if fourth != 0 || first >= last || last >= list.len() {
        return Err(format!("no such places in {} gates", list.len()));
    }
    let (opening, closing) = (list[first], list[last]);
    let mut between = list[first + 1..last].iter();
    match kind {
        1 if !opening.cancels() || !opening.equals(&closing) => Err("no cancelling pair".into()),
        1 if between.any(|gate| gate.shares(&opening)) => Err("a gate touches the pair".into()),
        2 if !opening.walks() || !opening.equals(&closing) => Err("no walking pair".into()),
        2 if !between.all(|gate| gate.passes(&opening)) => Err("a gate does not pass".into()),
        1 | 2 => {
            list.copy_within(first + 1..last, first);
            list.copy_within(last + 1.., last - 1);
            list.truncate(list.len() - 2);
            Ok(())
        }
        3 => rewrite(list, first, last),
        _ => Err("no such kind".into()),
    }
}

/// What the Hadamard sweep does with two h and what is between.
fn rewrite(list: &mut Vec<Gate>, first: usize, last: usize) -> Result<(), String> {
    let wire = list[first].words[0];
    if [list[first], list[last]].map(|gate| (gate.kind, gate.words[0])) != [(H, wire); 2] {
        return Err("no two h of one wire".into());
    }
    let run: Vec<usize> = (first + 1..last)
        .filter(|&at| list[at].touches(wire))
        .collect();
    let one = |kind| Gate {
        kind,
        words: [wire, 0, 0],
    };
    let worths: Option<Vec<u32>> = run.iter().map(|&at| list[at].worth()).collect();
    // What stands for both h, and what for the run's first gate.
    let (ends, front) = match worths {
        None if run.len() == 1 && list[run[0]].is_x() => (None, Some(one(Z))),
        None => return Err("a gate on the wire is of no run".into()),
        Some(worths) => match worths.iter().sum::<u32>() % 8 {
            0 => (None, None),
            2 => (Some(one(SDG)), Some(one(H))),
            4 => (None, Some(one(X))),
            6 => (Some(one(S)), Some(one(H))),
            _ => return Err("the sum is odd".into()),
        },
    };
    let become_of = |at: usize| {
        if at == first || at == last {
            ends
        } else if Some(&at) == run.first() {
            front
        } else {
            (!list[at].touches(wire)).then_some(list[at])
        }
    };
    let rewritten: Vec<Gate> = (first..=last).filter_map(become_of).collect();
    list.splice(first..=last, rewritten);
    Ok(())
}

pub fn gates_of(list: &[u8]) -> Vec<Gate> {
    let records = list.as_chunks::<16>().0.iter();
    records
        .map(|record| {
            let [kind, a, b, c] = words_of(record);
            Gate {
                kind: kind as u8,
                words: [a, b, c],
            }
        })
        .collect()
}

pub fn bytes_of(list: &[Gate]) -> Vec<u8> {
    let records = list.iter().flat_map(|gate| {
        let [a, b, c] = gate.words;
        [u32::from(gate.kind), a, b, c]
    });
    records.flat_map(u32::to_le_bytes).collect()
}

fn words_of(record: &[u8; 16]) -> [u32; 4] {
    let words = record.as_chunks::<4>().0;
    [0, 1, 2, 3].map(|at| u32::from_le_bytes(words[at]))
}

/// The list that a journal makes of a list.
pub fn replay(list: &[u8], journal: &[u8]) -> Result<Vec<u8>, String> {
    let mut gates = gates_of(list);
    for (at, record) in journal.as_chunks::<16>().0.iter().enumerate() {
        let step = words_of(record);
        apply(&mut gates, step).map_err(|why| format!("step {at}, {step:?}: {why}"))?;
    }
    Ok(bytes_of(&gates))
}
