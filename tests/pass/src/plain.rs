//! The pass by document 01's sweep rules on a plain list, each step done at once: the list, and the
//! journal to the byte.

use crate::replay::{Gate, H, Step, apply, bytes_of, gates_of};

struct Plain {
    list: Vec<Gate>,
    journal: Vec<u8>,
}

/// The list that comes out, and the journal.
pub fn pass(list: &[u8]) -> (Vec<u8>, Vec<u8>) {
    let mut plain = Plain {
        list: gates_of(list),
        journal: Vec::new(),
    };
    plain.pairs();
    loop {
        let mut fired = false;
        while plain.hadamards() {
            fired = true;
        }
        while plain.commuting() {
            fired = true;
        }
        fired |= plain.pairs();
        if !fired {
            return (bytes_of(&plain.list), plain.journal);
        }
    }
}

impl Plain {
    fn step(&mut self, kind: u32, first: usize, last: usize) {
        let step: Step = [kind, first as u32, last as u32, 0];
        apply(&mut self.list, step).expect("a step of the rules is allowed");
        self.journal
            .extend(step.into_iter().flat_map(u32::to_le_bytes));
    }

    /// One pair sweep: whether it fired.
    fn pairs(&mut self) -> bool {
        let before = self.journal.len();
        let mut at = 0;
        while at < self.list.len() {
            let gate = self.list[at];
            let blocker = self.list[..at].iter().rposition(|g| g.shares(&gate));
            match blocker {
                Some(first) if gate.cancels() && self.list[first].equals(&gate) => {
                    self.step(1, first, at);
                    at -= 1;
                }
                _ => at += 1,
            }
        }
        self.journal.len() > before
    }

    /// One Hadamard sweep, wires upwards: whether it fired.
    fn hadamards(&mut self) -> bool {
        let before = self.journal.len();
        // A wire without an h has nothing to open.
        let openers = self.list.iter().filter(|gate| gate.kind == H);
        let mut used: Vec<u32> = openers.map(|gate| gate.words[0]).collect();
        used.sort_unstable();
        used.dedup();
        for wire in used {
            self.hadamards_on(wire);
        }
        self.journal.len() > before
    }

    fn hadamards_on(&mut self, wire: u32) {
        let mut at = 0;
        while let Some(opener) = self.next_on(wire, at) {
            at = opener + 1;
            if self.list[opener].kind != H {
                continue;
            }
            let Some(next) = self.next_on(wire, at) else {
                return;
            };
            if self.list[next].is_x() {
                // Only h x h fires; else the x has ended a run of no gates.
                at = match self.next_on(wire, next + 1) {
                    Some(closing) if self.list[closing].kind == H => self.fire(opener, closing),
                    _ => next + 1,
                };
                continue;
            }
            let mut sum = 0;
            let mut end = Some(next);
            while let Some(place) = end
                && let Some(worth) = self.list[place].worth()
            {
                sum += worth;
                end = self.next_on(wire, place + 1);
            }
            let Some(end) = end else {
                return;
            };
            at = match self.list[end].kind {
                H if sum % 2 == 0 => self.fire(opener, end),
                H => end,
                _ => end + 1,
            };
        }
    }

    fn next_on(&self, wire: u32, from: usize) -> Option<usize> {
        let rest = self.list[from..].iter();
        rest.enumerate()
            .find(|(_, gate)| gate.touches(wire))
            .map(|(at, _)| from + at)
    }

    /// A step of kind 3; the position after what stands for the closing h.
    fn fire(&mut self, opener: usize, closing: usize) -> usize {
        let after = self.list.len() - closing - 1;
        self.step(3, opener, closing);
        self.list.len() - after
    }

    /// One commuting sweep: whether it fired.
    fn commuting(&mut self) -> bool {
        let before = self.journal.len();
        let mut at = 0;
        while at < self.list.len() {
            let gate = self.list[at];
            let mut rest = self.list[at + 1..].iter();
            // The next equal gate is the partner; a gate before it that does not pass ends the walk.
            let ended = match gate.walks() {
                true => rest.position(|g| g.equals(&gate) || !g.passes(&gate)),
                false => None,
            };
            match ended.map(|ended| at + 1 + ended) {
                Some(last) if self.list[last].equals(&gate) => self.step(2, at, last),
                _ => at += 1,
            }
        }
        self.journal.len() > before
    }
}
