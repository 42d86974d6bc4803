//! Small lists with what comes out and how far the walks went.

/// On so many wires and bits.
pub const WIRES: usize = 4;
pub const BITS: usize = 1;

/// Input, output and walked.
pub type Row = (&'static str, &'static str, u64);

/// The fourteen small lists of document 01.
pub const DOCUMENT: [Row; 14] = [
    ("", "", 0),
    ("h0 h0", "", 0),
    ("h0 t0 tdg0 h0", "", 0),
    ("h0 s0 h0", "sdg0 h0 sdg0", 0),
    ("h0 s0 s0 h0", "x0", 0),
    ("h0 x0 h0", "z0", 0),
    ("h0 t0 h0 s0 h0", "h0 t0 sdg0 h0 sdg0", 0),
    ("cz(0,1) cz(1,0)", "", 0),
    ("cnot(0,1) cnot(1,0)", "cnot(0,1) cnot(1,0)", 0),
    ("y0 y0", "y0 y0", 0),
    ("cnot(0,1) t0 cnot(0,1)", "t0", 3),
    ("cnot(0,1) t1 cnot(0,1)", "cnot(0,1) t1 cnot(0,1)", 2),
    ("ccx(0,1,2) cnot(0,3) ccx(1,0,2)", "cnot(0,3)", 4),
    (
        "cnot(0,3) ccx(0,1,2) cnot(0,3)",
        "cnot(0,3) ccx(0,1,2) cnot(0,3)",
        1,
    ),
];

/// Lists that a plausible slip gets wrong.
pub const MORE: [Row; 18] = [
    // A gate deleted in this sweep is stepped over, and is nobody's partner.
    (
        "ccx(0,1,2) cnot(0,3) ccx(0,1,2) cnot(0,3) ccx(0,1,2)",
        "ccx(0,1,2)",
        6,
    ),
    ("cz(0,1) ccx(0,1,2) cz(0,1) ccx(0,1,2)", "", 7),
    ("cnot(0,1) t0 cnot(0,1) t0 cnot(0,1)", "t0 t0 cnot(0,1)", 3),
    // cnot walks its control first, cz its lower wire first.
    ("cnot(1,0) x1 cnot(1,0)", "cnot(1,0) x1 cnot(1,0)", 1),
    (
        "cz(1,0) measure(0,0) cz(1,0)",
        "cz(1,0) measure(0,0) cz(1,0)",
        1,
    ),
    // Operands in another order are the same gate; the copy that stays is shown as given.
    ("ccz(2,0,1) t0 x3 ccz(1,2,0)", "t0 x3", 4),
    ("cz(0,1) cz(0,1) cz(1,0)", "cz(1,0)", 0),
    // What passes a cnot on a shared wire.
    (
        "cnot(0,1) cz(0,2) x1 cnot(0,2) cnot(3,1) cnot(0,1)",
        "cz(0,2) x1 cnot(0,2) cnot(3,1)",
        6,
    ),
    // A rewrite stands where the run's first gate stood.
    ("h1 x0 z1 h1", "x0 x1", 0),
    ("h0 t0 cnot(3,2) t0 h0", "sdg0 h0 cnot(3,2) sdg0", 0),
    ("h0 sdg0 h0", "s0 h0 s0", 0),
    // The closing h of an even run opens no other; that of an odd run does.
    ("h0 z0 h0 z0 h0", "x0 z0 h0", 0),
    ("h0 t0 h0 t0 h0 z0 h0 t0 h0", "h0 t0 h0 t0 x0 t0 h0", 0),
    // A run that no h closes is left after the gate that ended it.
    ("h0 x0 y0 h0 s0 h0", "h0 x0 y0 sdg0 h0 sdg0", 0),
    // One sweep gives work to the next.
    ("cnot(0,1) h0 t0 tdg0 h0 cnot(0,1)", "", 2),
    ("h0 ccx(0,1,2) h1 h1 x2 ccx(1,0,2) h0", "x2", 4),
    // Kinds that undo themselves and still stay.
    ("swap(0,1) swap(1,0)", "swap(0,1) swap(1,0)", 0),
    ("ch(0,1) ch(0,1)", "ch(0,1) ch(0,1)", 0),
];
