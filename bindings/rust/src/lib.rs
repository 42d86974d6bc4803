//! Shortens a list of quantum gates: a safe wrapper of the proved pass in `libstridebank.a`.
//!
//! A list is records of 16 bytes, as docs/01-scope.md says: byte 0 the kind, bytes 1 to 3 zero, then
//! three little-endian 32-bit words. [`cancel`] takes its own room; [`cancel_in`] works in lent room.
//!
//! ```
//! let gate = |kind: u8| [kind, 0, 0, 0, 0, 0, 0, 0, 0, 0, 0, 0, 0, 0, 0, 0];
//! let (h, s, sdg) = (gate(1), gate(2), gate(3));
//! let done = stridebank::cancel(1, 0, &[h, s, h].concat()).unwrap();
//! assert_eq!(done.list, [sdg, h, sdg].concat());
//! assert_eq!(done.journal, [3, 0, 0, 0, 0, 0, 0, 0, 2, 0, 0, 0, 0, 0, 0, 0]);
//!
//! let refusal = stridebank::cancel(1, 0, &[h, gate(7)].concat()).unwrap_err();
//! assert_eq!(refusal.to_string(), "refused 7 1: the kind carries an angle");
//! ```

#![deny(unsafe_op_in_unsafe_fn)]

use std::fmt;

/// The bytes of a record of a list and of a journal.
pub const RECORD: usize = 16;
/// The most wires, and the most classical bits.
pub const MOST_WIRES: usize = 65_536;
/// The most records of a list.
pub const MOST_GATES: usize = 1_048_576;

/// What the call gives back; on a refusal all but `number` and `place` is 0.
#[repr(C)]
#[derive(Clone, Copy, PartialEq, Eq, Default, Debug)]
pub struct Answer {
    /// 0 for success, or the number of the refusal, 1 to 12.
    pub number: u64,
    /// The bad record for 7 to 12, counted from 0, and 0 for all else.
    pub place: u64,
    /// The records left, at the front of `out`.
    pub left: u64,
    /// The steps, at the front of `journal`.
    pub steps: u64,
    /// The gates that commuting walks examined.
    pub walked: u64,
}

/// What a success gives.
#[derive(Clone, PartialEq, Eq, Debug)]
pub struct Done {
    /// The records left.
    pub list: Vec<u8>,
    /// The steps, 16 bytes each.
    pub journal: Vec<u8>,
    /// The gates that commuting walks examined.
    pub walked: u64,
}

/// Why nothing was done.
#[derive(Clone, Copy, PartialEq, Eq, Debug)]
pub struct Refusal {
    /// 1 to 12, by the table of docs/01-scope.md.
    pub number: u64,
    /// The bad record for 7 to 12, counted from 0, and 0 for all else.
    pub place: u64,
}

impl Refusal {
    /// The clause of docs/01-scope.md.
    fn clause(&self) -> &'static str {
        match self.number {
            1 => "wires or classical bits over 65,536",
            2 => "list bytes no multiple of 16",
            3 => "over 1,048,576 records",
            4 => "output buffer shorter than the list",
            5 => "work room under 16g + 4n 32-bit words",
            6 => "journal room under 24g bytes",
            7 => "the kind carries an angle",
            8 => "kind code 27 to 255",
            9 => "byte 1 to 3 or an unused word not zero",
            10 => "a wire at or over their number",
            11 => "a wire twice in one gate",
            12 => "classical bit at or over their number",
            _ => "no number of this call",
        }
    }
}

impl fmt::Display for Refusal {
    fn fmt(&self, f: &mut fmt::Formatter) -> fmt::Result {
        let (number, place, clause) = (self.number, self.place, self.clause());
        write!(f, "refused {number} {place}: {clause}")
    }
}

impl std::error::Error for Refusal {}

unsafe extern "C" {
    fn stridebank_cancel(
        wires: usize,
        bits: usize,
        list: *const u8,
        list_len: usize,
        out: *mut u8,
        out_len: usize,
        work: *mut u32,
        work_len: usize,
        journal: *mut u8,
        journal_len: usize,
    ) -> Answer;
}

/// The pass on a list over so many wires and classical bits, in room of its own.
pub fn cancel(wires: usize, bits: usize, list: &[u8]) -> Result<Done, Refusal> {
    let gates = list.len() / RECORD;
    // 1 and 3 are tested before any room is, so what is refused for its size needs none.
    let fits = wires <= MOST_WIRES && bits <= MOST_WIRES && gates <= MOST_GATES;
    let room = |size: usize| if fits { size } else { 0 };
    let mut out = vec![0; room(list.len())];
    let mut work = vec![0; room(words_for(wires, gates))];
    let mut journal = vec![0; room(gates.saturating_mul(24))];
    let answer = cancel_in(wires, bits, list, &mut out, &mut work, &mut journal);
    let Answer { number, place, .. } = answer;
    if number != 0 {
        return Err(Refusal { number, place });
    }
    out.truncate(RECORD * answer.left as usize);
    journal.truncate(RECORD * answer.steps as usize);
    Ok(Done {
        list: out,
        journal,
        walked: answer.walked,
    })
}

/// The words of work room that [`cancel_in`] asks for: 16 a gate and 4 a wire.
pub fn words_for(wires: usize, gates: usize) -> usize {
    let for_gates = gates.saturating_mul(16);
    for_gates.saturating_add(wires.saturating_mul(4))
}

/// The pass on a list of g records in lent room: as many bytes of `out` as of `list`, [`words_for`] words
/// of `work`, 24g bytes of `journal`. Room that is too small is refused, and a refusal touches nothing.
///
/// After a success `out` holds the records left and zeros to the length of the list, `journal` the steps
/// and zeros to 24g bytes, the words asked for are zero, and what is beyond is as it was.
pub fn cancel_in(
    wires: usize,
    bits: usize,
    list: &[u8],
    out: &mut [u8],
    work: &mut [u32],
    journal: &mut [u8],
) -> Answer {
    // SAFETY: each pointer is that of a slice with its own length, never null; the three that are written
    // are borrowed alone, so nothing overlaps. The call itself tests all else.
    unsafe {
        stridebank_cancel(
            wires,
            bits,
            list.as_ptr(),
            list.len(),
            out.as_mut_ptr(),
            out.len(),
            work.as_mut_ptr(),
            work.len(),
            journal.as_mut_ptr(),
            journal.len(),
        )
    }
}
