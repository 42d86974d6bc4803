//! The live list: a safe face over the proved functions. Each tests what its contract asks; nothing else does.

#[rustfmt::skip]
unsafe extern "C" {
    fn live_load(records: *mut u8, records_len: usize, work: *mut u32, work_len: usize, gates: usize, wires: usize, list: *const u8, list_len: usize);
    fn live_link(records: *const u8, records_len: usize, work: *mut u32, work_len: usize, gates: usize, wires: usize);
    fn live_position(records: *const u8, records_len: usize, work: *const u32, work_len: usize, gates: usize, wires: usize, slot: usize) -> u32;
    fn live_slot_at(records: *const u8, records_len: usize, work: *const u32, work_len: usize, gates: usize, wires: usize, position: u32) -> usize;
    fn live_drop(records: *const u8, records_len: usize, work: *mut u32, work_len: usize, gates: usize, wires: usize, slot: usize);
    fn live_finish(records: *mut u8, records_len: usize, work: *mut u32, work_len: usize, gates: usize, wires: usize) -> usize;
}

/// A call that may change what is lent; one that only reads it.
macro_rules! change {
    ($of:expr, $function:ident $(, $more:expr)*) => {
        unsafe { $function($of.records.as_mut_ptr(), $of.records.len(), $of.work.as_mut_ptr(), $of.work.len(), $of.gates, $of.wires $(, $more)*) }
    };
}
macro_rules! ask {
    ($of:expr, $function:ident, $what:expr) => {
        unsafe {
            $function(
                $of.records.as_ptr(),
                $of.records.len(),
                $of.work.as_ptr(),
                $of.work.len(),
                $of.gates,
                $of.wires,
                $what,
            )
        }
    };
}

/// A list being worked on, in exactly the room of document 01.
pub struct Live {
    pub records: Vec<u8>,
    pub work: Vec<u32>,
    gates: usize,
    wires: usize,
    /// A bit for each slot: what the caller keeps for its own tests should cost little of what is timed.
    gone: Vec<u64>,
    left: usize,
    linked: bool,
}

impl Live {
    /// Room for a list, filled with numbers that mean nothing.
    pub fn room(gates: usize, wires: usize) -> Self {
        assert!(gates <= 1 << 20 && wires <= 65_536);
        Live {
            records: vec![0xA5; 16 * gates],
            work: vec![0xDEAD_BEEF; 16 * gates + 4 * wires],
            gates,
            wires,
            gone: vec![0; gates / 64 + 1],
            left: 0,
            linked: false,
        }
    }

    /// Loads a list of as many gates as there is room for, which has been seen to be valid.
    pub fn load(&mut self, list: &[u8]) {
        assert_eq!(list.len(), 16 * self.gates);
        change!(self, live_load, list.as_ptr(), list.len());
        self.gone.fill(0);
        self.left = self.gates;
        self.linked = false;
    }

    pub fn link(&mut self) {
        change!(self, live_link);
        self.linked = true;
    }

    pub fn position(&self, slot: usize) -> u32 {
        assert!(slot < self.gates);
        ask!(self, live_position, slot)
    }

    pub fn slot_at(&self, position: u32) -> usize {
        assert!((position as usize) < self.left);
        ask!(self, live_slot_at, position)
    }

    pub fn drop_slot(&mut self, slot: usize) {
        let bit = 1 << (slot % 64);
        assert!(self.linked && slot < self.gates && self.gone[slot / 64] & bit == 0);
        self.gone[slot / 64] |= bit;
        self.left -= 1;
        change!(self, live_drop, slot);
    }

    pub fn finish(&mut self) -> usize {
        change!(self, live_finish)
    }
}
