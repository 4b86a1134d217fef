//! The parts of the garage that an instruction may touch: a set of cells, a set of the shuttles' slots, and the lift or not. The reference
//! has its instructions' areas so, and what is set apart after a jam.
use super::{slot, Range};

/// In the number that shows parts, cells and slots stand as in a record, and the lift behind them.
const SLOTS_AT: u32 = 40;
const LIFT_AT: u32 = 52;

#[derive(Clone, Copy, Debug, PartialEq, Eq)]
pub struct Parts {
    cells: u64, // a bit for each of forty
    slots: u16, // a bit for each of twelve
    pub lift: bool,
}

impl Parts {
    pub const NONE: Parts = Parts { cells: 0, slots: 0, lift: false };
    pub const LIFT: Parts = Parts { lift: true, ..Parts::NONE };

    /// These and some cells.
    pub fn and_cells(self, cells: Range<u32>) -> Parts {
        Parts { cells: cells.fold(self.cells, |all, cell| all | 1 << cell), ..self }
    }

    /// These and a shuttle's slot.
    pub fn and_slot(self, side: u8, row: u8, orientation: u8) -> Parts {
        Parts { slots: self.slots | 1 << (slot(side, row, orientation) - SLOTS_AT), ..self }
    }

    /// These and those.
    pub fn and(self, other: Parts) -> Parts {
        Parts { cells: self.cells | other.cells, slots: self.slots | other.slots, lift: self.lift || other.lift }
    }

    /// Whether they share any part with others.
    pub fn meet(&self, other: &Parts) -> bool {
        self.cells & other.cells != 0 || self.slots & other.slots != 0 || self.lift && other.lift
    }

    /// The number that shows them.
    pub fn number(&self) -> u64 {
        self.cells | u64::from(self.slots) << SLOTS_AT | u64::from(self.lift) << LIFT_AT
    }

    /// The bits of a record that they are: the lift is its car and the two of its height.
    pub fn record_bits(&self) -> u64 {
        self.number() | if self.lift { 3 << (LIFT_AT + 1) } else { 0 }
    }

    /// The parts that a number shows; or the number, where it has a bit above the lift's.
    pub fn shown_by(number: u64) -> Result<Parts, u64> {
        if number >> LIFT_AT > 1 {
            return Err(number);
        }
        let (cells, slots) = (number % (1 << SLOTS_AT), (number % (1 << LIFT_AT)) >> SLOTS_AT);
        Ok(Parts { cells, slots: slots as u16, lift: number >> LIFT_AT == 1 })
    }
}
