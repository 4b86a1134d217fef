//! What decides about a call, as a station has it: the record, what is set apart and by which results, and the outstanding set; and all that
//! in words.

use crate::conditions::{cells, slot_words, CELLS, LIFT, SLOTS};
use crate::message::{both_wide, instruction, number_in, ENDINGS};
use station::{Instruction, Parts, Record, Station};

/// Bit 55 of a record: a drive-in is under way. Bit 56: a drive-out.
pub const DRIVE_IN: u64 = 1 << 55;
pub const DRIVE_OUT: u64 = 1 << 56;
/// Where a station has how many instructions its set has, which of them are answered, the set, the issue of the next one, and what is set
/// apart.
pub const COUNT: usize = 8;
pub const MARKS: usize = 9;
pub const SET: usize = 10;
pub const ISSUE: std::ops::Range<usize> = 50..52;
pub const APART: std::ops::Range<usize> = 52..60;
/// An ending that a station does not keep.
pub const UNKNOWN: u8 = u8::MAX;

/// An instruction of the outstanding set, and how it ended, where it is answered.
#[derive(Clone)]
pub struct Held {
    pub five: [u8; 5],
    pub ending: Option<u8>,
}

/// A stuck result that has set its instruction's area apart: where the log has it, and what it is of.
#[derive(Clone)]
pub struct Stuck {
    pub at: String,
    pub issue: u16,
    pub number: u8,
    pub five: [u8; 5],
}

pub struct Facts {
    pub record: Record,
    pub apart: Parts,
    /// The outstanding set's issue; where none is, that of the last one.
    pub issue: u16,
    /// The outstanding set; empty where there is none.
    pub set: Vec<Held>,
    /// The stuck results that have set apart what is, where a log tells of them.
    pub stuck: Option<Vec<Stuck>>,
}

impl Facts {
    /// Those of a station's bytes, which don't say how an instruction ended, nor what has set something apart.
    pub fn of_station(bytes: &[u8; Station::SIZE]) -> Self {
        let ending = |at: usize| (bytes[MARKS] >> at & 1 == 1).then_some(UNKNOWN);
        let held = |at: usize| Held { five: std::array::from_fn(|byte| bytes[SET + 5 * at + byte]), ending: ending(at) };
        Facts {
            record: Record(number_in(&bytes[..8])),
            apart: Parts(number_in(&bytes[APART])),
            issue: (number_in(&bytes[ISSUE]) as u16).wrapping_sub(1),
            set: (0..usize::from(bytes[COUNT])).map(held).collect(),
            stuck: None,
        }
    }

    /// The outstanding set in lines, with what is answered so far.
    pub fn outstanding(&self) -> Vec<String> {
        if self.set.is_empty() {
            return vec!["no set is outstanding".to_string()];
        }
        let one = |(held, at): (&Held, usize)| {
            let word = |ending: u8| ENDINGS.get(usize::from(ending)).copied().unwrap_or("answered");
            format!("  {at}: {}: {}", instruction(held.five), held.ending.map_or("waits for its result", word))
        };
        std::iter::once(format!("set {} is outstanding:", both_wide(self.issue))).chain(self.set.iter().zip(0..).map(one)).collect()
    }
}

/// An instruction's area, a bit for each part as what is set apart has them: the lift is 52 alone.
pub fn area(five: [u8; 5]) -> Parts {
    let instruction = Instruction::try_from(five).expect("an instruction");
    Parts(instruction.area().expect("an instruction") & ((1 << (LIFT + 1)) - 1))
}

/// Parts in words: cells, shuttles' slots, the lift.
pub fn parts(all: Parts) -> String {
    let mut words = Vec::new();
    let occupied: Vec<u8> = (0..CELLS).filter(|&cell| all.has(cell)).collect();
    if !occupied.is_empty() {
        words.push(cells(&occupied));
    }
    words.extend(SLOTS.filter(|&slot| all.has(slot)).map(|slot| {
        let [side, row, tilted] = slot_words(slot);
        format!("the {tilted} slot {side} in row {row}")
    }));
    if all.lift() {
        words.push("the lift".to_string());
    }
    if words.is_empty() {
        "nothing".to_string()
    } else {
        words.join("; ")
    }
}

/// The drive under way in words; nothing where there is none.
pub fn drive(record: Record) -> Option<&'static str> {
    if record.0 & DRIVE_IN != 0 {
        return Some("a drive-in is under way");
    }
    (record.0 & DRIVE_OUT != 0).then_some("a drive-out is under way")
}
