//! What long runs go through: every instruction, and sound records, each as likely as another.
use crate::traffic::Numbers;
use reference::{sound, Instruction};

/// The five bytes of each of the 272 well-formed instructions.
pub fn every_five() -> Vec<[u8; 5]> {
    let bytes = (1..=5u8)
        .flat_map(|op| (0..4u8).flat_map(move |a| (0..32u8).flat_map(move |b| (0..4u8).map(move |cd| [op, a, b, cd >> 1, cd & 1]))));
    let fives: Vec<[u8; 5]> = bytes.filter(|&five| Instruction::read(five).is_some()).collect();
    assert_eq!(fives.len(), 272);
    fives
}

/// Rows 1 that can be filled so on their own, and settings of all but the cells that are sound.
pub struct SoundRecords {
    rows: Vec<u64>,
    uppers: Vec<u64>,
}

impl Default for SoundRecords {
    fn default() -> Self {
        SoundRecords::new()
    }
}

impl SoundRecords {
    pub fn new() -> Self {
        let rows = (0..1 << 20).filter(|row| sound(row | 0b111_111 << 40 | 2 << 53)).collect();
        SoundRecords { rows, uppers: (0..1 << 17).map(|upper| upper << 40).filter(|&upper| sound(upper)).collect() }
    }

    /// Any: tried again and again, the rows of which most are not sound from the list.
    pub fn any(&self, numbers: &mut Numbers) -> u64 {
        loop {
            let pick = |numbers: &mut Numbers, from: &[u64]| from[numbers.below(from.len() as u64) as usize];
            let record = pick(numbers, &self.rows) | numbers.below(1 << 20) << 20 | pick(numbers, &self.uppers);
            if sound(record) {
                return record;
            }
        }
    }
}
