//! What is at fault where a set is refused: the parts of the garage, and the earlier instruction of an overlap.

use crate::{Instruction, Number, Parts, Record, Refusal};

/// An instruction's area, with the lift as one part, as what is set apart has it.
fn area(instruction: &Instruction) -> Parts {
    instruction.area().map_or(Parts::NONE, |bits| Parts(bits & Parts::ALL.0))
}

/// The refusal of a set on a record, with the parts that are at fault, as far as one instruction is.
pub(crate) fn of_set(refusal: Refusal, set: &[Instruction], (record, apart): (Record, Parts)) -> Refusal {
    let Some(place) = refusal.place else { return refusal };
    let one = &set[usize::from(place)];
    match refusal.number {
        Number::SetApart => Refusal { parts: area(one) & apart, ..refusal },
        Number::Overlap => {
            let both = |earlier: u8| area(&set[usize::from(earlier)]) & area(one);
            let earlier = (0..place).find(|&earlier| !both(earlier).is_empty());
            Refusal { parts: earlier.map_or(Parts::NONE, both), earlier, ..refusal }
        }
        _ => of_one(refusal, *one, record),
    }
}

/// The refusal of an instruction on a record, with the parts that decide the condition that fails.
pub(crate) fn of_one(refusal: Refusal, instruction: Instruction, record: Record) -> Refusal {
    let conditions = record.conditions(instruction).unwrap_or_default();
    let failed = conditions.into_iter().find(|condition| !condition.holds && condition.number == refusal.number);
    Refusal { parts: failed.map_or(Parts::NONE, |condition| condition.parts), ..refusal }
}
