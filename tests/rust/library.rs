//! A planner's library of its own over the crate: how many of some instructions, one after the other, a record allows.

use station::{Instruction, NoInstruction, Record};

/// How many of the lines are allowed in turn from a record on.
pub fn as_far_as(start: Record, lines: &[&str]) -> Result<usize, NoInstruction> {
    let mut record = start;
    for (at, line) in lines.iter().enumerate() {
        match record.next(line.parse::<Instruction>()?) {
            Ok(next) => record = next,
            Err(_) => return Ok(at),
        }
    }
    Ok(lines.len())
}

#[cfg(test)]
mod tests {
    use super::*;

    #[test]
    fn it_goes_as_far_as_the_record_allows() {
        assert_eq!(as_far_as(Record::START, &["lift rotation", "rotate", "lift basement"]), Ok(3));
        assert_eq!(as_far_as(Record::START, &["lift rotation", "lift rotation", "lift basement"]), Ok(1));
        assert!(as_far_as(Record::START, &["lift cellar"]).is_err());
    }
}
