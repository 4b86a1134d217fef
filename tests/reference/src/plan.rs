//! Plans tried before the day, by the reference, in the words of documents 01 and 02: a plan as bytes, what it is told, and why. No station
//! of the caller's plays a part.

use crate::{sound, Answer, Instruction, Station, NO_PLACE};

/// So many sets a plan may have.
pub const MOST_SETS: usize = 64;
/// Where no set is at fault.
pub const NO_SET: u8 = 255;

// Why a plan is refused, where it isn't for a set's own number.
pub const CUT_SHORT: u8 = 1;
pub const BAD_FIELD: u8 = 4;
pub const UNSOUND: u8 = 15;
pub const TOO_MANY_SETS: u8 = 35;
pub const WISH_NOT_MET: u8 = 36;

// Why a set is, where more can be told of it.
const OVERLAP: u8 = 8;
const OUT_OF_TURN: u8 = 31;

/// What a plan is told: 0 where it is accepted, else why not; and the first set refused, from 0, where the number is that set's own.
#[derive(Clone, Copy, Debug, PartialEq, Eq, PartialOrd, Ord)]
pub struct Verdict {
    pub number: u8,
    pub set: u8,
}

/// On what grounds: the verdict; in that set the instruction at fault and the first earlier one that it overlaps; the parts that both touch, or
/// the lift where a drive is under way; the record before that set, or the last one, or 0 where no set was tried.
#[derive(Clone, Copy, Debug, PartialEq, Eq)]
pub struct Grounds {
    pub verdict: Verdict,
    pub place: u8,
    pub earlier: u8,
    pub parts: u64,
    pub record: u64,
}

/// Of the plan as a whole, on a record.
fn at_end(number: u8, record: u64) -> Grounds {
    Grounds { verdict: Verdict { number, set: NO_SET }, place: NO_PLACE, earlier: NO_PLACE, parts: 0, record }
}

/// Of the plan as a whole, before any set is tried.
fn whole(number: u8) -> Grounds {
    at_end(number, 0)
}

/// A plan as its bytes say it.
pub struct Plan<'a> {
    pub image: u64,
    pub apart: u64,
    /// At the end the lift is to be at street: 0 without a car, 1 with one.
    pub wish: u8,
    /// Of each set its count, which may be any byte, and five bytes for each instruction.
    pub sets: Vec<(u8, &'a [u8])>,
}

/// The next bytes, so many of them; fewer are left where a plan is cut short.
fn next<'a>(rest: &mut &'a [u8], size: usize) -> Result<&'a [u8], u8> {
    let (front, behind) = rest.split_at_checked(size).ok_or(CUT_SHORT)?;
    *rest = behind;
    Ok(front)
}

/// A number of eight bytes, the lowest first.
fn next_number(rest: &mut &[u8]) -> Result<u64, u8> {
    Ok(next(rest, 8)?.iter().rev().fold(0, |number, &byte| number << 8 | u64::from(byte)))
}

fn next_byte(rest: &mut &[u8]) -> Result<u8, u8> {
    Ok(next(rest, 1)?[0])
}

impl<'a> Plan<'a> {
    /// Reads all the bytes: 1 where some are missing, then 4 for a wish that is neither and for bytes that are left over.
    pub fn read(mut bytes: &'a [u8]) -> Result<Self, u8> {
        let rest = &mut bytes;
        let (image, apart) = (next_number(rest)?, next_number(rest)?);
        let (wish, count) = (next_byte(rest)?, next_byte(rest)?);
        let mut sets = Vec::new();
        for _ in 0..count {
            let size = next_byte(rest)?;
            sets.push((size, next(rest, 5 * usize::from(size))?));
        }
        if wish > 1 {
            return Err(BAD_FIELD);
        }
        if !rest.is_empty() {
            return Err(BAD_FIELD);
        }
        Ok(Plan { image, apart, wish, sets })
    }
}

/// What a set would be told on a record with none outstanding and nothing set apart, or the record after it, all of it succeeding.
fn after_set(record: u64, count: u8, bytes: &[u8]) -> Result<u64, Answer> {
    let answer = Station { record, ..Station::start() }.request(count, bytes);
    if answer.number != 0 {
        return Err(answer);
    }
    let set = bytes.chunks_exact(5).filter_map(|five| Instruction::read(*five.first_chunk()?));
    Ok(set.fold(record, |record, instruction| instruction.next(record)))
}

/// Why a set is refused so on a record: with 8 the first earlier instruction that touches something that the one at fault touches, and what
/// both touch; with 31 the lift.
fn grounds(record: u64, set: u8, bytes: &[u8], answer: Answer) -> Grounds {
    let touched = |at: u8| {
        let five = bytes[5 * usize::from(at)..].first_chunk().expect("an instruction of the set");
        Instruction::read(*five).expect("an instruction").area().number()
    };
    let refused = Grounds { verdict: Verdict { number: answer.number, set }, place: answer.place, ..at_end(0, record) };
    match answer.number {
        OVERLAP => {
            let both = |earlier: u8| touched(earlier) & touched(answer.place);
            let earlier = (0..answer.place).find(|&earlier| both(earlier) != 0).expect("it overlaps one");
            Grounds { earlier, parts: both(earlier), ..refused }
        }
        OUT_OF_TURN => Grounds { parts: 1 << 52, ..refused },
        _ => refused,
    }
}

/// Whether the lift is at street, with a car on it or without one: bit 52, whoever may be driving.
fn meets(record: u64, wish: u8) -> bool {
    record >> 53 & 3 == 0 && record >> 52 & 1 == u64::from(wish)
}

fn try_out(bytes: &[u8]) -> Result<u64, Grounds> {
    let plan = Plan::read(bytes).map_err(whole)?;
    if !sound(plan.image) || plan.apart != 0 {
        return Err(whole(UNSOUND));
    }
    if plan.sets.len() > MOST_SETS {
        return Err(whole(TOO_MANY_SETS));
    }
    let mut record = plan.image;
    for (set, (count, bytes)) in (0..).zip(plan.sets) {
        record = after_set(record, count, bytes).map_err(|answer| grounds(record, set, bytes, answer))?;
    }
    if !meets(record, plan.wish) {
        return Err(at_end(WISH_NOT_MET, record));
    }
    Ok(record)
}

/// What a plan is told, and on what grounds.
pub fn explain(bytes: &[u8]) -> Grounds {
    try_out(bytes).map_or_else(|refused| refused, |last| at_end(0, last))
}

/// What a plan is told.
pub fn judge(bytes: &[u8]) -> Verdict {
    explain(bytes).verdict
}
