//! What each entry of panel.h must return and leave, by the reference. panel_command.h makes the same calls on the entries.

use crate::command::{self, put, said, Command, CODE};
use crate::{answer, bit, lent, sound, Answer, Condition, Instruction, LIFT_CAR, OTHER_ROWS, ROW_1};

pub const REQUEST: u8 = 0;
pub const EVENT: u8 = 1;
pub const RESULT: u8 = 2;
pub const CONDITION: u8 = 3;
pub const NEXT: u8 = 4;
pub const CARS: u8 = 5;

/// The station's entry that each of the first three is held against, and that of the next record: one more than their own numbers.
pub const STATIONS: [u8; 3] = [1, 2, 3];
const STATIONS_NEXT: u8 = 10;

/// The entries in the order of their numbers, each with the answer numbers that it can give: no others, and a long run gives them all.
pub const ENTRIES: [(&str, &[u8]); 6] = [
    ("plain_request", &[0, 1, 4, 5, 6, 7, 8, 16, 17, 20, 21, 22, 23, 24, 25, 26, 27, 28, 31, 32]),
    ("plain_event", &[0, 4, 6, 10, 16, 17, 31, 32, 33]),
    ("plain_result", &[0, 4, 11, 12, 13, 16, 17, 29, 30]),
    ("panel_condition", &[0, 1, 4, 15, 17]),
    ("panel_next", &[0, 1, 4, 15, 17, 20, 21, 22, 23, 24, 25, 26, 27, 28, 31]),
    ("panel_cars", &[0, 15, 17]),
];

/// The bytes of a condition, of a record, and of the places of the most cars that there can be.
pub const CONDITION_SIZE: usize = 11;
pub const RECORD: usize = 8;
pub const CARS_SIZE: usize = 31;

/// Why a record is not looked at.
const UNSOUND: u8 = 15;

/// What is told of a condition that there is not: that nothing fails, with the first of the reasons.
const NONE_THERE: [u8; CONDITION_SIZE] = [0, 1, 20, 0, 0, 0, 0, 0, 0, 0, 0];

/// A condition in bytes: that there is one, whether it holds, its number, and the parts as a number, the lowest byte first.
fn bytes_of(Condition { holds, number, parts }: &Condition) -> [u8; CONDITION_SIZE] {
    let mut bytes = [0; CONDITION_SIZE];
    bytes[..3].copy_from_slice(&[1, u8::from(*holds), *number]);
    bytes[3..].copy_from_slice(&parts.number().to_le_bytes());
    bytes
}

fn condition(image: u64, five: &[u8], at: u8, output: &mut [u8]) -> Answer {
    lent(output.len() >= CONDITION_SIZE, five.len() >= CODE, || {
        let Some(instruction) = five.first_chunk().and_then(|&five| Instruction::read(five)) else { return answer(4) };
        if !sound(image) {
            return answer(UNSOUND);
        }
        put(output, &instruction.conditions(image).get(usize::from(at)).map_or(NONE_THERE, bytes_of));
        answer(0)
    })
}

/// Where each car of a record begins, by walking along row 1, where a car takes two cells, then rows 2 and 3, then the raised lift.
pub fn walk(image: u64) -> Vec<u8> {
    let (mut begins, mut other_half) = (Vec::new(), false);
    for cell in ROW_1 {
        other_half = bit(image, cell) && !other_half;
        if other_half {
            begins.push(cell as u8);
        }
    }
    begins.extend(OTHER_ROWS.into_iter().flatten().filter(|&cell| bit(image, cell)).map(|cell| cell as u8));
    begins.extend(bit(image, LIFT_CAR).then_some(LIFT_CAR as u8));
    begins
}

/// The places of the cars, zeros behind them; their number is told where an answer has its issue.
fn cars(image: u64, output: &mut [u8]) -> Answer {
    lent(output.len() >= CARS_SIZE, true, || {
        if !sound(image) {
            return answer(UNSOUND);
        }
        let (begins, mut bytes) = (walk(image), [0; CARS_SIZE]);
        put(&mut bytes, &begins);
        put(output, &bytes);
        Answer { issue: begins.len() as u16, ..answer(0) }
    })
}

/// The station's question, of a sound record alone; where too few bytes are lent, that is told first.
fn next(given: &mut Command) -> u32 {
    if given.output.len() >= RECORD && given.input.len() >= CODE && !sound(given.image) {
        return said(answer(UNSOUND));
    }
    given.entry = STATIONS_NEXT;
    command::call(given)
}

/// What the call returns; its rooms are left as it must leave them.
pub fn call(given: &mut Command) -> u32 {
    match given.entry {
        CONDITION => said(condition(given.image, given.input, given.first, given.output)),
        NEXT => next(given),
        CARS => said(cars(given.image, given.output)),
        // the other engine's calls are the station's
        entry => {
            given.entry = STATIONS[usize::from(entry)];
            command::call(given)
        }
    }
}
