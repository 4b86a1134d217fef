//! What is set apart on paper, by the reference: a second drawing of six lines, of the same marks and letters but `x` for `#`, with a last
//! line of its own.

use super::{bad_line, floor_bits, floor_line, next_line, rows, said, shuttle_bits, shuttle_line, Said};
use super::{LEFT, NO_ROOM, PAST_THE_LAST, RIGHT, UNSOUND};
use crate::{bit, LIFT_CAR};

/// The lift is the last of the parts; what is set apart has no bit above it.
const PARTS: u32 = LIFT_CAR + 1;

/// The last line without its line feed: the lift is not set apart, or is.
pub const LIFT: [&str; 2] = ["-", "lift"];

/// The drawing of what is set apart.
pub fn drawn(parts: u64) -> String {
    let [first, second, third] = rows().map(|cells| floor_line(parts, cells).replace('#', "x"));
    let last = LIFT[usize::from(bit(parts, LIFT_CAR))].to_string();
    [first, second, third, shuttle_line(parts, LEFT), shuttle_line(parts, RIGHT), last].map(|line| line + "\n").concat()
}

/// Writes it: 15 where there is a bit that is no part's, then 17 where the room is shorter than the text.
pub fn write(parts: u64, room: &mut [u8]) -> Said {
    if parts >> PARTS != 0 {
        return said(UNSOUND);
    }
    let text = drawn(parts);
    match room.get_mut(..text.len()) {
        Some(room) => room.copy_from_slice(text.as_bytes()),
        None => return said(NO_ROOM),
    }
    Said { size: text.len() as u16, ..said(0) }
}

/// The bits of a row's line: no mark of a floor, and `x` for it.
fn row_bits(line: &[u8], place: usize) -> Option<u64> {
    let marks = |&mark| match mark {
        b'#' => None,
        b'x' => Some(b'#'),
        other => Some(other),
    };
    floor_bits(&line.iter().map(marks).collect::<Option<Vec<u8>>>()?, rows()[place].clone())
}

fn bits_of(place: u8, line: &[u8]) -> Option<u64> {
    match place {
        0..=2 => row_bits(line, usize::from(place)),
        3 => shuttle_bits(line, LEFT),
        4 => shuttle_bits(line, RIGHT),
        _ => (0..).zip(LIFT).find_map(|(lift, word)| (word.as_bytes() == line).then_some(lift << LIFT_CAR)),
    }
}

/// What a text shows as set apart: 41 with the first bad line.
pub fn parts_in(mut text: &[u8]) -> Result<u64, Said> {
    let mut parts = 0;
    for place in 0..PAST_THE_LAST {
        let line = next_line(&mut text);
        parts |= line.and_then(|line| bits_of(place, line)).ok_or(bad_line(place))?;
    }
    if text.is_empty() {
        Ok(parts)
    } else {
        Err(bad_line(PAST_THE_LAST))
    }
}

/// Reads it: 17 before all else where the room is shorter than a number.
pub fn read(text: &[u8], room: &mut [u8]) -> Said {
    let Some(room) = room.get_mut(..8) else { return said(NO_ROOM) };
    match parts_in(text) {
        Ok(parts) => {
            room.copy_from_slice(&parts.to_le_bytes());
            said(0)
        }
        Err(refusal) => refusal,
    }
}

/// Whether what follows a drawing's last line is read as a second one: it begins with one of its marks.
pub fn begins(first: u8) -> bool {
    matches!(first, b'x' | b'.')
}
