//! The floor on paper, by the reference, in the words of documents 01 and 02: a record written as six lines of text, and text read; and an
//! image in hex, as the program takes and writes it.

use crate::{bit, sound, DRIVE_IN, DRIVE_OUT, LIFT_CAR, NO_PLACE};
use std::ops::Range;

pub mod apart;

// Why a record isn't written, or a text not read.
pub const UNSOUND: u8 = 15;
pub const NO_ROOM: u8 = 17;
pub const NOT_A_DRAWING: u8 = 41;

/// How many lines a drawing has, and the place that is told of text past the last of them.
pub const LINES: usize = 6;
const PAST_THE_LAST: u8 = 6;

/// What a call says: 0 or why not; with 41 the first bad line from 0, else no place; and how many bytes of text were written.
#[derive(Clone, Copy, Debug, PartialEq, Eq, PartialOrd, Ord)]
pub struct Said {
    pub number: u8,
    pub place: u8,
    pub size: u16,
}

impl Said {
    /// As the entries return it.
    pub fn returned(self) -> u32 {
        u32::from(self.number) + 256 * u32::from(self.place) + 65536 * u32::from(self.size)
    }
}

fn said(number: u8) -> Said {
    Said { number, place: NO_PLACE, size: 0 }
}
fn bad_line(place: u8) -> Said {
    Said { place, ..said(NOT_A_DRAWING) }
}

// ---- A record as text

const LOWERED: u32 = 0;
const TILTED: u32 = 1;
const LEFT: u32 = 0;
const RIGHT: u32 = 1;
const HEIGHT: u32 = 53;

/// Where a shuttle's slot stands: lowered before tilted, left before right, then rows, here from 0.
fn slot(orientation: u32, side: u32, row: u32) -> u32 {
    40 + 6 * orientation + 3 * side + row
}

/// The cells of the three floor lines.
fn rows() -> [Range<u32>; 3] {
    [0..20, 20..30, 30..40]
}

pub const HEIGHTS: [&str; 3] = ["street", "rotation", "basement"];
/// No drive under way, one in, one out.
pub const DRIVES: [&str; 3] = ["", " in", " out"];
pub const CAR: &str = " car";

fn mark(occupied: bool) -> char {
    if occupied {
        '#'
    } else {
        '.'
    }
}

fn floor_line(image: u64, cells: Range<u32>) -> String {
    cells.map(|cell| mark(bit(image, cell))).collect()
}

/// What is there in each row of a side.
fn shuttle_line(image: u64, side: u32) -> String {
    let letter = |row| match (bit(image, slot(LOWERED, side, row)), bit(image, slot(TILTED, side, row))) {
        (true, false) => 'L',
        (false, true) => 'T',
        (true, true) => 'B',
        (false, false) => '-',
    };
    (0..3).map(letter).collect()
}

fn lift_line(image: u64) -> String {
    let height = HEIGHTS.get((image >> HEIGHT & 3) as usize).copied().unwrap_or_default();
    let car = if bit(image, LIFT_CAR) { CAR } else { "" };
    let drive = if bit(image, DRIVE_IN) {
        DRIVES[1]
    } else if bit(image, DRIVE_OUT) {
        DRIVES[2]
    } else {
        DRIVES[0]
    };
    [height, car, drive].concat()
}

/// The drawing of a record, sound or not, whose height isn't 3, which has no two drives under way and no bit that stands for nothing.
pub fn drawn(image: u64) -> String {
    let [first, second, third] = rows().map(|cells| floor_line(image, cells));
    let lines = [first, second, third, shuttle_line(image, LEFT), shuttle_line(image, RIGHT), lift_line(image)];
    lines.map(|line| line + "\n").concat()
}

/// Writes a record: 15 where it isn't sound, then 17 where the room is shorter than the text.
pub fn write(image: u64, room: &mut [u8]) -> Said {
    if !sound(image) {
        return said(UNSOUND);
    }
    let text = drawn(image);
    if room.len() < text.len() {
        return said(NO_ROOM);
    }
    room[..text.len()].copy_from_slice(text.as_bytes());
    Said { size: text.len() as u16, ..said(0) }
}

// ---- Text as a record

/// The bits of a floor line: as many marks as there are cells.
fn floor_bits(line: &[u8], cells: Range<u32>) -> Option<u64> {
    if line.len() != cells.len() {
        return None;
    }
    cells.zip(line).try_fold(0, |bits, (cell, mark)| match mark {
        b'#' => Some(bits | 1 << cell),
        b'.' => Some(bits),
        _ => None,
    })
}

/// The bits of a side's line: a letter for each row.
fn shuttle_bits(line: &[u8], side: u32) -> Option<u64> {
    if line.len() != 3 {
        return None;
    }
    (0..).zip(line).try_fold(0, |bits, (row, letter)| match letter {
        b'L' => Some(bits | 1 << slot(LOWERED, side, row)),
        b'T' => Some(bits | 1 << slot(TILTED, side, row)),
        b'B' => Some(bits | 1 << slot(LOWERED, side, row) | 1 << slot(TILTED, side, row)),
        b'-' => Some(bits),
        _ => None,
    })
}

/// The bits of the lift's line: a height, then a car or none, then a drive or none.
fn lift_bits(line: &[u8]) -> Option<u64> {
    let (height, rest) = (0..).zip(HEIGHTS).find_map(|(at, name)| Some((at, line.strip_prefix(name.as_bytes())?)))?;
    let (car, rest) = rest.strip_prefix(CAR.as_bytes()).map_or((0, rest), |rest| (1, rest));
    let drive = match DRIVES.iter().position(|word| word.as_bytes() == rest)? {
        0 => 0,
        1 => 1 << DRIVE_IN,
        _ => 1 << DRIVE_OUT,
    };
    Some(height << HEIGHT | car << LIFT_CAR | drive)
}

/// The bits that a line draws, if it is of its form.
fn bits_of(place: u8, line: &[u8]) -> Option<u64> {
    match place {
        0..=2 => floor_bits(line, rows()[usize::from(place)].clone()),
        3 => shuttle_bits(line, LEFT),
        4 => shuttle_bits(line, RIGHT),
        _ => lift_bits(line),
    }
}

/// The next line without its line feed; nothing where there is none that has one.
fn next_line<'a>(rest: &mut &'a [u8]) -> Option<&'a [u8]> {
    let end = rest.iter().position(|&byte| byte == b'\n')?;
    let line = &rest[..end];
    *rest = &rest[end + 1..];
    Some(line)
}

/// The record that a text draws: 41 with the first bad line, then 15 where it isn't sound.
pub fn record_in(mut text: &[u8]) -> Result<u64, Said> {
    let mut image = 0;
    for place in 0..PAST_THE_LAST {
        let line = next_line(&mut text);
        image |= line.and_then(|line| bits_of(place, line)).ok_or(bad_line(place))?;
    }
    if !text.is_empty() {
        return Err(bad_line(PAST_THE_LAST));
    }
    if !sound(image) {
        return Err(said(UNSOUND));
    }
    Ok(image)
}

/// Reads a drawing: 17 before all else where the room is shorter than a record.
pub fn read(text: &[u8], room: &mut [u8]) -> Said {
    if room.len() < 8 {
        return said(NO_ROOM);
    }
    match record_in(text) {
        Ok(image) => {
            room[..8].copy_from_slice(&image.to_le_bytes());
            said(0)
        }
        Err(refusal) => refusal,
    }
}

// ---- An image in hex

/// What may stand anywhere in it.
pub const BLANKS: &[u8] = b" \t\r\n";

/// Whether an input that begins so is an image in hex and no drawing.
pub fn begins_hex(first: u8) -> bool {
    first.is_ascii_hexdigit() || BLANKS.contains(&first)
}

/// The numbers of digits with blanks anywhere: sixteen for each, two digits a byte, the lowest byte first.
fn numbers_in(text: &[u8]) -> Option<Vec<u64>> {
    let digits: Vec<u8> = text.iter().copied().filter(|byte| !BLANKS.contains(byte)).collect();
    if digits.len() % 16 != 0 {
        return None;
    }
    let value = |digit: u8| char::from(digit).to_digit(16).map(u64::from);
    let number = |sixteen: &[u8]| sixteen.chunks(2).rev().try_fold(0, |image, two| Some(image << 8 | value(two[0])? << 4 | value(two[1])?));
    digits.chunks(16).map(number).collect()
}

/// A record, or a record and what is set apart, as an ask returns them.
pub fn image_in(text: &[u8]) -> Option<(u64, Option<u64>)> {
    match numbers_in(text)?[..] {
        [image] => Some((image, None)),
        [image, apart] => Some((image, Some(apart))),
        _ => None,
    }
}

/// An image as the program writes it.
pub fn hex_line(image: u64) -> String {
    image.to_le_bytes().map(|byte| format!("{byte:02X}")).join(" ") + "\n"
}
