//! A journal, append by append (crates/journal_file/specs has its form). What is damaged is told, and nothing behind it is read.

use crate::told::failed;
use station::words::Wrong;
use station::Station;
use std::io::{BufRead, Read};

const MAGIC: &[u8] = b"Vargsnida, journal.\n";
const FORMAT: u8 = 2;
const HEAD: usize = 128;
const NAME: std::ops::Range<usize> = 24..64;
const BEGINNING: usize = 64;
const MOST: usize = 65_536;
/// What stands around what an append carries, and what a disk writes at once.
const AROUND: usize = 13;
const SECTOR: usize = 512;
const END_MARK: u8 = 10;
/// The kinds of appends: messages, what ended a session by answer 1 or by 2, that another journal follows, and messages with the numbers
/// of a desk's cards before them.
pub const MESSAGES: u8 = 1;
pub const CUT_SHORT: u8 = 2;
pub const BAD_LENGTH: u8 = 3;
pub const CLOSED: u8 = 4;
pub const CARDS: u8 = 5;
/// The numbers of a desk: 42 of four bytes.
pub const NUMBERS: usize = 168;

/// Whether an input begins as a journal does; a pipe may bring fewer bytes at first, and a log of messages never begins so.
pub fn is_journal(input: &mut impl BufRead) -> Result<bool, Wrong> {
    let front = input.fill_buf().map_err(|why| failed("input", why))?;
    let size = front.len().min(MAGIC.len());
    Ok(size > 0 && front[..size] == MAGIC[..size])
}

/// CRC-32C goes on over some bytes.
fn over(sum: u32, bytes: &[u8]) -> u32 {
    let bit = |state: u32| state >> 1 ^ (state & 1).wrapping_neg() & 0x82F6_3B78;
    !bytes.iter().fold(!sum, |state, &byte| (0..8).fold(state ^ u32::from(byte), |state, _| bit(state)))
}

fn four(bytes: &[u8]) -> u32 {
    u32::from_le_bytes([bytes[0], bytes[1], bytes[2], bytes[3]])
}

/// What stands next: an append of a known form, with where it begins in the file; or nothing more, or bytes that were never answered, or damage.
pub enum Next {
    Append { at: usize, kind: u8, carried: Vec<u8> },
    Ended,
    Torn { at: usize },
    Damaged { at: usize },
}

pub struct Journal<R> {
    input: R,
    at: usize,
    sum: u32,
    garage: String,
}

impl<R: Read> Journal<R> {
    /// Reads the head: the station that the journal begins with.
    pub fn opened(input: R) -> Result<(Self, [u8; Station::SIZE]), Wrong> {
        let mut journal = Journal { input, at: HEAD, sum: 0, garage: String::new() };
        let head = journal.bytes(HEAD)?;
        if head.len() > MAGIC.len() && head[MAGIC.len()] != FORMAT {
            return Err(format!("the journal has format {}, and this reads {FORMAT}", head[MAGIC.len()]));
        }
        if head.len() < HEAD || four(&head[HEAD - 4..]) != over(0, &head[..HEAD - 4]) {
            return Err("the journal's head is damaged".to_string());
        }
        journal.sum = four(&head[HEAD - 4..]);
        // the name is filled up with zeros
        journal.garage = String::from_utf8_lossy(&head[NAME]).trim_end_matches('\0').to_string();
        Ok((journal, std::array::from_fn(|at| head[BEGINNING + at])))
    }

    /// The name of the garage, as the head has it.
    pub fn garage(&self) -> String {
        self.garage.clone()
    }

    /// So many bytes, or fewer at the end.
    fn bytes(&mut self, count: usize) -> Result<Vec<u8>, Wrong> {
        let mut bytes = Vec::new();
        (&mut self.input).take(count as u64).read_to_end(&mut bytes).map_err(|why| failed("input", why))?;
        Ok(bytes)
    }

    /// Reads the next append, if there is one. Behind anything else nothing is to be read.
    pub fn next_append(&mut self) -> Result<Next, Wrong> {
        let (at, mut bytes) = (self.at, self.bytes(8)?);
        if bytes.len() < 8 {
            return Ok(if bytes.is_empty() { Next::Ended } else { Next::Torn { at } });
        }
        if !titled(self.sum, &bytes) {
            return self.wrong(bytes);
        }
        let size = carries(&bytes);
        bytes.extend(self.bytes(size + 5)?);
        if bytes.len() < size + AROUND {
            return Ok(Next::Torn { at });
        }
        let (carried, sum) = (&bytes[8..8 + size], over(four(&bytes[4..]), &bytes[8..8 + size]));
        if four(&bytes[8 + size..]) != sum || bytes[12 + size] != END_MARK {
            return self.wrong(bytes);
        }
        if !is_known(bytes[0], carried) {
            return Ok(Next::Damaged { at });
        }
        (self.sum, self.at) = (sum, at + size + AROUND);
        Ok(Next::Append { at, kind: bytes[0], carried: carried.to_vec() })
    }

    /// What stands there is no append: sectors of one that did not come to the disk, up to the file's end, or damage.
    fn wrong(&mut self, mut bytes: Vec<u8>) -> Result<Next, Wrong> {
        let (at, most) = (self.at, MOST + AROUND);
        bytes.extend(self.bytes((most + 1).saturating_sub(bytes.len()))?);
        let written = bytes.iter().rposition(|&byte| byte != 0).map_or(0, |last| last + 1);
        let lost = if written == 0 { 0 } else { (at + written).div_ceil(SECTOR) * SECTOR - at };
        let ends_there = || titled(self.sum, &bytes) && bytes.len() == carries(&bytes) + AROUND;
        let torn = bytes.len() <= most && lost < bytes.len() && (lost < 8 || ends_there());
        Ok(if torn { Next::Torn { at } } else { Next::Damaged { at } })
    }
}

/// How many bytes an append carries, as its title says.
fn carries(bytes: &[u8]) -> usize {
    four(bytes) as usize >> 8
}

/// Whether a title is right behind this checksum.
fn titled(sum: u32, bytes: &[u8]) -> bool {
    four(&bytes[4..]) == over(sum, &bytes[..4]) && carries(bytes) <= MOST
}

/// Whether an append of this kind can carry these bytes.
fn is_known(kind: u8, carried: &[u8]) -> bool {
    match kind {
        MESSAGES => !carried.is_empty() && are_messages(carried),
        CARDS => carried.get(NUMBERS..).is_some_and(are_messages),
        CUT_SHORT | BAD_LENGTH => carried.len() <= 44,
        CLOSED => carried.is_empty(),
        _ => false,
    }
}

fn are_messages(bytes: &[u8]) -> bool {
    messages(bytes).map(<[u8]>::len).sum::<usize>() == bytes.len()
}

/// The numbers that an append carries, and the messages; neither where it carries what was left of an input.
pub fn parts_of(kind: u8, carried: &[u8]) -> Option<(&[u8], &[u8])> {
    match kind {
        MESSAGES => Some((&[], carried)),
        CARDS => carried.split_at_checked(NUMBERS),
        _ => None,
    }
}

/// The whole messages that some bytes begin with.
pub fn messages(mut bytes: &[u8]) -> impl Iterator<Item = &[u8]> {
    std::iter::from_fn(move || {
        let size = usize::from(u16::from_le_bytes([*bytes.first()?, *bytes.get(1)?]));
        let (message, behind) = bytes.split_at_checked(2 + size)?;
        bytes = behind;
        Some(message)
    })
}
