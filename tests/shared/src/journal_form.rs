//! A journal's file, written and read from its definition alone (crates/journal_file/specs): the head, the appends with their checksums, what
//! a lost power supply can leave, and what is damage. The tests hold the programs and their files against it.

use crate::reference::{serve_on, Station};

/// The bytes of a head, the most that an append carries, what stands around that, and what a disk writes at once.
pub const HEAD: usize = 128;
pub const MOST: usize = 65_536;
pub const AROUND: usize = 13;
const SECTOR: usize = 512;

const MAGIC: &[u8; 20] = b"Vargsnida, journal.\n";
const FORMAT: u8 = 2;
const END_MARK: u8 = 10;

/// The kinds of appends: messages of one read; what ended a session, by answer 1 and by answer 2; that the journal is closed; and messages
/// behind the numbers of a desk's cards.
pub const MESSAGES: u8 = 1;
pub const CUT_SHORT: u8 = 2;
pub const BAD_LENGTH: u8 = 3;
pub const CLOSED: u8 = 4;
pub const CARDS: u8 = 5;
/// The numbers of 42 cards, four bytes each.
pub const NUMBERS: usize = 168;
/// Less than a message is left where a session ends.
const LEFT: usize = 44;

/// Castagnoli's polynomial for each byte.
const TABLE: [u32; 256] = {
    let (mut table, mut byte) = ([0; 256], 0);
    while byte < 256 {
        let (mut state, mut bit) = (byte as u32, 0);
        while bit < 8 {
            state = state >> 1 ^ if state & 1 == 1 { 0x82F6_3B78 } else { 0 };
            bit += 1;
        }
        table[byte] = state;
        byte += 1;
    }
    table
};

/// The checksum goes on over some bytes.
pub fn over(sum: u32, bytes: &[u8]) -> u32 {
    !bytes.iter().fold(!sum, |state, byte| state >> 8 ^ TABLE[(state as u8 ^ byte) as usize])
}

fn four(bytes: &[u8], at: usize) -> u32 {
    u32::from_le_bytes([bytes[at], bytes[at + 1], bytes[at + 2], bytes[at + 3]])
}

/// The version that is built here, its lowest number first.
fn version() -> [u8; 3] {
    let mut numbers = include_str!("../../../crates/version/src/lib.rt")
        .lines()
        .filter_map(|line| line.strip_prefix("pub const ")?.split("= ").nth(1)?.strip_suffix(';')?.parse().ok());
    let mut next = || numbers.next().expect("a version");
    let (first, second, third) = (next(), next(), next());
    [third, second, first]
}

// ---- written

/// A journal as it is written.
#[derive(Clone)]
pub struct Written {
    pub bytes: Vec<u8>,
    pub sum: u32,
}

impl Written {
    pub fn begun(name: &[u8], station: &Station) -> Self {
        let mut bytes = [&MAGIC[..], &[FORMAT], &version(), name].concat();
        bytes.resize(64, 0);
        bytes.extend(station.to_bytes());
        let sum = over(0, &bytes);
        bytes.extend(sum.to_le_bytes());
        Written { bytes, sum }
    }

    /// With one append more.
    pub fn add(&mut self, kind: u8, carried: &[u8]) {
        let title = (carried.len() as u32) << 8 | u32::from(kind);
        let titled = over(self.sum, &title.to_le_bytes());
        self.sum = over(titled, carried);
        self.bytes.extend([title.to_le_bytes(), titled.to_le_bytes()].concat());
        self.bytes.extend(carried);
        self.bytes.extend([&self.sum.to_le_bytes()[..], &[END_MARK]].concat());
    }

    pub fn with(mut self, kind: u8, carried: &[u8]) -> Self {
        self.add(kind, carried);
        self
    }
}

/// A journal of a garage that began empty and was sent these messages in one read.
pub fn journal_of(name: &[u8], messages: &[u8]) -> Vec<u8> {
    let begun = Written::begun(name, &Station::start());
    if messages.is_empty() {
        begun.bytes
    } else {
        begun.with(MESSAGES, messages).bytes
    }
}

// ---- read

/// Why a head is none that a station goes on from.
#[derive(Clone, Copy, Debug, PartialEq, Eq)]
pub enum Rejected {
    NoJournal,
    OtherFormat,
    Damaged,
    Unfit,
}

/// What stands behind the last whole append: nothing, what a power cut can leave, or anything else.
#[derive(Clone, Copy, Debug, PartialEq, Eq)]
pub enum End {
    Whole,
    Torn,
    Damaged,
}

/// A whole append: where it begins, its kind, and what it carries.
#[derive(Clone, Debug, PartialEq, Eq)]
pub struct Append {
    pub at: usize,
    pub kind: u8,
    pub carried: Vec<u8>,
}

/// All that a journal's bytes say.
pub struct Read {
    pub name: Vec<u8>,
    pub first: Station,
    pub appends: Vec<Append>,
    /// After all whole appends: the station, the checksum, how many messages and bytes they have, and whether the last one closes.
    pub station: Station,
    pub sum: u32,
    pub messages: usize,
    pub whole: usize,
    pub closed: bool,
    pub end: End,
}

/// What stands at the front of some bytes.
enum Front {
    Short,
    Wrong,
    Whole { kind: u8, carries: usize, sum: u32 },
}

fn carries(bytes: &[u8]) -> usize {
    (four(bytes, 0) >> 8) as usize
}
fn titled(sum: u32, bytes: &[u8]) -> bool {
    four(bytes, 4) == over(sum, &bytes[..4]) && carries(bytes) <= MOST
}

fn front(sum: u32, bytes: &[u8]) -> Front {
    if bytes.len() < 8 {
        return Front::Short;
    }
    if !titled(sum, bytes) {
        return Front::Wrong;
    }
    let carries = carries(bytes);
    if bytes.len() < carries + AROUND {
        return Front::Short;
    }
    let sum = over(four(bytes, 4), &bytes[8..8 + carries]);
    if four(bytes, 8 + carries) != sum || bytes[12 + carries] != END_MARK {
        return Front::Wrong;
    }
    Front::Whole { kind: bytes[0], carries, sum }
}

/// Whether these bytes up to the file's end, the first of them at this place, can be an append of which sectors did not come to the disk.
fn zeroed(sum: u32, at: usize, bytes: &[u8]) -> bool {
    let written = bytes.iter().rposition(|&byte| byte != 0).map_or(0, |last| last + 1);
    let lost = if written == 0 { 0 } else { (at + written).div_ceil(SECTOR) * SECTOR - at };
    if bytes.len() > MOST + AROUND || bytes.len() <= lost {
        return false;
    }
    lost < 8 || titled(sum, bytes) && bytes.len() == carries(bytes) + AROUND
}

/// Whether a head stands in front, its name with zeros behind it, its station, and its checksum.
fn head(bytes: &[u8]) -> Result<(Vec<u8>, Station, u32), Rejected> {
    if bytes.len() < HEAD || bytes[..20] != MAGIC[..] {
        return Err(Rejected::NoJournal);
    }
    if bytes[20] != FORMAT {
        return Err(Rejected::OtherFormat);
    }
    let sum = four(bytes, HEAD - 4);
    if sum != over(0, &bytes[..HEAD - 4]) {
        return Err(Rejected::Damaged);
    }
    let mut station = [0; Station::SIZE];
    station.copy_from_slice(&bytes[64..124]);
    let station = Station::from_bytes(&station);
    if !station.fit() {
        return Err(Rejected::Unfit);
    }
    let name = bytes[24..64].iter().copied().take_while(|&byte| byte != 0).collect();
    Ok((name, station, sum))
}

/// A file's bytes as a journal.
pub fn read(bytes: &[u8]) -> Result<Read, Rejected> {
    let (name, first, sum) = head(bytes)?;
    let mut read = Read { name, first, appends: Vec::new(), station: first, sum, messages: 0, whole: HEAD, closed: false, end: End::Whole };
    while read.whole < bytes.len() {
        let rest = &bytes[read.whole..];
        let taken = match front(read.sum, rest) {
            Front::Whole { kind, carries, sum } => read.takes(kind, &rest[8..8 + carries], sum),
            Front::Short => Err(End::Torn),
            Front::Wrong => Err(if zeroed(read.sum, read.whole, rest) { End::Torn } else { End::Damaged }),
        };
        if let Err(end) = taken {
            read.end = end;
            break;
        }
    }
    Ok(read)
}

/// What of the bytes that an append of this kind carries are messages.
fn sent(kind: u8, carried: &[u8]) -> &[u8] {
    match kind {
        MESSAGES => carried,
        CARDS => carried.get(NUMBERS..).unwrap_or_default(),
        _ => &[],
    }
}

impl Read {
    /// Takes one append, if it is one that can stand there.
    fn takes(&mut self, kind: u8, carried: &[u8], sum: u32) -> Result<(), End> {
        if self.closed {
            return Err(End::Damaged);
        }
        let (mut station, mut messages) = (self.station, 0);
        let fits = match kind {
            MESSAGES | CARDS => {
                let sent = sent(kind, carried);
                let (_, used, on) = serve_on(&mut station, sent, false);
                messages = count(sent);
                on && used == sent.len() && carried.len() >= if kind == CARDS { NUMBERS } else { 1 }
            }
            CUT_SHORT | BAD_LENGTH => carried.len() <= LEFT,
            CLOSED => carried.is_empty(),
            _ => false,
        };
        if !fits {
            return Err(End::Damaged);
        }
        self.appends.push(Append { at: self.whole, kind, carried: carried.to_vec() });
        (self.station, self.sum, self.closed) = (station, sum, kind == CLOSED);
        self.messages += messages;
        self.whole += carried.len() + AROUND;
        Ok(())
    }

    /// The messages that were recorded, one behind the other.
    pub fn recorded(&self) -> Vec<u8> {
        self.appends.iter().flat_map(|append| sent(append.kind, &append.carried)).copied().collect()
    }

    /// The numbers of a desk's cards: those of the last append that has any, and zeros where none has.
    pub fn numbers(&self) -> Vec<u8> {
        self.appends.iter().rfind(|append| append.kind == CARDS).map_or(vec![0; NUMBERS], |append| append.carried[..NUMBERS].to_vec())
    }

    /// Whether a station goes on from it.
    pub fn starts(&self) -> bool {
        !self.closed && self.end != End::Damaged
    }
}

/// How many whole messages stand there.
pub fn count(bytes: &[u8]) -> usize {
    crate::pipes::messages_in(bytes).count()
}
