//! Seeded records and drawings: sound ones, others that can be drawn, and drawings damaged in every way of a list.
#![allow(dead_code)] // each driver uses its own part of this module

use crate::traffic::{any_bytes, near_record, Numbers};
use reference::drawing::{drawn, CAR, DRIVES, HEIGHTS};
use reference::sound;

/// The bits of the lift and its drives, 52 to 56, for each of the eighteen lines that the lift can have.
pub fn lift_settings() -> impl Iterator<Item = u64> {
    (0..3).flat_map(|height| [0, 1].into_iter().flat_map(move |car| [0, 1, 2].map(move |drives| car << 52 | height << 53 | drives << 55)))
}

fn one_of<T: Copy>(numbers: &mut Numbers, list: &[T]) -> T {
    list[numbers.below(list.len() as u64) as usize]
}

/// A side's shuttles: all lowered, or one tilted and two lowered, wherever they are.
fn some_shuttles(numbers: &mut Numbers, side: u64) -> u64 {
    let (tilted, lowered) = if numbers.one_in(4) { (0, 7) } else { (1 << numbers.below(3), 7 ^ 1 << numbers.below(3)) };
    lowered << (40 + 3 * side) | tilted << (46 + 3 * side)
}

/// A sound record: any setting of the shuttles and the lift, and few cars or many wherever they can stand.
pub fn sound_record(numbers: &mut Numbers) -> u64 {
    let shuttles = some_shuttles(numbers, 0) | some_shuttles(numbers, 1);
    let settings: Vec<u64> = lift_settings().filter(|lift| sound(shuttles | lift)).collect();
    let (mut record, share) = (shuttles | one_of(numbers, &settings), numbers.below(9));
    for car in (0..19).map(|cell| 3 << cell).chain((20..40).map(|cell| 1 << cell)) {
        if numbers.below(8) < share && record & car == 0 && sound(record | car) {
            record |= car;
        }
    }
    record
}

/// A record that can be drawn, mostly one that isn't sound: other bits of a sound one, another line for the lift, or any at all.
pub fn drawable_record(numbers: &mut Numbers, record: u64) -> u64 {
    let settings: Vec<u64> = lift_settings().collect();
    let lift = one_of(numbers, &settings);
    match numbers.below(4) {
        0 => record & !(0x1F << 52) | lift,
        1 => record ^ 1 << numbers.below(52),
        2 => record ^ 1 << numbers.below(52) ^ 1 << (40 + numbers.below(12)),
        _ => numbers.next() >> 12 | lift,
    }
}

/// A record to be written, by a sound one: mostly near it, that is sound or nearly so; else any that can be drawn, or any number.
pub fn any_record(numbers: &mut Numbers, record: u64) -> u64 {
    match numbers.below(4) {
        0 => record ^ 1 << numbers.below(64),
        1 => drawable_record(numbers, record),
        _ => near_record(numbers, record),
    }
}

// ---- Damage

/// The lines of a text, each with its line feed.
pub type Lines = Vec<Vec<u8>>;

pub fn lines_of(text: &str) -> Lines {
    text.split_inclusive('\n').map(|line| line.as_bytes().to_vec()).collect()
}

/// A way to damage a line of a sound record's drawing.
pub struct Damage {
    pub name: &'static str,
    /// The lines that it can be done to, and the first bad line then.
    pub told: &'static [(usize, u8)],
    spoil: fn(&mut Numbers, &mut Lines, usize),
}

impl Damage {
    pub fn spoil(&self, numbers: &mut Numbers, lines: &mut Lines, at: usize) {
        (self.spoil)(numbers, lines, at)
    }
}

/// Damage by another byte somewhere in the line.
macro_rules! another_byte {
    ($name:literal, $told:expr, $byte:expr) => {
        Damage {
            name: $name,
            told: $told,
            spoil: |numbers, lines, at| {
                let byte = $byte(numbers, at);
                put(numbers, &mut lines[at], byte);
            },
        }
    };
}

const OWN: &[(usize, u8)] = &[(0, 0), (1, 1), (2, 2), (3, 3), (4, 4), (5, 5)];
const NEXT: &[(usize, u8)] = &[(0, 1), (1, 2), (2, 3), (3, 4), (4, 5), (5, 6)];
/// The next line of the same form takes its place, if there is one.
const MISSING: &[(usize, u8)] = &[(0, 0), (1, 2), (2, 2), (3, 4), (4, 4), (5, 5)];
const TWICE: &[(usize, u8)] = &[(0, 1), (1, 3), (2, 3), (3, 5), (4, 5), (5, 6)];
const OTHER_FORM_NEXT: &[(usize, u8)] = &[(0, 0), (2, 2), (4, 4)];
const FLOOR: &[(usize, u8)] = &[(0, 0), (1, 1), (2, 2)];
const LONG_ROW: &[(usize, u8)] = &[(0, 0)];
const SHORT_ROWS: &[(usize, u8)] = &[(1, 1), (2, 2)];
const SHUTTLES: &[(usize, u8)] = &[(3, 3), (4, 4)];
const WORDS: &[(usize, u8)] = &[(3, 3), (4, 4), (5, 5)];
const LIFT: &[(usize, u8)] = &[(5, 5)];
const END: &[(usize, u8)] = &[(5, 6)];

/// How long a line is without its line feed.
fn size(line: &[u8]) -> usize {
    line.len() - 1
}

/// A place in a line, before its line feed; inside it, that is not before the first byte.
fn any_at(numbers: &mut Numbers, line: &[u8]) -> usize {
    numbers.below(size(line) as u64) as usize
}
fn inside(numbers: &mut Numbers, line: &[u8]) -> usize {
    1 + numbers.below(size(line) as u64 - 1) as usize
}

/// Bytes before a line's line feed.
fn at_end(line: &mut Vec<u8>, bytes: &[u8]) {
    let end = size(line);
    line.splice(end..end, bytes.iter().copied());
}

/// One byte of a line is another.
fn put(numbers: &mut Numbers, line: &mut [u8], byte: u8) {
    let at = any_at(numbers, line);
    line[at] = byte;
}

fn replace(line: &mut Vec<u8>, text: &str) {
    *line = format!("{text}\n").into_bytes();
}

/// A byte that stands in no line of the form of line `at`, and ends none.
fn foreign(numbers: &mut Numbers, at: usize) -> u8 {
    let known: &[u8] = match at {
        0..=2 => b"#.\n",
        3 | 4 => b"LTB-\n",
        _ => b" abceinmoprstu\n",
    };
    loop {
        let byte = if numbers.one_in(3) { one_of(numbers, b"xX*oO_|#.LTB-? 01") } else { numbers.byte() };
        if !known.contains(&byte) {
            return byte;
        }
    }
}

/// The lift's line in a wrong order or with too much in it.
fn wrong_words(numbers: &mut Numbers, words: &[&str]) -> String {
    one_of(numbers, &HEIGHTS).to_string() + &words.concat()
}

/// Lines that are none of the lift's eighteen.
const NO_LIFT: [&str; 20] = [
    "cellar",
    "car",
    " in",
    "out",
    "streets",
    "street-car",
    "streetcar",
    "street carin",
    "street carout",
    "street inn",
    "street  car",
    "street car  in",
    "street, car",
    "street cars",
    "street no car",
    "rotation/basement",
    "street rotation",
    "basement car in.",
    "raised",
    "0",
];

/// Every way that is tried: each of them at each of its lines.
pub const DAMAGES: [Damage; 36] = [
    Damage { name: "a carriage return at its end", told: OWN, spoil: |_, lines, at| at_end(&mut lines[at], b"\r") },
    Damage { name: "a tab at its end", told: OWN, spoil: |_, lines, at| at_end(&mut lines[at], b"\t") },
    Damage { name: "a space at its end", told: OWN, spoil: |_, lines, at| at_end(&mut lines[at], b" ") },
    Damage { name: "a zero byte at its end", told: OWN, spoil: |_, lines, at| at_end(&mut lines[at], b"\0") },
    Damage { name: "a space before it", told: OWN, spoil: |_, lines, at| lines[at].insert(0, b' ') },
    Damage {
        name: "a byte order mark before it",
        told: OWN,
        spoil: |_, lines, at| {
            lines[at].splice(0..0, *b"\xEF\xBB\xBF");
        },
    },
    Damage {
        name: "a space in it",
        told: OWN,
        spoil: |numbers, lines, at| {
            let k = inside(numbers, &lines[at]);
            lines[at].insert(k, b' ');
        },
    },
    Damage {
        name: "a line feed in it",
        told: OWN,
        spoil: |numbers, lines, at| {
            // in the lift's line before its first word ends: behind that it would be a line of its form
            let k = if at == 5 { 1 + numbers.below(5) as usize } else { inside(numbers, &lines[at]) };
            lines[at].insert(k, b'\n');
        },
    },
    Damage {
        name: "no line feed",
        told: OWN,
        spoil: |_, lines, at| {
            lines[at].pop();
        },
    },
    Damage {
        name: "a carriage return for its line feed",
        told: OWN,
        spoil: |_, lines, at| {
            let end = size(&lines[at]);
            lines[at][end] = b'\r';
        },
    },
    Damage { name: "an empty line before it", told: OWN, spoil: |_, lines, at| lines.insert(at, b"\n".to_vec()) },
    Damage { name: "an empty line behind it", told: NEXT, spoil: |_, lines, at| lines.insert(at + 1, b"\n".to_vec()) },
    Damage { name: "nothing in it", told: OWN, spoil: |_, lines, at| replace(&mut lines[at], "") },
    Damage {
        name: "it is missing",
        told: MISSING,
        spoil: |_, lines, at| {
            lines.remove(at);
        },
    },
    Damage {
        name: "it stands twice",
        told: TWICE,
        spoil: |_, lines, at| {
            let line = lines[at].clone();
            lines.insert(at, line);
        },
    },
    Damage {
        name: "the next one before it",
        told: OTHER_FORM_NEXT,
        spoil: |_, lines, at| {
            if at + 1 < lines.len() {
                lines.swap(at, at + 1);
            }
        },
    },
    Damage {
        name: "one byte too few",
        told: OWN,
        spoil: |numbers, lines, at| {
            let k = any_at(numbers, &lines[at]);
            lines[at].remove(k);
        },
    },
    Damage {
        name: "one byte twice",
        told: OWN,
        spoil: |numbers, lines, at| {
            let k = any_at(numbers, &lines[at]);
            let byte = lines[at][k];
            lines[at].insert(k, byte);
        },
    },
    another_byte!("a foreign byte", OWN, foreign),
    another_byte!("a byte above 127", OWN, |numbers: &mut Numbers, _| numbers.byte() | 128),
    another_byte!("a letter for a mark", FLOOR, |numbers: &mut Numbers, _| one_of(numbers, b"LTB-")),
    another_byte!("a mark for a letter", SHUTTLES, |numbers: &mut Numbers, _| one_of(numbers, b"#.")),
    Damage {
        name: "marks alone",
        told: WORDS,
        spoil: |_, lines, at| {
            let end = size(&lines[at]);
            lines[at][..end].fill(b'.');
        },
    },
    Damage {
        name: "twenty marks",
        told: SHORT_ROWS,
        spoil: |_, lines, at| {
            let marks = lines[at][..size(&lines[at])].iter().flat_map(|&mark| [mark, mark]);
            lines[at] = marks.chain(*b"\n").collect();
        },
    },
    Damage {
        name: "ten marks",
        told: LONG_ROW,
        spoil: |_, lines, at| lines[at] = lines[at][..20].iter().step_by(2).copied().chain(*b"\n").collect(),
    },
    Damage {
        name: "letters of the other size",
        told: WORDS,
        spoil: |_, lines, at| {
            for byte in &mut lines[at] {
                *byte = if byte.is_ascii_uppercase() { byte.to_ascii_lowercase() } else { byte.to_ascii_uppercase() };
            }
        },
    },
    Damage {
        name: "one letter of the other size",
        told: WORDS,
        spoil: |numbers, lines, at| {
            let letters: Vec<usize> = (0..size(&lines[at])).filter(|&k| lines[at][k].is_ascii_alphabetic()).collect();
            let k = one_of(numbers, &letters);
            lines[at][k] ^= 0x20;
        },
    },
    Damage {
        name: "a drive before the car",
        told: LIFT,
        spoil: |numbers, lines, at| {
            let drive = one_of(numbers, &DRIVES[1..]);
            replace(&mut lines[at], &wrong_words(numbers, &[drive, CAR]));
        },
    },
    Damage {
        name: "two drives",
        told: LIFT,
        spoil: |numbers, lines, at| {
            let (car, [first, second]) = (one_of(numbers, &[CAR, ""]), [(); 2].map(|_| one_of(numbers, &DRIVES[1..])));
            replace(&mut lines[at], &wrong_words(numbers, &[car, first, second]));
        },
    },
    Damage {
        name: "two cars",
        told: LIFT,
        spoil: |numbers, lines, at| {
            let drive = one_of(numbers, &DRIVES);
            replace(&mut lines[at], &wrong_words(numbers, &[CAR, CAR, drive]));
        },
    },
    Damage {
        name: "two heights",
        told: LIFT,
        spoil: |numbers, lines, at| {
            let other = one_of(numbers, &["street", " rotation", "basement", " street"]);
            replace(&mut lines[at], &wrong_words(numbers, &[other]));
        },
    },
    Damage {
        name: "no height",
        told: LIFT,
        spoil: |numbers, lines, at| replace(&mut lines[at], one_of(numbers, &["car", " car", " in", " out", " car out", "in"])),
    },
    Damage { name: "other words", told: LIFT, spoil: |numbers, lines, at| replace(&mut lines[at], one_of(numbers, &NO_LIFT)) },
    Damage { name: "the text ends before it", told: OWN, spoil: |_, lines, at| lines.truncate(at) },
    Damage {
        name: "the text ends in it",
        told: OWN,
        spoil: |numbers, lines, at| {
            let end = 1 + any_at(numbers, &lines[at]);
            lines.truncate(at + 1);
            lines[at].truncate(end);
        },
    },
    Damage {
        name: "text behind it",
        told: END,
        spoil: |numbers, lines, _| {
            let more = match numbers.below(6) {
                0 => b"\n".to_vec(),
                1 => vec![one_of(numbers, b" \t\r\0#.L")],
                2 => lines.concat(),
                3 => {
                    let k = numbers.below(6) as usize;
                    lines[k].clone()
                }
                4 => vec![b'\n'; 1 + numbers.below(300) as usize],
                _ => {
                    let many = 1 + numbers.below(300) as usize;
                    any_bytes(numbers, many)
                }
            };
            lines.push(more);
        },
    },
];

/// A drawing of a sound record, or of one near it that can be drawn, with one fault or more; the later lines are damaged first, so that those
/// before them are still there.
pub fn faulty_text(numbers: &mut Numbers, record: u64) -> Vec<u8> {
    let record = if numbers.one_in(2) { drawable_record(numbers, record) } else { record };
    let mut lines = lines_of(&drawn(record));
    let mut at = 6;
    while at > 0 {
        at = numbers.below(at as u64) as usize;
        let fitting: Vec<&Damage> = DAMAGES.iter().filter(|damage| damage.told.iter().any(|(line, _)| *line == at)).collect();
        if lines[at].iter().any(u8::is_ascii_alphabetic) || at < 3 {
            one_of(numbers, &fitting).spoil(numbers, &mut lines, at);
        }
        if numbers.one_in(3) {
            break;
        }
    }
    lines.concat()
}

/// A drawing with any bytes changed, put in or taken out.
pub fn changed_text(numbers: &mut Numbers, record: u64) -> Vec<u8> {
    let mut text = drawn(record).into_bytes();
    for _ in 0..1 + numbers.below(3) {
        let (at, byte) = (numbers.below(text.len() as u64) as usize, numbers.byte());
        let byte = if numbers.one_in(2) { one_of(numbers, b"#.LTB-\n\r street car in out") } else { byte };
        match numbers.below(3) {
            0 => text[at] = byte,
            1 => text.insert(at, byte),
            _ => {
                text.remove(at);
            }
        }
    }
    text
}
