//! What the explainer shows, read back: the paragraphs of its text, the answers as the bytes that tell them, floors and parts.

use shared::texts::listed;

/// A paragraph: the message's number in the log, where it stands, which way it went, its bytes, the bytes of the answer that is told, and
/// all its lines below the bytes.
pub struct Told {
    pub number: usize,
    pub at: String,
    pub sent: bool,
    pub bytes: Vec<u8>,
    pub reply: Option<Vec<u8>>,
    pub lines: Vec<String>,
}

/// The bytes of a line that has nothing else.
fn bytes_of(line: &str) -> Option<Vec<u8>> {
    let byte = |word: &str| if word.len() == 2 { u8::from_str_radix(word, 16).ok() } else { None };
    let all: Option<Vec<u8>> = line.split(' ').map(byte).collect();
    all.filter(|bytes| !bytes.is_empty())
}

/// A number that stands in decimal and, the same, in hexadecimal.
fn both(words: &str) -> Option<u16> {
    let (decimal, hexadecimal) = words.split_once(" = 0x")?;
    let number: u16 = decimal.parse().ok()?;
    (u16::from_str_radix(hexadecimal, 16).ok()? == number).then_some(number)
}

/// The message that an answer's line tells.
fn reply_of(line: &str) -> Option<Vec<u8>> {
    if let Some(image) = line.strip_prefix("answer image ") {
        let (image, apart) = image.split_once("; set apart ")?;
        let (apart, words) = apart.split_once(": ")?;
        let (image, apart) = (bytes_of(image)?, bytes_of(apart)?);
        assert_eq!(parts_in(words), u64::from_le_bytes(*apart.first_chunk()?), "{line}");
        return Some([&[18, 0, 129, 0], &image[..], &apart[..]].concat());
    }
    let (number, rest) = line.strip_prefix("answer ")?.split_once(": ")?;
    let (_, rest) = rest.split_once("; place ")?;
    let (rest, issue) = rest.rsplit_once("; issue ")?;
    let (place, _) = rest.split_once(": ")?;
    let [low, high] = both(issue)?.to_le_bytes();
    Some(vec![6, 0, 128, 0, u8::try_from(both(number)?).ok()?, u8::try_from(both(place)?).ok()?, low, high])
}

/// The paragraphs of a text; what stands between them is the floor before one.
pub fn paragraphs(text: &str) -> Vec<Told> {
    let mut all: Vec<Told> = Vec::new();
    let mut inside = false;
    for line in text.lines() {
        if let Some(head) = line.strip_prefix("message ") {
            let fields: Vec<&str> = head.split(", ").collect();
            let [number, at, way] = fields[..] else { panic!("`{line}`") };
            let (number, sent) = (number.parse().expect("a number"), way == "to the station");
            all.push(Told { number, at: at.to_string(), sent, bytes: Vec::new(), reply: None, lines: Vec::new() });
            inside = true;
        } else if !line.is_empty() && !line.starts_with(' ') {
            inside = false;
        } else if let Some(told) = all.last_mut().filter(|_| inside) {
            let said = line.strip_prefix("  ").unwrap_or(line);
            match bytes_of(said).filter(|_| told.lines.is_empty()) {
                Some(bytes) => told.bytes.extend(bytes),
                None => {
                    told.reply = told.reply.take().or_else(|| reply_of(said));
                    told.lines.push(said.to_string());
                }
            }
        }
    }
    all
}

/// The parts that words name, as a number.
pub fn parts_in(words: &str) -> u64 {
    let one = |part: &str| match part {
        "nothing" => 0,
        "the lift" => 1 << 52,
        _ => match part.strip_prefix("the ") {
            Some(slot) => {
                let words: Vec<&str> = slot.split(' ').collect();
                let ["lowered" | "tilted", "slot", side, "in", "row", row] = words[..] else { panic!("`{part}`") };
                let (tilted, right) = (u32::from(words[0] == "tilted"), u32::from(side == "right"));
                1 << (39 + 6 * tilted + 3 * right + row.parse::<u32>().expect("a row"))
            }
            None => {
                let cells = part.strip_prefix("cells ").or(part.strip_prefix("cell ")).and_then(listed).expect("cells");
                cells.into_iter().fold(0, |all, cell| all | 1 << cell)
            }
        },
    };
    words.split("; ").map(one).fold(0, |all, part| all | part)
}

/// A floor as it is shown: its drawing, what the wider view has (occupied cells, parts set apart with both slots of a shuttle as one,
/// letters of the shuttles), and the lines below it.
pub struct Floor {
    pub drawing: String,
    pub occupied: u64,
    pub apart: u64,
    pub letters: [String; 2],
    pub below: Vec<String>,
}

/// Where a cell stands in the view's line.
fn column(cell: u32) -> usize {
    let halves = if cell < 20 { cell as usize } else { 2 * (cell as usize % 10) };
    9 + 3 * halves + usize::from(halves >= 2) + usize::from(halves >= 18)
}

/// The view's line of a row: its cells' occupied ones and those set apart.
fn row(line: &[u8], cells: std::ops::Range<u32>) -> (u64, u64) {
    let (mut occupied, mut apart) = (0, 0);
    let wide = if cells.start == 0 { 3 } else { 6 };
    let mut second = false; // of a car in row 1
    for cell in cells {
        let at = |offset: usize| line.get(column(cell) + offset).copied().unwrap_or(b' ');
        // a free cell has its mark in the middle, and blanks or a border around it
        let free = matches!(at(wide / 2), b'.' | b'!') && matches!(at(0), b' ' | b'|') && !second;
        let edge = if second { at(wide - 1) } else { at(0) };
        if (if free { at(wide / 2) } else { edge }) == b'!' {
            apart |= 1 << cell;
        }
        if !free {
            occupied |= 1 << cell;
        }
        second = !free && !second && wide == 3;
    }
    (occupied, apart)
}

/// The floor that some lines show behind a title.
pub fn floor(lines: &[String], title: &str) -> Option<Floor> {
    let from = lines.iter().position(|line| line == title)? + 1;
    let text: Vec<&str> = lines[from..].iter().map(|line| line.strip_prefix("  ").unwrap_or(line)).collect();
    let (mut occupied, mut apart, mut letters) = (0, 0, [String::new(), String::new()]);
    for (at, cells) in [(8, 0..20), (10, 20..30), (12, 30..40)] {
        let line = text[at].as_bytes();
        assert_eq!((text[at - 1].is_empty(), line.len() < 78), (false, true), "`{}`", text[at]);
        let found = row(line, cells);
        (occupied, apart) = (occupied | found.0, apart | found.1);
        let lowered = 40 + (at as u64 - 8) / 2;
        for (side, letter, mark) in [(0, line[6], line[7]), (1, line[73], line[72])] {
            letters[side].push(letter as char);
            if mark == b'!' {
                apart |= 1 << (lowered + 3 * side as u64);
            }
        }
    }
    let below = text[14..].iter().take_while(|line| !line.is_empty()).map(|line| line.to_string()).collect();
    Some(Floor { drawing: text[..6].iter().map(|line| format!("{line}\n")).collect(), occupied, apart, letters, below })
}
