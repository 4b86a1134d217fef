//! The words for people: instructions as the texts of plans and of the panel have them (docs/PLANS.md, docs/PANEL.md), read and written, and
//! records in hexadecimal.

/// Rows, from number 1 on.
pub const ROWS: [&str; 3] = ["1", "2", "3"];
/// The belts of row 1, by their bits.
pub const BELTS_OF_ROW_1: [&str; 5] = ["left-shuttle", "left", "lift", "right", "right-shuttle"];
/// The belts of rows 2 and 3, by their bits.
pub const BELTS: [&str; 3] = ["left-shuttle", "middle", "right-shuttle"];
/// Toward which columns or rows, by their numbers; the same below.
pub const WAYS: [&str; 2] = ["lower", "higher"];
/// How far belts go.
pub const SIZES: [&str; 2] = ["half", "full"];
/// The sides of the shuttles.
pub const SIDES: [&str; 2] = ["left", "right"];
/// How a shuttle stands.
pub const ORIENTATIONS: [&str; 2] = ["lowered", "tilted"];
/// The heights of the lift.
pub const HEIGHTS: [&str; 3] = ["street", "rotation", "basement"];
const INSTRUCTIONS: [&str; 5] = ["belts", "shuttles", "tilt", "lift", "rotate"];

/// What is wrong with a line, in words.
pub type Wrong = String;

fn listed(names: &[&str]) -> String {
    match names {
        [] => String::new(),
        [one] => format!("`{one}`"),
        [before @ .., last] => format!("{} or `{last}`", before.iter().map(|name| format!("`{name}`")).collect::<Vec<_>>().join(", ")),
    }
}

/// The words of a line that are still to be read; commas stand between words as spaces do.
pub struct Words<'a>(Vec<&'a str>);

impl<'a> Words<'a> {
    /// The words of a line.
    pub fn of(line: &'a str) -> Self {
        Words(line.split(|letter: char| letter.is_whitespace() || letter == ',').filter(|word| !word.is_empty()).rev().collect())
    }

    fn wrong(&self, expected: &str) -> Wrong {
        match self.0.last() {
            Some(word) => format!("expected {expected}, found `{word}`"),
            None => format!("expected {expected}, and the line ends"),
        }
    }

    /// The place of the next word among some, if it is one of them.
    pub fn among(&mut self, names: &[&str]) -> Option<u8> {
        let at = names.iter().position(|name| self.0.last() == Some(name))?;
        self.0.pop();
        Some(at as u8)
    }

    /// The place of the next word among some, or what is wrong with it.
    pub fn one_of(&mut self, names: &[&str]) -> Result<u8, Wrong> {
        self.among(names).ok_or_else(|| self.wrong(&listed(names)))
    }

    /// Of all that come next, a bit for each name; the words that may follow them are told too where neither comes.
    fn all_of(&mut self, names: &[&str], then: &[&str]) -> Result<u8, Wrong> {
        let mut mask = 0;
        while let Some(at) = self.among(names) {
            if mask >> at & 1 == 1 {
                return Err(format!("`{}` stands twice", names[usize::from(at)]));
            }
            mask |= 1 << at;
        }
        let follows = self.0.last().is_some_and(|word| then.contains(word));
        if follows {
            Ok(mask)
        } else {
            Err(self.wrong(&listed(&[names, then].concat())))
        }
    }

    /// All that are left, as one.
    pub fn rest(&mut self) -> String {
        self.0.drain(..).rev().collect()
    }

    /// That no word is left.
    pub fn end(&self) -> Result<(), Wrong> {
        self.0.last().map_or(Ok(()), |word| Err(format!("`{word}` and what follows it is more than the line can say")))
    }
}

/// The bytes of a record, the lowest first, from sixteen digits.
pub fn record_in(digits: &str) -> Option<[u8; 8]> {
    if digits.len() != 16 || !digits.bytes().all(|digit| digit.is_ascii_hexdigit()) {
        return None;
    }
    let byte = |at: usize| u8::from_str_radix(&digits[2 * at..2 * at + 2], 16).unwrap_or(0);
    Some(std::array::from_fn(byte))
}

/// The belts of a row.
pub fn belts_of(row: u8) -> &'static [&'static str] {
    if row == 1 {
        &BELTS_OF_ROW_1
    } else {
        &BELTS
    }
}

/// An instruction's five bytes.
pub fn instruction(words: &mut Words) -> Result<[u8; 5], Wrong> {
    let op = 1 + words.one_of(&INSTRUCTIONS)?;
    Ok(match op {
        1 => {
            words.one_of(&["row"])?;
            let row = 1 + words.one_of(&ROWS)?;
            let mask = words.all_of(belts_of(row), &WAYS)?;
            [op, row, mask, words.one_of(&WAYS)?, words.one_of(&SIZES)?]
        }
        2 => {
            let side = words.one_of(&SIDES)?;
            words.one_of(&["rows", "row"])?;
            let mask = words.all_of(&ROWS, &ORIENTATIONS)?;
            [op, side, mask, words.one_of(&ORIENTATIONS)?, words.one_of(&WAYS)?]
        }
        3 => {
            let side = words.one_of(&SIDES)?;
            words.one_of(&["row"])?;
            [op, side, 1 + words.one_of(&ROWS)?, words.one_of(&ORIENTATIONS)?, 0]
        }
        4 => [op, words.one_of(&HEIGHTS)?, 0, 0, 0],
        _ => [op, 0, 0, 0, 0],
    })
}

/// The word of a number.
pub fn word(names: &[&'static str], at: u8) -> &'static str {
    names.get(usize::from(at)).copied().unwrap_or("?")
}

/// The names whose bits a mask has.
pub fn named(names: &[&'static str], mask: u8) -> Vec<&'static str> {
    (0..).zip(names).filter(|(at, _)| mask >> at & 1 == 1).map(|(_, name)| *name).collect()
}

/// The line of an instruction that was read.
pub fn line_of([op, a, b, c, d]: [u8; 5]) -> String {
    let listed = |names: &[&'static str]| named(names, b).iter().map(|name| format!(" {name}")).collect::<String>();
    match op {
        1 => format!("belts row {a}{}, {}, {}", listed(belts_of(a)), word(&WAYS, c), word(&SIZES, d)),
        2 => {
            let rows = if b.count_ones() == 1 { "row" } else { "rows" };
            format!("shuttles {} {rows}{} {} {}", word(&SIDES, a), listed(&ROWS), word(&ORIENTATIONS, c), word(&WAYS, d))
        }
        3 => format!("tilt {} row {b} {}", word(&SIDES, a), word(&ORIENTATIONS, c)),
        4 => format!("lift {}", word(&HEIGHTS, a)),
        _ => "rotate".to_string(),
    }
}
