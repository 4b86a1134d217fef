//! Which kinds of instructions go together in one set: the table of a page, held against the archive's own answer for every two of the
//! well-formed instructions. The word of each cell must be the first of `WORDS` that says of all its pairs whether they overlap.
use station::raw::station as raw;
use std::collections::BTreeMap;

pub type Five = [u8; 5];

/// The kinds as the table names them, its rows and its first columns; the last column is for two that have different sides.
const KINDS: [&str; 10] = [
    "belts 1",
    "belts 1, lift's too",
    "belts 2",
    "belts 3",
    "shuttles lowered",
    "shuttles tilted",
    "tilt from lowered",
    "tilt from tilted",
    "lift",
    "rotate",
];
const OTHER_SIDE: &str = "of the other side";

/// The kind of an instruction, by its bytes; one that names no belt and no row has none.
fn kind(five: &Five) -> Option<usize> {
    Some(match *five {
        [1 | 2, _, 0, ..] => return None,
        [1, 1, mask, ..] => usize::from(mask >> 2 & 1 == 1),
        [1, row, ..] => usize::from(row),
        [2, _, _, orientation, _] => 4 + usize::from(orientation),
        [3, _, _, orientation, _] => 6 + usize::from(orientation),
        [op, ..] => usize::from(op) + 4,
    })
}

fn side(five: &Five) -> Option<u8> {
    matches!(five[0], 2 | 3).then_some(five[1])
}

/// The rows that an instruction takes at a side: belts their row, where they name that side's shuttle belt; shuttles the rows that they
/// name and those one on; a tilt its row.
fn rows(five: &Five, at: u8) -> u8 {
    match *five {
        [1, row, mask, ..] => {
            (mask
                >> if at == 0 {
                    0
                } else if row == 1 {
                    4
                } else {
                    2
                }
                & 1)
                << (row - 1)
        }
        [2, side, mask, _, toward] if side == at => (mask | if toward == 1 { mask << 1 } else { mask >> 1 }) & 7,
        [3, side, row, ..] if side == at => 1 << (row - 1),
        _ => 0,
    }
}

/// The belts that it names, by their row: a rotation the left and the right one.
fn belts(five: &Five) -> (u8, u8) {
    match *five {
        [1, row, mask, ..] => (row, mask),
        [5, ..] => (1, 0b01010),
        _ => (0, 0),
    }
}

/// What a cell may say, and whether it then says of two that they overlap.
type Says = fn(&Five, &Five) -> bool;
const WORDS: [(&str, Says); 5] = [
    ("always", |_, _| false),
    ("never", |_, _| true),
    ("by belts", |one, other| belts(one).0 == belts(other).0 && belts(one).1 & belts(other).1 != 0),
    ("by rows", |one, other| (0..2).any(|side| rows(one, side) & rows(other, side) != 0)),
    ("by side", |one, other| (0..2).any(|side| rows(one, side) != 0 && rows(other, side) != 0)),
];

/// The archive's own answer, number and place.
fn asked(one: &Five, other: &Five) -> (u32, u32) {
    let answer = unsafe { raw::garage_overlap(one.as_ptr(), one.len(), other.as_ptr(), other.len()) };
    (answer & 255, answer >> 8)
}

/// An instruction's area, as the archive writes it.
fn area(five: &Five) -> u64 {
    let mut area = [0; 8];
    let answer = unsafe { raw::garage_area(five.as_ptr(), five.len(), area.as_mut_ptr(), area.len()) };
    assert_eq!(answer, 255 << 8, "{five:?}");
    u64::from_le_bytes(area)
}

/// The cells of the page's table, by the names of their row and column.
fn table(page: &str) -> BTreeMap<(String, String), String> {
    let cells = |line: &str| -> Vec<String> { line.trim_matches('|').split('|').map(|cell| cell.trim().to_string()).collect() };
    let mut lines = page.lines().skip_while(|line| !line.starts_with("| goes with |"));
    let columns = cells(lines.next().expect("the page has a table of what goes with what"));
    let rows = lines.skip(1).take_while(|line| line.starts_with('|')).map(cells);
    let mut told = BTreeMap::new();
    for row in rows {
        assert_eq!(row.len(), columns.len(), "{row:?}");
        told.extend(columns[1..].iter().zip(&row[1..]).map(|(column, cell)| ((row[0].clone(), column.clone()), cell.clone())));
    }
    told
}

/// Holds the page's table against the answers; says how many pairs were asked for.
pub fn held(page: &str, all: &[Five]) -> usize {
    let mut met: BTreeMap<(String, String), Vec<(&Five, &Five, bool)>> = BTreeMap::new();
    for (one, other) in all.iter().flat_map(|one| all.iter().map(move |other| (one, other))) {
        let overlap = area(one) & area(other) != 0;
        assert_eq!(asked(one, other), if overlap { (8, 1) } else { (0, 255) }, "{one:?} and {other:?}");
        let (Some(kind_of_one), Some(kind_of_other)) = (kind(one), kind(other)) else {
            assert!(!overlap, "{one:?} and {other:?}: one of them names nothing");
            continue;
        };
        let differ = side(one).zip(side(other)).is_some_and(|(one, other)| one != other);
        let column = if differ { OTHER_SIDE } else { KINDS[kind_of_other] };
        met.entry((KINDS[kind_of_one].to_string(), column.to_string())).or_default().push((one, other, overlap));
    }
    let mut told = table(page);
    told.retain(|_, word| !word.is_empty());
    assert!(told.keys().eq(met.keys()), "the table's cells are {:?}, those that pairs meet {:?}", told.keys(), met.keys());
    for (cell, pairs) in &met {
        let fits = |says: &Says| pairs.iter().all(|(one, other, overlap)| says(one, other) == *overlap);
        let word = WORDS.iter().find(|(_, says)| fits(says)).map(|(word, _)| *word);
        assert_eq!(word, Some(told[cell].as_str()), "{cell:?}: first what its pairs say, then the page");
    }
    all.len() * all.len()
}
