//! The numbers that the paper of the first garage gives of its state space and of its cars, counted again: the sound records of the whole
//! floor and the most cars at each height, by the proved `garage_cars`, and once more by the cars that the plain engine's walk lists; and the
//! sound records, states and steps of the paper's reduced floor, by the reference's rules on it. The paper has no drives, which begin and end here: records with one under way are counted beside
//! those without.
use std::collections::HashSet;
use std::hash::{BuildHasherDefault, Hasher};
use std::ops::Range;

use reduced::{bit, cars, drive_under_way, sound, Instruction, Station, BEGIN_IN, BEGIN_OUT, DRIVE_IN, END_DONE, END_NOT_DONE, START};
use station::raw::{panel as panel_raw, station as raw};

/// The cars of an image of the whole floor by the station's own code; none where it isn't sound.
fn garage_cars(image: u64) -> Option<u32> {
    Some(unsafe { raw::garage_cars(image) }).filter(|&cars| cars != 255)
}

/// The same by walking its rows.
fn walked_cars(image: u64) -> Option<u32> {
    let mut room = [0; 31];
    let answer = unsafe { panel_raw::panel_cars(image, room.as_mut_ptr(), room.len()) };
    (answer as u8 == 0).then_some(answer >> 16)
}

/// How many records, by their cars: none has more.
const MOST: usize = 30;
type ByCars = [u64; MOST + 1];

/// How many ways to fill some cells make a sound record of one whose cells are free, by the cars that this adds.
fn fillings(cars: fn(u64) -> Option<u32>, record: u64, cells: &Range<u32>) -> ByCars {
    let (mut ways, without) = ([0; MOST + 1], cars(record).unwrap_or(0));
    let found = (0..1u64 << cells.len()).filter_map(|filled| cars(record | filled << cells.start));
    found.for_each(|with| ways[(with - without) as usize] += 1);
    ways
}

/// The ways to do both.
fn both(one: ByCars, other: ByCars) -> ByCars {
    let mut ways = [0; MOST + 1];
    for (cars, found) in one.iter().enumerate().filter(|(_, found)| **found > 0) {
        for (more, beside) in other.iter().enumerate().filter(|(_, beside)| **beside > 0) {
            ways[cars + more] += found * beside;
        }
    }
    ways
}

/// What is counted of records: of those with no drive under way, then of those with one.
type Counts<T = u64> = [T; 2];

/// The sound records of a floor by bits 52 to 56, which are the lift's and the drives', and by their cars. Each rule of soundness speaks of
/// cells of one row alone, and so do cars, so the rows are counted apart, for every setting of shuttles, lift and drives; and row 1 once
/// for those that agree on its two lowered shuttles, the lift and the drives.
fn sound_records(cars: fn(u64) -> Option<u32>, row_1: Range<u32>, others: [Range<u32>; 2]) -> [ByCars; 32] {
    let (mut first_row, mut records) = ([None; 128], [[0; MOST + 1]; 32]);
    for bits in 0..1u64 << 17 {
        let record = bits << 40;
        let Some(raised) = cars(record) else { continue };
        let with_row_1 = (bits >> 12) << 2 | (bits >> 3 & 1) << 1 | bits & 1;
        let ways = *first_row[with_row_1 as usize].get_or_insert_with(|| fillings(cars, record, &row_1));
        let ways = others.iter().fold(ways, |ways, row| both(ways, fillings(cars, record, row)));
        let of_the_lift = &mut records[(bits >> 12) as usize];
        ways.iter().enumerate().filter(|(_, found)| **found > 0).for_each(|(cars, found)| of_the_lift[cars + raised as usize] += found);
    }
    records
}

/// All of them, without a drive under way and with one.
fn in_all(records: &[ByCars; 32]) -> Counts {
    let mut totals = [0; 2];
    for (lift, by_cars) in (0u64..).zip(records) {
        totals[usize::from(drive_under_way(lift << 52))] += by_cars.iter().sum::<u64>();
    }
    totals
}

/// The most cars of any of some records, and how many of them have so many.
fn most_cars(by_cars: &ByCars) -> (usize, u64) {
    by_cars.iter().copied().enumerate().rfind(|(_, found)| *found > 0).unwrap_or((0, 0))
}

/// The lift's settings with no drive under way: its name, its bits, the most cars, how many records have them, and one of them.
const LIFTS: [(&str, usize, usize, u64, u64); 5] = [
    ("at street, empty", 0b000, 28, 24, 0x0000_3FFF_FFFF_C3FF),
    ("at street, with a car", 0b001, 29, 24, 0x0010_3FFF_FFFF_C3FF),
    ("at rotation, empty", 0b010, 28, 24, 0x0020_3FFF_FFFF_C3FF),
    ("at rotation, with a car", 0b011, 29, 24, 0x0030_3FFF_FFFF_C3FF),
    ("in the basement", 0b100, 30, 1, 0x0040_3FFF_FFFF_FFFF),
];

/// The most cars of the whole floor at each height; and how many records have no more than the drives of the station alone can bring
/// about, a car on its way in counted.
fn whole_floor(records: &[ByCars; 32]) {
    for (name, lift, most, found, one) in LIFTS {
        println!("counts: with the lift {name}: at most {} cars, which {} have", most_cars(&records[lift]).0, most_cars(&records[lift]).1);
        assert_eq!((most_cars(&records[lift]), garage_cars(one)), ((most, found), Some(most as u32)), "{name}");
        assert_eq!(one >> 52, lift as u64);
    }
    let (mut within, mut beyond) = (0, 0);
    for (lift, by_cars) in (0u64..).zip(records) {
        let coming = usize::from(bit(lift << 52, DRIVE_IN));
        for (cars, found) in by_cars.iter().enumerate() {
            *if cars + coming <= 27 { &mut within } else { &mut beyond } += found;
        }
    }
    println!("counts: {within} sound records with at most 27 cars in or on their way in, {beyond} with more");
    assert_eq!((within, beyond), (807_425_532_386, 7_710));
}

/// How many sound records there are for each setting of a raised lift and its drive.
const RAISED: u64 = 83_915_440_128;

/// The lift's lines that drawings of sound records have, by bits 52 to 56: the words, the length of such a drawing, and how many there are.
const DRAWN: [(usize, &str, usize, u64); 7] = [
    (0b00000, "street", 58, RAISED),
    (0b01000, "street in", 61, RAISED),
    (0b00001, "street car", 62, RAISED),
    (0b10001, "street car out", 66, RAISED),
    (0b00010, "rotation", 60, RAISED),
    (0b00011, "rotation car", 64, RAISED),
    (0b00100, "basement", 60, 303_932_899_328),
];

/// How many drawings have each of these lines, and that no sound record has another.
fn drawings(records: &[ByCars; 32]) {
    let counted = |lift: usize| records[lift].iter().sum::<u64>();
    for (lift, words, length, found) in DRAWN {
        println!("counts: {} drawings with the lift's line `{words}`, of {length} bytes", counted(lift));
        assert_eq!((counted(lift), 52 + words.len()), (found, length), "{words}");
    }
    let others = (0..32).filter(|lift| DRAWN.iter().all(|drawn| drawn.0 != *lift));
    assert_eq!(others.map(counted).sum::<u64>(), 0);
}

/// Spreads a record's bits over the table.
#[derive(Default)]
struct Spread(u64);

impl Hasher for Spread {
    fn finish(&self) -> u64 {
        self.0
    }
    fn write(&mut self, bytes: &[u8]) {
        bytes.iter().for_each(|&byte| self.write_u64(byte.into()))
    }
    fn write_u64(&mut self, word: u64) {
        let mixed = (self.0 ^ word).wrapping_mul(0x9E37_79B9_7F4A_7C15);
        self.0 = mixed ^ mixed >> 29;
    }
}

type Records = HashSet<u64, BuildHasherDefault<Spread>>;

/// Steps by their kind: the five opcodes; then begins of drives, ends that are done, ends that are not.
type Steps = [u64; 8];

/// The records that the reduced floor comes to from the start, and the steps from them: every instruction that is allowed and, during a
/// drive, leaves the lift alone; and every event that is taken. The paper's steps are those from records with no drive under way, where a
/// car's coming or going is one step: here it is the begin, whose done end leads to where the paper's step does.
fn reduced_floor() -> (Records, Counts<Steps>) {
    let bytes = (1..=5u8)
        .flat_map(|op| (0..4u8).flat_map(move |a| (0..32u8).flat_map(move |b| (0..4u8).map(move |cd| [op, a, b, cd >> 1, cd & 1]))));
    let instructions: Vec<_> = bytes.filter_map(|five| Some((usize::from(five[0]) - 1, Instruction::read(five)?))).collect();
    assert_eq!(instructions.len(), 272);
    let beside_a_drive: Vec<_> = instructions.iter().copied().filter(|(_, one)| !one.takes_lift()).collect();
    let mut seen = Records::from_iter([START]);
    let (mut waiting, mut steps) = (vec![START], [[0; 8]; 2]);
    while let Some(record) = waiting.pop() {
        assert!(sound(record));
        let drive = drive_under_way(record);
        let may = if drive { &beside_a_drive } else { &instructions };
        let moved = may.iter().filter(|(_, one)| one.allowed(record)).map(|(kind, one)| (*kind, one.next(record)));
        let events = [(5, BEGIN_IN), (5, BEGIN_OUT), (6, END_DONE), (7, END_NOT_DONE)];
        let driven = events.into_iter().filter_map(|(kind, event)| {
            let mut station = Station { record, ..Station::start() };
            (station.event(event).number == 0).then_some((kind, station.record))
        });
        for (kind, next) in moved.chain(driven) {
            steps[usize::from(drive)][kind] += 1;
            if seen.insert(next) {
                waiting.push(next);
            }
        }
    }
    (seen, steps)
}

pub fn main(_words: &[String]) {
    // as docs/NUMBERS.md has them
    let records = sound_records(garage_cars, reference::ROW_1, reference::OTHER_ROWS);
    let [alone, driven] = in_all(&records);
    println!("counts: {alone} sound records of the whole floor with no drive under way, {driven} with one, {} in all", alone + driven);
    assert_eq!((alone, alone + driven), (639_594_659_840, 807_425_540_096));

    whole_floor(&records);
    drawings(&records);
    assert!(sound_records(walked_cars, reference::ROW_1, reference::OTHER_ROWS) == records, "the walk counts otherwise");
    println!("counts: the same by the plain engine's walk, for each setting of the lift and each number of cars");

    let sound_ones = in_all(&sound_records(cars, reduced::ROW_1, reduced::OTHER_ROWS));
    let (reached, steps) = reduced_floor();
    let driven = reached.iter().filter(|record| drive_under_way(**record)).count();
    let states = [reached.len() - driven, driven];
    let all_steps = steps.map(|kinds| kinds.iter().sum::<u64>());
    println!("counts: {states:?} states of the reduced floor without and with a drive, of {sound_ones:?} sound ones; {all_steps:?} steps");
    assert_eq!((sound_ones, states), ([3_300_864, 860_672], [3_300_863, 860_672]));
    assert_eq!(steps[0], [71_457_408, 16_781_824, 3_544_064, 5_164_032, 61_952, 860_672, 0, 0]);
    assert_eq!(steps[1], [14_925_824, 4_366_336, 923_648, 0, 0, 0, 860_672, 860_672]);
    let with_drives: Vec<u64> = steps[0].iter().zip(steps[1]).map(|(without, with)| without + with).collect();
    println!("counts: with drives {} states, and steps by kind {with_drives:?}", reached.len());
    assert_eq!((reached.len(), with_drives.iter().sum::<u64>()), (4_161_535, 119_807_104));
    assert_eq!(with_drives, [86_383_232, 21_148_160, 4_467_712, 5_164_032, 61_952, 860_672, 860_672, 860_672]);

    // every cell occupied, all shuttles lowered, the lift in the basement: the one that isn't reached
    let cells = [reduced::ROW_1].into_iter().chain(reduced::OTHER_ROWS).flatten().fold(0, |record, cell| record | 1u64 << cell);
    let full = cells | 0b111_111 << 40 | 2 << 53;
    assert!(sound(full) && !reached.contains(&full));
}
