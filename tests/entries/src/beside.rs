//! How much can go beside what, by the station's own archive: `beside RECORDS PAGE`. Every two of the 272 well-formed instructions are
//! asked for in one set, in either order: they must be told 8 at the second exactly if the reference's areas share a part. Counted are those that overlap,
//! and those that would if a lift run had all of row 1 in its area, as it had once. Then the same on so many sound records, of the two that
//! each allows: they must be taken exactly if their areas share nothing; and with a lift run, their results in either order must be, and leave
//! the same station. And the page's table of which kinds go together must say what the archive does (together.rs).
use reference::{Instruction, Parts, Station, DONE};
use shared::sound_records::{every_five, SoundRecords};
use shared::traffic::Numbers;
use station::raw::station as raw;

mod together;

/// How many pairs overlap, and how many would with all of row 1 in a lift run's area: of all, and of those with a lift run.
const OVERLAPPING: [usize; 2] = [10_448, 10_700];
const WITH_LIFT: [usize; 2] = [198, 450];

/// An instruction, its bytes, and its area; then the area where a lift run's has all of row 1.
struct Known {
    five: [u8; 5],
    one: Instruction,
    areas: [Parts; 2],
}

impl Known {
    fn lift_run(&self) -> bool {
        self.five[0] == 4
    }

    /// Whether the two overlap; then whether they would.
    fn meets(&self, other: &Known) -> [bool; 2] {
        [0, 1].map(|at| self.areas[at].meet(&other.areas[at]))
    }
}

fn instructions() -> Vec<Known> {
    let known = |five: [u8; 5]| {
        let one = Instruction::read(five)?;
        let area = one.area();
        Some(Known { five, one, areas: [area, if five[0] == 4 { area.and_cells(reference::ROW_1) } else { area }] })
    };
    every_five().into_iter().filter_map(known).collect()
}

/// A station of the archive.
type Room = [u8; Station::SIZE];

/// A set of two on a copy of a station: what is answered, number and place, and the station then.
fn asked(mut room: Room, first: &Known, second: &Known) -> (u32, u32, Room) {
    let set = [first.five, second.five].concat();
    let answer = unsafe { raw::station_request(room.as_mut_ptr(), room.len(), 2, set.as_ptr(), set.len()) };
    (answer & 255, answer >> 8 & 255, room)
}

/// Both are done, one after the other.
fn done(mut room: Room, order: [u8; 2]) -> Room {
    for number in order {
        let answer = unsafe { raw::station_result(room.as_mut_ptr(), room.len(), 0, number, DONE) };
        assert_eq!(answer & 255, 0, "result {number} of {order:?} on {room:02X?}");
    }
    room
}

/// How many are true, at each place.
fn count(totals: &mut [usize; 2], which: [bool; 2]) {
    totals.iter_mut().zip(which).for_each(|(total, is)| *total += usize::from(is));
}

fn told(what: &str, [all, all_once]: [usize; 2], [lift, lift_once]: [usize; 2]) {
    println!("{what}: {all}, of which {lift} with a lift run; with all of row 1 in its area {all_once} and {lift_once}");
}

pub fn main(words: &[String]) {
    let [_, records, page] = words else { panic!("usage: beside RECORDS PAGE") };
    let known = instructions();
    let (mut pairs, mut overlapping, mut with_lift) = (0, [0; 2], [0; 2]);
    for (at, first) in known.iter().enumerate() {
        for second in &known[at + 1..] {
            let meets = first.meets(second);
            for (one, other) in [(first, second), (second, first)] {
                let (number, place, _) = asked(Station::start().to_bytes(), one, other);
                assert_eq!((number, place) == (8, 1), meets[0], "{:?} and {:?}: {number} at {place}", one.five, other.five);
            }
            pairs += 1;
            count(&mut overlapping, meets);
            if first.lift_run() || second.lift_run() {
                count(&mut with_lift, meets);
            }
        }
        // beside a lift run may stand what doesn't have the lift: by the bytes, all but lift runs, rotations and belts that name its belt
        let names_lift = matches!(first.five, [1, 1, mask, ..] if mask >> 2 & 1 == 1) || first.five[0] >= 4;
        assert!(known.iter().filter(|other| other.lift_run()).all(|lift| first.meets(lift)[0] == names_lift));
    }
    println!("beside: {pairs} pairs of instructions, each asked for in either order and told 8 as the areas say");
    told("beside: so many overlap", overlapping, with_lift);
    assert_eq!((overlapping, with_lift), (OVERLAPPING, WITH_LIFT));

    let sound_records = SoundRecords::new();
    let (mut numbers, mut together, mut with_lift) = (Numbers(8), [0; 2], [0; 2]);
    for _ in 0..records.parse().expect("a number") {
        let record = sound_records.any(&mut numbers);
        let room = Station { record, ..Station::start() }.to_bytes();
        let allowed: Vec<&Known> = known.iter().filter(|known| known.one.asked(record).is_ok()).collect();
        for (at, first) in allowed.iter().enumerate() {
            for second in &allowed[at + 1..] {
                let apart = first.meets(second).map(|meets| !meets);
                let (number, _, taken) = asked(room, first, second);
                assert_eq!(number, if apart[0] { 0 } else { 8 }, "{:?} and {:?} on {record:#018x}", first.five, second.five);
                count(&mut together, apart);
                if !first.lift_run() && !second.lift_run() {
                    continue;
                }
                count(&mut with_lift, apart);
                if apart[0] {
                    assert_eq!(done(taken, [0, 1]), done(taken, [1, 0]), "{:?} and {:?} on {record:#018x}", first.five, second.five);
                }
            }
        }
    }
    told(&format!("beside: on {records} sound records so many pairs of allowed ones go together"), together, with_lift);

    let fives: Vec<together::Five> = known.iter().map(|known| known.five).collect();
    let asked = together::held(&std::fs::read_to_string(page).expect("the page is there"), &fives);
    println!("beside: the table of {page} says of {asked} pairs, in either order, whether they overlap as garage_overlap and the areas do");
}
