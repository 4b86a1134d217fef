//! The questions about all cars, what is outstanding, and what an image would change, asked of a desk in a long run. Beside the reference's
//! answers they are held against each other and against what calls do then: a line of the list is what is told of where that car is; the
//! list is what an image with the same record wants back; exactly the results that are told as waiting are taken; and an image that is
//! accepted changes what was told before, and nothing else.

use super::judge::Judge;
use super::met::{Met, Spot};
use reference::desk::Desk;
use reference::desk_command::{COMPARE, LIST, OUTSTANDING, WHERE};
use reference::desk_lists::{CHANGES, LINE, LIST as LIST_SIZE, OPEN, WAITS};
use reference::FAILED;
use shared::trials::Given;
use std::collections::{BTreeMap, BTreeSet};

/// What a byte is that no call has written, and how many of them stand behind what is lent for the lines.
const UNTOUCHED: u8 = 0xEE;
const BEHIND: usize = 3;
const NOT_HERE: u8 = 255;

/// A line as it was written: the card, its place, the flag and the next place.
type Line = (u32, u8, u8, u8);

/// The lines of an answer that is taken; behind them are zeros, and behind these nothing is written.
fn lines(answer: u32, output: &[u8], size: usize) -> Vec<Line> {
    let [number, count, rest @ ..] = answer.to_le_bytes();
    assert_eq!((number, rest), (0, [0, 0]), "lines are told with how many they are");
    let (told, behind) = output[..size].split_at(LINE * usize::from(count));
    assert!(behind.iter().all(|&byte| byte == 0) && output[size..].iter().all(|&byte| byte == UNTOUCHED), "{output:02X?}");
    let line = |eight: &[u8]| match *eight {
        [a, b, c, d, place, flag, next, 0] => (u32::from_le_bytes([a, b, c, d]), place, flag, next),
        _ => panic!("{eight:02X?} is no line"),
    };
    told.chunks_exact(LINE).map(line).collect()
}

fn asked(entry: u8, bytes: &[u8], size: usize) -> Given {
    Given { entry, room: bytes.to_vec(), output: vec![UNTOUCHED; size + BEHIND], ..Given::default() }
}

/// An image with its numbers, as it is compared.
pub fn comparing(image: &Given, bytes: &[u8]) -> Given {
    Given { entry: COMPARE, ..image.on(bytes.to_vec(), image.input.clone(), vec![UNTOUCHED; CHANGES + BEHIND]) }
}

/// Where each card is: the cars, and the one that waits.
fn places(desk: &Desk) -> BTreeMap<u32, u8> {
    let cars = desk.cars.iter().map(|car| (car.card, car.stand.told()));
    cars.chain(desk.coming.map(|card| (card, WAITS))).collect()
}

/// Asks for all cars and for what is outstanding; gives how many questions it asked.
pub fn ask(at: usize, judge: &mut Judge, desk: &Desk, bytes: &[u8], met: &mut BTreeSet<Met>) -> usize {
    let (answer, room, output) = judge.compared(at, &asked(LIST, bytes, LIST_SIZE));
    assert_eq!(room, bytes, "a question changes nothing");
    let list = lines(answer, &output, LIST_SIZE);
    assert!(list.is_sorted_by(|one, next| one.1 < next.1), "{list:?} is not in the order of the places");
    assert_eq!(list.iter().map(|&(card, place, ..)| (card, place)).collect::<BTreeMap<_, _>>(), places(desk));
    for &(card, place, flag, next) in &list {
        let (answer, ..) = judge.compared(at, &Given { card, ..asked(WHERE, bytes, 0) });
        let told = if place == WAITS { [0, NOT_HERE, 0, 0] } else { [0, place, flag, next] };
        assert_eq!(answer.to_le_bytes(), told, "the list has {card} otherwise than where it is");
        met.insert(Met::Listed { spot: Spot::of(place), flag });
    }
    // what an image of the same record wants back, unless something is outstanding
    let cards: Vec<u8> = list.iter().flat_map(|line| line.0.to_le_bytes()).collect();
    let same = Given { image: desk.station.record, first: list.len() as u8, input: cards, ..Given::default() };
    let (answer, ..) = judge.compared(at, &comparing(&same, bytes));
    assert_eq!(answer, if desk.station.count == 0 { 0 } else { 0xFF06 }, "what the list says would change something");
    3 + list.len() + open(at, judge, desk, bytes, met)
}

/// What is outstanding: exactly the results that it tells as waiting are taken.
fn open(at: usize, judge: &mut Judge, desk: &Desk, bytes: &[u8], met: &mut BTreeSet<Met>) -> usize {
    let (answer, room, output) = judge.compared(at, &asked(OUTSTANDING, bytes, OPEN));
    assert_eq!((answer, &room[..], &output[OPEN..]), (0xFF00, bytes, &[UNTOUCHED; BEHIND][..]));
    let [low, high, count, answered, ref set @ ..] = output[..OPEN] else { panic!("{output:02X?} are too few") };
    for number in 0..=8 {
        let waits = number < count && answered >> number & 1 == 0;
        let taken = desk.clone().result(u16::from_le_bytes([low, high]), number, FAILED).number == 0;
        assert_eq!(waits, taken, "{output:02X?} of instruction {number}");
    }
    assert!(set[5 * usize::from(count)..].iter().all(|&byte| byte == 0));
    met.insert(Met::Open { set: count > 0, answered: answered > 0 });
    1
}

/// Asks what an image would change, before it is sent.
pub fn compare(at: usize, judge: &mut Judge, image: &Given, bytes: &[u8]) -> (u32, Vec<u8>) {
    let (answer, room, output) = judge.compared(at, &comparing(image, bytes));
    assert_eq!(room, bytes, "a comparison changes nothing");
    (answer, output)
}

/// Holds what was told before an image against what it did: a number that it was refused with, and nothing written; or all changes.
pub fn hold(at: usize, (answer, output): (u32, Vec<u8>), number: u8, before: &Desk, after: &Desk, met: &mut BTreeSet<Met>) {
    assert_eq!(answer as u8, number, "call {at}: an image is answered otherwise than it was compared");
    if number != 0 {
        assert!(output.iter().all(|&byte| byte == UNTOUCHED), "call {at}: a comparison that is refused writes something");
        return;
    }
    let changes = lines(answer, &output, CHANGES);
    let (now, then) = (places(before), places(after));
    let mut told = now.clone();
    for &(card, place, _, next) in &changes {
        assert!(place != next && now.get(&card).copied().unwrap_or(NOT_HERE) == place, "call {at}: {card} is not at {place}");
        told.remove(&card);
        if next != NOT_HERE {
            told.insert(card, next);
        }
    }
    assert_eq!(told, then, "call {at}: an image changes something else than was told");
    let leaving = changes.iter().take_while(|line| line.1 != NOT_HERE).count();
    assert!(changes[leaving..].iter().all(|line| line.1 == NOT_HERE), "call {at}: those that appear come last");
    met.insert(Met::Changes { some: !changes.is_empty() });
    for &(_, place, flag, next) in &changes {
        met.insert(Met::Changed { from: Spot::of(place), to: Spot::of(next) });
        met.insert(Met::ChangedFrom { spot: Spot::of(place), flag });
        if changes.iter().any(|other| (other.1, other.3) == (next, place)) {
            met.insert(Met::Exchanged);
        }
    }
}
