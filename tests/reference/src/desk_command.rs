//! What each entry of desk.h must return and leave, by the reference. desk_command.h makes the same calls on the entries.

use crate::command::{put, said, Command, CODE, SHOWN};
use crate::desk::Desk;
use crate::desk_lists::{self, written, Line};
use crate::{answer, lent, Answer, NO_PLACE};

pub const START: u8 = 0;
pub const REQUEST: u8 = 1;
pub const EVENT: u8 = 2;
pub const RESULT: u8 = 3;
pub const IMAGE: u8 = 4;
pub const ASK: u8 = 5;
pub const WHERE: u8 = 6;
pub const LEAVING: u8 = 7;
pub const LIST: u8 = 8;
pub const OUTSTANDING: u8 = 9;
pub const COMPARE: u8 = 10;

/// The entries in the order of their numbers, each with the answer numbers that it can give: no others, and a long run gives them all.
pub const ENTRIES: [(&str, &[u8]); 11] = [
    ("desk_start", &[0, 17]),
    ("desk_request", &[0, 1, 4, 5, 6, 7, 8, 16, 17, 20, 21, 22, 23, 24, 25, 26, 27, 28, 31, 32]),
    ("desk_event", &[0, 4, 6, 10, 16, 17, 31, 32, 33, 37, 38]),
    ("desk_result", &[0, 4, 11, 12, 13, 16, 17, 29, 30]),
    ("desk_image", &[0, 1, 6, 15, 16, 17, 37, 38, 39]),
    ("desk_ask", &[0, 16, 17]),
    ("desk_where", &[0, 16, 17]),
    ("desk_leaving", &[0, 16, 17]),
    ("desk_list", &[0, 16, 17]),
    ("desk_outstanding", &[0, 16, 17]),
    ("desk_compare", &[0, 1, 6, 15, 16, 17, 37, 38, 39]),
];

/// The most numbers that an image can come with; of more none is looked at.
pub const CARDS_MOST: u8 = 31;
const CARD: usize = 4;

/// What is told of a card's car where it is only its last known place, and where it is in motion; above that the place that it would get.
const LAST_KNOWN: u16 = 1;
const MOVING: u16 = 2;

/// A call on the lent desk; bytes that are no desk are told so first. It is written back if the call is taken.
fn on_desk(room: &mut [u8], bytes_for_all: bool, call: impl FnOnce(&mut Desk) -> Answer) -> Answer {
    lent(room.len() >= Desk::SIZE, bytes_for_all, || {
        let Some(mut desk) = room.first_chunk().and_then(Desk::from_bytes) else { return answer(16) };
        let answer = call(&mut desk);
        if answer.number == 0 {
            put(room, &desk.to_bytes());
        }
        answer
    })
}

/// A question on the lent desk, which is not written; where it is answered, the answer is put to a room for so many bytes.
fn of_desk<const N: usize>(room: &[u8], bytes_for_all: bool, output: &mut [u8], asked: impl FnOnce(&Desk) -> (Answer, [u8; N])) -> Answer {
    lent(room.len() >= Desk::SIZE && output.len() >= N, bytes_for_all, || {
        let Some(desk) = room.first_chunk().and_then(Desk::from_bytes) else { return answer(16) };
        let (answer, bytes) = asked(&desk);
        if answer.number == 0 {
            put(output, &bytes);
        }
        answer
    })
}

/// The numbers of an image, lent as a run of bytes; none where fewer bytes are lent than so many have.
fn numbers(count: u8, run: &[u8]) -> Option<Vec<u32>> {
    let asked_for = if count <= CARDS_MOST { usize::from(count) } else { 0 };
    let cards = run.chunks_exact(CARD).take(asked_for).filter_map(|four| Some(u32::from_le_bytes(*four.first_chunk()?)));
    (run.len() >= CARD * asked_for).then(|| cards.collect())
}

/// Lines are told with how many they are.
fn counted<const N: usize>(told: Answer, lines: &[Line]) -> (Answer, [u8; N]) {
    (if told.number == 0 { Answer { place: lines.len() as u8, ..told } } else { told }, written(lines))
}

/// Where a card's car is: its place, or none; whether that is its last known one, or which one it would get.
fn told_where(desk: &Desk, card: u32) -> Answer {
    let (place, last) = desk.whereabouts(card).map_or((NO_PLACE, false), |(stand, last)| (stand.told(), last));
    let moving = desk.moving(card).map_or(0, |to| MOVING + 256 * u16::from(to.told()));
    Answer { place, issue: if last { LAST_KNOWN } else { moving }, ..answer(0) }
}

/// What the call returns; its rooms are left as it must leave them.
pub fn call(command: &mut Command) -> u32 {
    let &mut Command { entry, first, second, issue, image: record, apart, card, ref mut room, input, ref mut output } = command;
    said(match entry {
        START => lent(room.len() >= Desk::SIZE, true, || {
            put(room, &Desk::start().to_bytes());
            answer(0)
        }),
        REQUEST => on_desk(room, first > 8 || input.len() >= CODE * usize::from(first), |desk| desk.request(first, input)),
        EVENT => on_desk(room, true, |desk| desk.event(first, card)),
        RESULT => on_desk(room, true, |desk| desk.result(issue, first, second)),
        IMAGE => {
            let cards = numbers(first, input);
            on_desk(room, cards.is_some(), |desk| desk.image(record, apart, first, &cards.unwrap_or_default()))
        }
        ASK => of_desk::<SHOWN>(room, true, output, |desk| (answer(0), desk.station.shown())),
        WHERE => of_desk(room, true, &mut [], |desk| (told_where(desk, card), [])),
        LEAVING => of_desk(room, true, output, |desk| (answer(0), desk.leaving().unwrap_or(0).to_le_bytes())),
        LIST => of_desk::<{ desk_lists::LIST }>(room, true, output, |desk| counted(answer(0), &desk.list())),
        OUTSTANDING => of_desk(room, true, output, |desk| (answer(0), desk.outstanding())),
        _ => {
            let cards = numbers(first, input);
            of_desk::<{ desk_lists::CHANGES }>(room, cards.is_some(), output, |desk| {
                let (told, lines) = desk.compare(record, apart, first, &cards.unwrap_or_default());
                counted(told, &lines)
            })
        }
    })
}
