//! The desk's entries for C against the reference: `desk CALLS COMMANDS STACK PROGRAM..`. Commands through the program (entries.c) on desks
//! as they come and on handed-in ones of every sort that desk_handed.rs tells apart, in rooms long and short, with no more than so many
//! bytes of stack. Then a host's long run on one desk, from its start on: requests, results, drives with cards, images with numbers; after
//! each call the desk's bytes must be the reference's, and where each car is, which card is leaving, where all cars are and what is
//! outstanding is asked; before each image, what it would change. The reference looks itself at what is promised: its numbered cars are
//! those of the record, whichever of the stuck instructions finished, and a car that is told for sure stands there in each case. Every
//! number that each entry can give must have come, and no other, and all else that met.rs and filling.rs list. Each wrong desk must be found
//! out by a call.

mod judge;
mod lists;
mod met;
mod traffic;

use judge::Judge;
use met::{every_one, Met};
use reference::command;
use reference::desk::Desk;
use reference::desk_command::{self, call, ENTRIES, IMAGE, LEAVING, RESULT, START, WHERE};
use reference::{Call, Instruction, STUCK};
use shared::desk_handed::{self, handed, made, Handed};
use shared::filling;
use shared::traffic::{damaged_station, Numbers};
use shared::trials::{self, room_for, Given, Limits, Trial};
use std::collections::{BTreeMap, BTreeSet};
use std::process::exit;

/// Bytes that are no desk.
const UNFIT: u8 = 16;

/// The card numbers that some bytes are, so many of them at most.
fn cards_in(bytes: &[u8], most: u8) -> Vec<u32> {
    bytes.chunks_exact(4).take(most.into()).filter_map(|four| Some(u32::from_le_bytes(*four.first_chunk()?))).collect()
}

/// How many instructions that may have finished are looked at.
const LOOKED_AT: usize = 6;

/// A desk in a long run: as the reference keeps it, what got stuck since its last image, and the cards that have been here.
struct Watched {
    desk: Desk,
    stuck: Vec<Instruction>,
    seen: BTreeSet<u32>,
}

impl Watched {
    /// The call by the reference, on the desk that it keeps; its lent bytes play no part in it.
    fn take(&mut self, given: &Given) -> u8 {
        let desk = &mut self.desk;
        let held = desk.station.held().nth(given.first.into());
        let cards = cards_in(&given.input, given.first);
        let number = match given.entry {
            desk_command::REQUEST => desk.request(given.first, &given.input).number,
            desk_command::EVENT => desk.event(given.first, given.card).number,
            RESULT => desk.result(given.issue, given.first, given.second).number,
            IMAGE if given.first <= desk_command::CARDS_MOST && given.input.len() < 4 * usize::from(given.first) => 1,
            IMAGE => desk.image(given.image, given.apart, given.first, &cards).number,
            _ => 0,
        };
        if number == 0 && given.entry == RESULT && given.second == STUCK {
            self.stuck.extend(held);
        }
        if number == 0 && given.entry == IMAGE {
            self.stuck.clear();
        }
        self.seen.extend(desk.cars.iter().map(|car| car.card).chain(desk.coming));
        number
    }

    /// Looks at every choice of which instructions finished that wait or are stuck, of the first few, in two orders: the numbered cars,
    /// carried along, are those of the record then; those that are told for sure stand where they are told, and those in motion there or
    /// where they would get. Gives how many choices there are.
    fn every_choice(&self) -> usize {
        let may: Vec<Instruction> = self.desk.station.waiting().chain(self.stuck.iter().cloned()).take(LOOKED_AT).collect();
        for choice in 0..1usize << may.len() {
            let chosen: Vec<&Instruction> = (0..may.len()).filter(|at| choice >> at & 1 == 1).map(|at| &may[at]).collect();
            let mut after = self.desk.clone();
            let record = chosen.iter().fold(self.desk.station.record, |record, one| one.next(record));
            chosen.iter().for_each(|one| after.carry(one));
            let mut backward = self.desk.clone();
            chosen.iter().rev().for_each(|one| backward.carry(one));
            assert!(after.are_those_of(record) && backward.cars == after.cars, "{chosen:?} finished on {:?}: {after:?}", self.desk);
            for car in &after.cars {
                let (stand, last) = self.desk.whereabouts(car.card).expect("no number is lost");
                let there = *stand == car.stand || self.desk.moving(car.card).is_some_and(|to| to == car.stand);
                assert!(last || there, "{car:?} is told at {stand:?}, and {chosen:?} finished");
            }
        }
        1 << may.len()
    }

    /// Asks where each car is that is or was here, which card is leaving, where all cars are, and what is outstanding.
    fn ask(&self, at: usize, numbers: &mut Numbers, judge: &mut Judge, bytes: &[u8], met: &mut BTreeSet<Met>) -> usize {
        let gone: Vec<u32> = self.seen.iter().copied().filter(|&card| !self.desk.knows(card)).collect();
        let here = self.desk.cars.iter().map(|car| car.card).chain(self.desk.coming);
        let mut asked: Vec<u32> = here.chain([0, numbers.next() as u32]).collect();
        if !gone.is_empty() {
            asked.push(gone[numbers.below(gone.len() as u64) as usize]);
        }
        for &card in &asked {
            let (answer, ..) = judge.compared(at, &Given { entry: WHERE, card, room: bytes.to_vec(), ..Given::default() });
            let told = self.desk.whereabouts(card).map_or([255, 0, 0], |(stand, last)| match self.desk.moving(card) {
                Some(to) => [stand.told(), 2, to.told()],
                None => [stand.told(), last.into(), 0],
            });
            assert_eq!((answer & 255, &answer.to_le_bytes()[1..]), (0, &told[..]), "where {card} is");
            met.insert(Met::asked(&self.desk, &self.seen, card));
        }
        let leaving = Given { entry: LEAVING, room: bytes.to_vec(), output: vec![0xEE; 4], ..Given::default() };
        let (answer, _, card) = judge.compared(at, &leaving);
        assert_eq!((answer, &card[..]), (0xFF00, &self.desk.leaving().unwrap_or(0).to_le_bytes()[..]));
        met.insert(Met::Leaving(self.desk.leaving().is_some()));
        asked.len() + 1 + lists::ask(at, judge, &self.desk, bytes, met)
    }
}

/// What a call met of places that are kept open: what the desk refuses by its own numbers is none of it.
fn filled(before: &Desk, given: &Given, number: u8) -> Option<filling::Met> {
    let call = match given.entry {
        desk_command::EVENT => Call::Event(given.first),
        IMAGE => Call::Image { image: given.image, apart: given.apart },
        _ => return None,
    };
    filling::met(&before.station, call, number).filter(|_| !matches!(number, 37 | 38))
}

/// A host: one desk from its start on, every call compared. Gives what was met, how many questions were asked, how many choices looked at.
fn long_run(
    seed: u64,
    calls: usize,
    judge: &mut Judge,
    seen: &mut [BTreeSet<u8>],
) -> (BTreeSet<Met>, BTreeSet<filling::Met>, usize, usize) {
    let mut numbers = Numbers(seed);
    let (mut met, mut full, mut questions, mut choices) = (BTreeSet::new(), BTreeSet::new(), 0, 0);
    let mut watched = Watched { desk: Desk::start(), stuck: Vec::new(), seen: BTreeSet::new() };
    let (answer, mut bytes, _) = judge.compared(0, &Given { entry: START, room: vec![0xEE; Desk::SIZE], ..Given::default() });
    assert_eq!((answer, &bytes[..]), (0xFF00, &Desk::start().to_bytes()[..]));
    for at in 0..calls {
        let given = Given { room: bytes.clone(), ..traffic::some_call(&mut numbers, &watched.desk) };
        let would = (given.entry == IMAGE).then(|| lists::compare(at, judge, &given, &bytes));
        let (before, card) = (watched.desk.clone(), met::sort(&watched.desk, &watched.seen, given.card));
        let (answer, left, _) = judge.compared(at, &given);
        let number = watched.take(&given);
        let kept = watched.desk.to_bytes();
        assert_eq!((answer as u8, &left[..]), (number, &kept[..]), "call {at}: the desk that the reference keeps is another");
        assert!(number == 0 || watched.desk == before, "call {at}: a call that isn't taken changes something");
        if let Some(would) = would {
            lists::hold(at, would, number, &before, &watched.desk, &mut met);
        }
        met.extend(met::met(&before, card, &given, number));
        full.extend(filled(&before, &given, number));
        seen[usize::from(given.entry)].insert(number);
        bytes = left;
        if watched.desk != before {
            choices += watched.every_choice();
            questions += watched.ask(at, &mut numbers, judge, &bytes, &mut met);
        }
    }
    (met, full, questions, choices)
}

/// Commands on desks as they come, on damaged ones and on handed-in ones.
fn trials(count: usize, first_entry: u8, judge: &mut Judge) -> Vec<Trial<Option<Handed>>> {
    let mut numbers = Numbers(11);
    let mut desk = Desk::start();
    let mut one = || {
        // some of the calls that a host makes, so that the next desk is another
        for _ in 0..3 {
            let given = traffic::some_call(&mut numbers, &desk);
            let mut watched = Watched { desk: desk.clone(), stuck: Vec::new(), seen: BTreeSet::new() };
            watched.take(&given);
            desk = watched.desk;
        }
        let bytes = match numbers.below(6) {
            0..=2 => made(&mut numbers, &desk).unwrap_or(desk.to_bytes()),
            3 => Desk { station: damaged_station(&mut numbers, &desk.station), ..desk.clone() }.to_bytes(),
            _ => desk.to_bytes(),
        };
        let lent = Desk::from_bytes(&bytes).unwrap_or(desk.clone());
        let mut given = traffic::any_call(&mut numbers, &lent);
        given.room = room_for(&mut numbers, &bytes);
        let sort = given.room.first_chunk().and_then(handed);
        judge.told(&given, &judge::right(&given));
        given.trial(first_entry, |command| (call(command), sort))
    };
    (0..count).map(|_| one()).collect()
}

/// The commands, run; every sort of handed-in desk must have been met by each call but the first.
fn commands(count: usize, limits: &Limits, program: &[String], judge: &mut Judge, seen: &mut [BTreeSet<u8>]) {
    let trials = trials(count, command::ENTRIES.len() as u8, judge);
    let mut sorts = vec![BTreeMap::new(); ENTRIES.len()];
    trials::run(&ENTRIES, &trials, limits, program, |trial, number| {
        seen[usize::from(trial.entry)].insert(number);
        let sort = trial.of_it.filter(|sort| sort.shown_by(number));
        if let Some(sort) = sort {
            *sorts[usize::from(trial.entry)].entry(sort).or_insert(0) += 1;
        }
    });
    for ((entry, _), sorts) in ENTRIES.iter().zip(&sorts).filter(|((_, numbers), _)| numbers.contains(&UNFIT)) {
        let missing: Vec<_> = desk_handed::ALL.iter().filter(|sort| !sorts.contains_key(sort)).collect();
        if !missing.is_empty() {
            eprintln!("desk: {entry} was never called on a handed-in desk of these sorts: {missing:?}");
            exit(1);
        }
    }
    let least = sorts.iter().flat_map(BTreeMap::values).min().unwrap_or(&0);
    let all = desk_handed::ALL.len();
    println!("desk: {} commands; each call on handed-in desks of {all} sorts, on each {least} times or more", trials.len());
}

pub fn main(words: &[String]) {
    let [_, calls, count, limits, program @ ..] = words else { panic!("usage: desk CALLS COMMANDS STACK PROGRAM..") };
    let number = |word: &String| word.parse().expect("a number");
    let mut seen = vec![BTreeSet::new(); ENTRIES.len()];
    let mut judge = Judge::new();
    commands(number(count), &Limits::read(limits), program, &mut judge, &mut seen);
    let (met, full, questions, choices) = long_run(38, number(calls), &mut judge, &mut seen);
    if !every_one(&met) || !filling::every_filling("desk", &full) {
        exit(1);
    }
    println!("desk: {calls} calls, {questions} questions of where cars are, which is leaving and what is outstanding, {choices} choices of what finished");
    println!("desk: {} ways to meet a card's number, and {} to meet places that are kept open, all that there are", met.len(), full.len());
    for ((entry, numbers), seen) in ENTRIES.iter().zip(&seen) {
        if !seen.iter().eq(*numbers) {
            eprintln!("desk: {entry} gave {seen:?}, expected {numbers:?}");
            exit(1);
        }
    }
    println!("desk: every number that each entry can give came");
    let Some(wrong) = judge.all_found() else { exit(1) };
    println!("desk: {wrong} wrong desks found out");
}
