//! A log, step by step, with the station followed along: of each message what it says, what the station answers and why, and the floor before
//! and after; of each answer in the log whether it is the station's. How a step is written is text.rs's and lines.rs's.

use crate::follow::{named_cars, Cards, Floor, Follower};
use crate::input::{At, Item, Placed};
use station::words::Wrong;
use station::{Answer, Parts, Record};
use std::collections::VecDeque;
use terminal::facts::{parts, Facts};
use terminal::message::{both, both_wide, hexadecimal, instruction, read, word, Message, BEGIN_IN, ENDINGS, EVENTS};
use terminal::told::number_in_words;
use terminal::why::{against, to_do};

/// The place where an answer names no instruction, as its bytes have it.
pub const NOWHERE: u8 = 255;
/// So many messages further on an answer is looked for where it isn't the first one's.
const AHEAD: usize = 64;

/// The station at a moment: its floor with the cards that are known, that of a drive-in under way, and what decides besides.
pub struct Moment {
    pub floor: Floor,
    pub coming: Option<u32>,
    pub facts: Facts,
}

/// A message that was sent.
pub struct Sent {
    pub number: usize,
    pub at: At,
    pub bytes: Vec<u8>,
    pub message: Message,
    /// What it says, in lines; the card that was given for it.
    pub says: Vec<String>,
    pub card: Option<u32>,
    pub answer: Answer,
    pub reply: Vec<u8>,
    /// Why it is refused, and what to do.
    pub why: Vec<String>,
    pub to_do: Option<String>,
    pub before: Moment,
    pub after: Moment,
    /// What happens because of it besides: a session ends, or the station stops.
    pub ends: Option<&'static str>,
}

impl Sent {
    pub fn fives(&self) -> &[[u8; 5]] {
        if let Message::Request(fives) = &self.message {
            fives
        } else {
            &[]
        }
    }
}

/// An answer that the log has.
pub struct Answered {
    pub number: usize,
    pub at: At,
    pub bytes: Vec<u8>,
    /// Whether it is the station's, where the log has what was sent too, and the number of the message that it answers.
    pub agrees: Option<bool>,
    pub to: Option<usize>,
    /// The same in lines.
    pub lines: Vec<String>,
}

pub enum Step {
    Sent(Box<Sent>),
    Answered(Answered),
    /// What the log says besides messages, and whether that is shown where refusals alone are.
    Note {
        words: String,
        always: bool,
    },
    Nothing,
}

/// A step, and what is told of it on standard error.
pub struct Told {
    pub step: Step,
    pub wrong: Option<Wrong>,
}

/// How much was read.
#[derive(Default, Clone, Copy)]
pub struct Counts {
    pub messages: usize,
    pub sent: usize,
    pub refused: usize,
    pub refusals: usize,
    pub differ: usize,
    pub unanswered: usize,
}

/// Cards that are given for the next message, and where.
struct GivenCards {
    at: At,
    all: Cards,
    begin: bool,
}

/// A message that the station has answered, by its number in the log, and the answer.
struct Waiting {
    number: usize,
    reply: Vec<u8>,
}

pub struct Log {
    station: Follower,
    /// Whether answers may stand in the log beside what was sent.
    both_ways: bool,
    counts: Counts,
    cards: Option<GivenCards>,
    /// Those whose answer has not come in the log.
    waiting: VecDeque<Waiting>,
}

pub fn image_line(record: Record, apart: Parts) -> String {
    format!("{}; set apart {}: {}", hexadecimal(&record.bytes()), hexadecimal(&apart.0.to_le_bytes()), parts(apart))
}

/// So many of something.
pub fn some(count: usize, name: &str) -> String {
    format!("{count} {name}{}", if count == 1 { "" } else { "s" })
}

/// An answer in words as its bytes have it, which may be no station's, with the instruction at its place where that is known.
fn answer_line(number: u8, place: u8, issue: u16, fives: &[[u8; 5]]) -> String {
    let what = match fives.get(usize::from(place)) {
        Some(five) => instruction(*five),
        None if place == NOWHERE => "none".to_string(),
        None => format!("instruction {place}"),
    };
    format!("answer {}: {}; place {}: {what}; issue {}", both(number), number_in_words(number), both(place), both_wide(issue))
}

/// The message that answers, in words.
pub fn reply_line(reply: &[u8], fives: &[[u8; 5]]) -> String {
    match read(reply) {
        Message::Answer { number, place, issue } => answer_line(number, place, issue, fives),
        Message::Held { record, apart } => format!("answer image {}", image_line(record, apart)),
        Message::Unread(what) => what,
        _ => "a message to the station, and no answer".to_string(),
    }
}

fn unused(given: &GivenCards) -> Wrong {
    format!("{}: expected {} behind it", given.at, if given.begin { "a begin in" } else { "an image" })
}

fn note(words: String, always: bool) -> Told {
    Told { step: Step::Note { words, always }, wrong: None }
}

impl Log {
    pub fn new(station: Follower, both_ways: bool) -> Self {
        Log { station, both_ways, counts: Counts::default(), cards: None, waiting: VecDeque::new() }
    }

    /// The station as it is now.
    pub fn moment(&self) -> Moment {
        Moment { floor: self.station.floor(), coming: self.station.coming(), facts: self.station.facts() }
    }

    pub fn counts(&self) -> Counts {
        Counts { unanswered: self.waiting.len(), ..self.counts }
    }

    pub fn step(&mut self, Placed { at, item }: Placed) -> Told {
        match item {
            Item::Message { bytes, answered: false } => self.sent(at, bytes, None),
            Item::Message { bytes, answered: true } => self.answered(at, bytes),
            Item::Cards { all, begin } => {
                let wrong = self.unused_cards();
                self.cards = Some(GivenCards { at, all, begin });
                Told { step: Step::Nothing, wrong }
            }
            Item::Numbers { after, numbers } => {
                self.station.learn(&after, &numbers);
                Told { step: Step::Nothing, wrong: None }
            }
            Item::Restarted => note(format!("{at}: the station was started again on its journal, and goes on"), false),
            Item::Stopped { bytes } => self.sent(at, bytes, Some("the session ended here; the next one goes on from the journal")),
            Item::Closed => note(format!("{at}: the journal is closed, and another follows it"), true),
            Item::Damaged { bytes, answered, why } => {
                let wrong = Some(format!("{at}: {why}"));
                let stops = "the station stops here: it can't know where the next message begins";
                let step = if bytes.is_empty() || answered { Step::Nothing } else { self.sent(at, bytes, Some(stops)).step };
                Told { step, wrong }
            }
        }
    }

    /// That cards were given and no begin in or image took them.
    pub fn unused_cards(&mut self) -> Option<Wrong> {
        self.cards.take().map(|given| unused(&given))
    }

    /// The cards that are given for a message, if they fit it, or why not.
    fn cards_for(&mut self, message: &Message) -> (Option<Cards>, Option<Wrong>) {
        let Some(given) = self.cards.take() else { return (None, None) };
        let why = match *message {
            Message::Event(BEGIN_IN) if given.begin => {
                let known = self.station.cards().into_iter().find(|known| given.all.contains(&Some(known.card)));
                known.map(|known| format!("{}: card {} is in the garage already (a desk would tell 38)", given.at, known.card))
            }
            Message::Image { record, .. } if !given.begin => {
                let (cars, listed) = (if record.is_sound() { named_cars(record) } else { given.all.len() }, given.all.len());
                let why = format!("expected {cars} cards, as many as the image has cars, found {listed} (a desk would tell 39)");
                (cars != listed).then(|| format!("{}: {why}", given.at))
            }
            _ => Some(unused(&given)),
        };
        if why.is_some() {
            (None, why)
        } else {
            (Some(given.all), None)
        }
    }

    /// What a message that was sent says.
    fn says(&self, message: &Message) -> Vec<String> {
        match *message {
            Message::Request(ref fives) => {
                let one = |(five, at): (&[u8; 5], usize)| format!("  {at}: {}", instruction(*five));
                std::iter::once(format!("request of {}", some(fives.len(), "instruction"))).chain(fives.iter().zip(0..).map(one)).collect()
            }
            Message::Event(way) => vec![format!("event {}", word(&EVENTS, way, "no event"))],
            Message::Result { issue, number, ending } => {
                let outcome = word(&ENDINGS, ending, "no outcome");
                let mut lines = vec![format!("result of set {}, instruction {}: {outcome}", both_wide(issue), both(number))];
                lines.extend(named(&self.station.facts(), issue, number).map(|five| format!("  that is {}", instruction(five))));
                lines
            }
            Message::Image { record, apart } => vec![format!("image to take {}", image_line(record, apart))],
            Message::Ask => vec!["ask for the image".to_string()],
            Message::Answer { number, place, issue } => {
                vec![format!("kind 128 = 0x0080, {}", answer_line(number, place, issue, &[]))]
            }
            Message::Held { record, apart } => vec![format!("kind 129 = 0x0081, image {}", image_line(record, apart))],
            Message::Unread(ref what) => vec![what.clone()],
        }
    }

    fn sent(&mut self, at: At, bytes: Vec<u8>, ends: Option<&'static str>) -> Told {
        let message = read(&bytes);
        let (cards, wrong) = self.cards_for(&message);
        self.counts.messages += 1;
        self.counts.sent += 1;
        let (number, says, before) = (self.counts.messages, self.says(&message), self.moment());
        let (answer, reply) = self.station.take(&bytes, &message, cards.as_ref(), &format!("message {number}, {at}"));
        let given = cards.filter(|_| matches!(message, Message::Event(_))).and_then(|cards| *cards.first()?);
        let card = given.or(self.station.coming().filter(|_| answer.taken() && matches!(message, Message::Event(BEGIN_IN))));
        let after = self.moment();
        let (mut why, mut to_be_done) = (Vec::new(), None);
        if !answer.taken() {
            self.counts.refused += 1;
            why = against(&after.facts, &message, answer);
            to_be_done = Some(to_do(&message, answer).to_string());
        }
        if self.both_ways {
            self.waiting.push_back(Waiting { number, reply: reply.clone() });
        }
        let sent = Sent { number, at, bytes, message, says, card, answer, reply, why, to_do: to_be_done, before, after, ends };
        Told { step: Step::Sent(Box::new(sent)), wrong }
    }

    /// What the log's answer is beside the station's: whether it is the same, of which message, and in lines.
    fn held_against(&mut self, bytes: &[u8]) -> (Option<bool>, Option<usize>, Vec<String>) {
        if self.counts.sent == 0 {
            return (None, None, Vec::new());
        }
        const MISSING: &str = "a message is missing from the log, or another station answered";
        let Some(at) = self.waiting.iter().take(AHEAD).position(|waiting| waiting.reply == bytes) else {
            let Some(first) = self.waiting.pop_front() else {
                return (Some(false), None, vec!["it differs: every message before it is answered".to_string(), MISSING.to_string()]);
            };
            let expected = format!("it differs: to message {} the station's is {}", first.number, hexadecimal(&first.reply));
            let mut lines = vec![expected, format!("  {}", reply_line(&first.reply, &[])), MISSING.to_string()];
            if let Message::Held { .. } = read(bytes) {
                let digits = hexadecimal(&bytes[4..]).replace(' ', "");
                lines.push(format!("to go on from the log's image, cut the log behind it: --from {digits}"));
            }
            return (Some(false), Some(first.number), lines);
        };
        let passed: Vec<String> = self.waiting.drain(..at).map(|waiting| waiting.number.to_string()).collect();
        let own = self.waiting.pop_front().map_or(0, |waiting| waiting.number);
        let skipped = (!passed.is_empty()).then(|| format!("not in the log: the answer to message {}", passed.join(", ")));
        (Some(true), Some(own), skipped.into_iter().chain([format!("as the station answers message {own}")]).collect())
    }

    fn answered(&mut self, at: At, bytes: Vec<u8>) -> Told {
        self.counts.messages += 1;
        let number = self.counts.messages;
        let (agrees, to, lines) = self.held_against(&bytes);
        let differs = agrees == Some(false);
        self.counts.differ += usize::from(differs);
        let wrong = differs.then(|| format!("{at}: the answer of message {number} is not the station's"));
        self.counts.refusals += usize::from(is_refusal(&bytes));
        Told { step: Step::Answered(Answered { number, at, bytes, agrees, to, lines }), wrong }
    }
}

/// The instruction that a result is of, where the outstanding set has it.
pub fn named(facts: &Facts, issue: u16, number: u8) -> Option<[u8; 5]> {
    facts.set.get(usize::from(number)).filter(|_| issue == facts.issue).map(|held| held.five)
}

/// Whether an answer tells of a refusal.
pub fn is_refusal(bytes: &[u8]) -> bool {
    matches!(read(bytes), Message::Answer { number, .. } if number != 0)
}
