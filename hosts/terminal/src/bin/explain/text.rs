//! A log in words: a paragraph for each message.

use crate::floor::lines as floor_lines;
use crate::follow::Floor;
use crate::step::{is_refusal, reply_line, some, Answered, Counts, Moment, Sent, Step};
use terminal::message::{hexadecimal, read, Message};

/// What is shown: refusals alone, with the floor before each; the floor after each message.
#[derive(Default, Clone, Copy)]
pub struct Shows {
    pub quiet: bool,
    pub floors: bool,
}

pub struct Text {
    shows: Shows,
    /// Whether something was sent so far.
    begun: bool,
    /// The floor that was shown last.
    shown: Vec<String>,
}

/// Lines below a message.
fn below(depth: usize, lines: impl IntoIterator<Item = String>) -> String {
    let one = |line: String| if line.is_empty() { "\n".to_string() } else { format!("{:depth$}{line}\n", "") };
    lines.into_iter().map(one).collect()
}

/// A message's bytes, so many in a line that they fit a terminal.
fn byte_lines(bytes: &[u8]) -> Vec<String> {
    bytes.chunks(24).map(hexadecimal).collect()
}

impl Text {
    pub fn new(shows: Shows) -> Self {
        Text { shows, begun: false, shown: Vec::new() }
    }

    pub fn step(&mut self, step: &Step) -> String {
        match step {
            Step::Sent(sent) => self.sent(sent),
            Step::Answered(answered) => self.answered(answered),
            Step::Note { words, always } if *always || !self.shows.quiet => format!("{words}\n\n"),
            Step::Note { .. } | Step::Nothing => String::new(),
        }
    }

    /// The floor with the outstanding set; only that it is the same where it was shown last.
    fn floor(&mut self, moment: &Moment, depth: usize, title: &str) -> String {
        let lines = [floor_lines(&moment.floor, moment.coming), moment.facts.outstanding()].concat();
        if lines == self.shown {
            return below(depth, [format!("{title}: the same")]);
        }
        let text = below(depth, [format!("{title}:")]) + &below(depth + 2, lines.clone());
        self.shown = lines;
        text
    }

    fn sent(&mut self, sent: &Sent) -> String {
        let mut text = String::new();
        if !self.begun && !self.shows.quiet {
            text += &(self.floor(&sent.before, 0, "the log begins on this floor") + "\n");
        }
        self.begun = true;
        let head = format!("message {}, {}, to the station\n", sent.number, sent.at);
        let mut told = [byte_lines(&sent.bytes), sent.says.clone()].concat();
        told.extend(sent.card.map(|card| format!("  card {card}")));
        told.push(reply_line(&sent.reply, sent.fives()));
        if let Some(to_do) = &sent.to_do {
            if self.shows.quiet {
                text += &(self.floor(&sent.after, 0, "the floor before the next message") + "\n");
            }
            text += &(head + &below(2, told) + &below(4, sent.why.clone()));
            text += &below(2, [format!("to do: {to_do}")]);
            if self.shows.floors && !self.shows.quiet {
                text += &self.floor(&sent.after, 2, "the floor");
            }
        } else if !self.shows.quiet {
            text += &(head + &below(2, told));
            let (before, after) = (&sent.before.floor, &sent.after.floor);
            let moved = (before.record, before.apart) != (after.record, after.apart);
            if moved || self.shows.floors || matches!(sent.message, Message::Image { .. } | Message::Ask) {
                text += &self.floor(&sent.after, 2, "the floor");
            } else {
                text += &below(2, sent.after.facts.outstanding());
                self.shown.clear();
            }
        }
        if !text.is_empty() {
            text += &below(2, sent.ends.map(str::to_string));
            text.push('\n');
        }
        text
    }

    fn answered(&mut self, answered: &Answered) -> String {
        let (bytes, differs) = (&answered.bytes, answered.agrees == Some(false));
        if self.shows.quiet && !differs && (self.begun || !is_refusal(bytes)) {
            return String::new();
        }
        let mut text = format!("message {}, {}, answered\n", answered.number, answered.at);
        text += &below(2, [byte_lines(bytes), vec![reply_line(bytes, &[])], answered.lines.clone()].concat());
        // the floor of an image that isn't the station's own
        if let Message::Held { record, apart } = read(bytes) {
            if differs || !self.begun {
                let floor = Floor { record, apart, cards: Vec::new() };
                text += &(below(2, ["its floor:".to_string()]) + &below(4, floor_lines(&floor, None)));
            }
        }
        text.push('\n');
        text
    }

    /// The end: the floor as the log leaves it, and how much was explained.
    pub fn end(mut self, last: &Moment, counts: Counts) -> String {
        let floor = if counts.sent > 0 { self.floor(last, 0, "the floor at the end") + "\n" } else { String::new() };
        let answers = counts.messages - counts.sent;
        let answered = some(answers, "answer");
        let mut words = vec![format!("{} to the station, {} refused", some(counts.sent, "message"), counts.refused)];
        match (counts.sent, answers) {
            (_, 0) => {}
            (0, _) => words = vec![format!("{answered}, {} of a refusal", counts.refusals)],
            _ => words.push(format!("{answered} in the log, {} of them not the station's", counts.differ)),
        }
        if answers > 0 && counts.unanswered > 0 {
            words.push(format!("{} without answer there", some(counts.unanswered, "message")));
        }
        floor + &words.join("; ") + "\n"
    }
}
