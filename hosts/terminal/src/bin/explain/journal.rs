//! A journal as a log: the messages of its appends, and what ended its sessions.

use crate::input::{At, Item, Placed};
use station::words::Wrong;
use std::collections::VecDeque;
use std::io::Read;
use terminal::journal::{self, messages, parts_of, Next, CLOSED};

pub struct Journal<R> {
    appends: journal::Journal<R>,
    /// What the last append said and was not told yet.
    read: VecDeque<Placed>,
    ended: bool,
}

impl<R: Read> Journal<R> {
    pub fn new(appends: journal::Journal<R>) -> Self {
        Journal { appends, read: VecDeque::new(), ended: false }
    }

    fn place(&mut self, at: usize, item: Item) {
        self.read.push_back(Placed { at: At::byte(at), item });
    }

    /// Nothing can be read from here on.
    fn stops(&mut self, at: usize, why: &str) {
        self.place(at, Item::Damaged { bytes: Vec::new(), answered: false, why: why.to_string() });
        self.ended = true;
    }

    fn append(&mut self, at: usize, kind: u8, carried: &[u8]) {
        match parts_of(kind, carried) {
            Some((numbers, sent)) => {
                if !numbers.is_empty() {
                    self.place(at, Item::Numbers { after: sent.to_vec(), numbers: numbers.to_vec() });
                }
                let mut place = at + 8 + numbers.len();
                for message in messages(sent) {
                    self.place(place, Item::Message { bytes: message.to_vec(), answered: false });
                    place += message.len();
                }
            }
            None if kind == CLOSED => self.place(at, Item::Closed),
            None => self.place(at + 8, Item::Stopped { bytes: carried.to_vec() }),
        }
    }

    pub fn next(&mut self) -> Result<Option<Placed>, Wrong> {
        while self.read.is_empty() && !self.ended {
            match self.appends.next_append()? {
                Next::Append { at, kind, carried } => self.append(at, kind, &carried),
                Next::Ended => self.ended = true,
                Next::Torn { at } => self.stops(at, "the journal ends inside an append: what is there was never answered"),
                Next::Damaged { at } => self.stops(at, "the journal is damaged"),
            }
        }
        Ok(self.read.pop_front())
    }
}
