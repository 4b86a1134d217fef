//! The side of desk_harness.c.

use crate::judged::command::Command;
use crate::judged::desk_command::{call, ENTRIES};
use crate::Side;
use shared::desk_handed::{handed, ALL};

/// The desk's entries.
pub struct Desk;

impl Side for Desk {
    #[cfg(feature = "wrong")]
    fn list(&self) -> &'static str {
        "desk"
    }

    fn call(&self, lent: &mut Command) -> u32 {
        call(lent)
    }

    fn handed(&self, given: &Command) -> u8 {
        let sort = given.room.first_chunk().and_then(handed);
        ALL.iter().position(|&one| Some(one) == sort).map_or(self.sorts(), |at| at as u8)
    }

    fn sorts(&self) -> u8 {
        ALL.len() as u8
    }

    fn shows(&self, sort: u8, number: u8) -> bool {
        ALL.get(usize::from(sort)).is_some_and(|sort| sort.shown_by(number))
    }

    fn gives(&self, entry: u8, number: u8) -> bool {
        ENTRIES.get(usize::from(entry)).is_some_and(|(_, numbers)| numbers.contains(&number))
    }
}
