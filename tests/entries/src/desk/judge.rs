//! A call on a desk by the archive's entry and by the reference's, which must return and leave the same; and by every wrong desk
//! (tests/faults/desk) that no call has found out yet.

use reference::desk_command::{self, ASK, COMPARE, ENTRIES, EVENT, IMAGE, LEAVING, LIST, OUTSTANDING, REQUEST, RESULT, START, WHERE};
use shared::trials::{on_copies, Given, Left};
use station::raw::desk as raw;
use std::process::exit;
use wrong::fault::{all_of, Fault};

/// By the archive's entry.
fn archive(given: &Given) -> Left {
    let &Given { entry, first, second, issue, image, apart, card, ref input, .. } = given;
    let (run, size) = (input.as_ptr(), input.len());
    // each run is lent with its own length, and none overlaps another
    on_copies(given, |room, output| unsafe {
        let (lent, length, out, most) = (room.as_mut_ptr(), room.len(), output.as_mut_ptr(), output.len());
        match entry {
            START => raw::desk_start(lent, length),
            REQUEST => raw::desk_request(lent, length, first, run, size),
            EVENT => raw::desk_event(lent, length, first, card),
            RESULT => raw::desk_result(lent, length, issue, first, second),
            IMAGE => raw::desk_image(lent, length, image, apart, first, run, size),
            ASK => raw::desk_ask(lent, length, out, most),
            WHERE => raw::desk_where(lent, length, card),
            LEAVING => raw::desk_leaving(lent, length, out, most),
            LIST => raw::desk_list(lent, length, out, most),
            OUTSTANDING => raw::desk_outstanding(lent, length, out, most),
            COMPARE => raw::desk_compare(lent, length, image, apart, first, run, size, out, most),
            _ => panic!("{entry} is no entry"),
        }
    })
}

/// By the reference's.
pub fn right(given: &Given) -> Left {
    on_copies(given, |room, output| desk_command::call(&mut given.on(room, &given.input, output)))
}

/// By a desk with a fault.
fn wrong_desk(fault: &Fault, given: &Given) -> Left {
    let &Given { entry, first, second, issue, image, apart, card, ref input, .. } = given;
    on_copies(given, |room, output| {
        fault.with(|| {
            wrong::desk_command::call(&mut wrong::command::Given { entry, first, second, issue, image, apart, card, room, input, output })
        })
    })
}

/// The wrong desks that no call has found out yet.
pub struct Judge(Vec<&'static Fault>);

impl Judge {
    pub fn new() -> Judge {
        Judge(all_of("desk").collect())
    }

    /// Told of a call: a wrong desk that returns or leaves something else is found out.
    pub fn told(&mut self, given: &Given, left: &Left) {
        self.0.retain(|fault| wrong_desk(fault, given) == *left);
    }

    /// Makes one call by both; gives what it returned and left.
    pub fn compared(&mut self, at: usize, given: &Given) -> Left {
        let (ours, theirs) = (archive(given), right(given));
        if ours != theirs {
            let Given { entry, first, second, issue, image, apart, card, room, input, .. } = given;
            let entry = ENTRIES[usize::from(*entry)].0;
            eprintln!("desk: call {at}, {entry}: {first} {second} {issue} {image:#x} {apart:#x} {card} {input:02X?}");
            eprintln!("on       {room:02X?}\nreturned {ours:02X?}\nexpected {theirs:02X?}");
            exit(1);
        }
        self.told(given, &ours);
        ours
    }

    /// How many wrong desks there are, where all were found out; if not, says which were not.
    pub fn all_found(&self) -> Option<usize> {
        for fault in &self.0 {
            eprintln!("desk: the wrong desk {} was not found out", fault.name);
        }
        self.0.is_empty().then(|| all_of("desk").count())
    }
}
