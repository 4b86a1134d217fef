//! The week of a journal or of a recording, counted by the proved entries: each message, and what ended a session, on the station as it is
//! before it.

use crate::journal::{messages, parts_of, Journal, Next};
use crate::message::{length, LENGTHS};
use crate::told::failed;
use station::words::Wrong;
use station::{Station, Totals};
use std::io::Read;

/// The totals, the station behind the last message, and the garage's name where a journal has it.
pub struct Counted {
    pub totals: Totals,
    pub station: Station,
    pub garage: Option<String>,
}

impl Counted {
    fn take(&mut self, message: &[u8], counts: bool) -> Result<(), Wrong> {
        if counts {
            self.totals.count(&self.station, message).map_err(|refused| format!("a total is full: {refused}"))?;
        }
        self.station.message(message);
        Ok(())
    }
}

/// The week of a journal behind its first appends.
pub fn of_journal(input: impl Read, from: usize) -> Result<Counted, Wrong> {
    let (mut journal, station) = Journal::opened(input)?;
    let station = Station::from_bytes(&station).map_err(|_| "the journal begins with a station that is not fit".to_string())?;
    let mut counted = Counted { totals: Totals::new(), station, garage: Some(journal.garage()) };
    let mut appends = 0;
    loop {
        let (kind, carried) = match journal.next_append()? {
            Next::Append { kind, carried, .. } => (kind, carried),
            // what was never answered is not counted
            Next::Ended | Next::Torn { .. } if appends < from => {
                return Err(format!("the journal has {appends} appends, and {from} are to be left out"))
            }
            Next::Ended | Next::Torn { .. } => return Ok(counted),
            Next::Damaged { at } => return Err(format!("the journal is damaged at byte {at}, behind {appends} appends")),
        };
        appends += 1;
        let read: Vec<&[u8]> = parts_of(kind, &carried).map_or_else(|| vec![&carried[..]], |(_, sent)| messages(sent).collect());
        for message in read.into_iter().filter(|message| !message.is_empty()) {
            counted.take(message, appends > from)?;
        }
    }
}

/// The week of a recording, from the station's start on. A length out of range is the last that counts, and so is a message that is cut off.
pub fn of_recording(mut input: impl Read) -> Result<Counted, Wrong> {
    let mut counted = Counted { totals: Totals::new(), station: Station::new(), garage: None };
    loop {
        let mut bytes = Vec::new();
        let mut more =
            |bytes: &mut Vec<u8>, count: usize| (&mut input).take(count as u64).read_to_end(bytes).map_err(|why| failed("input", why));
        let size = if more(&mut bytes, 2)? == 2 { length(&bytes) } else { 0 };
        let goes_on = LENGTHS.contains(&size) && more(&mut bytes, size)? == size;
        if !bytes.is_empty() {
            counted.take(&bytes, true)?;
        }
        if !goes_on {
            return Ok(counted);
        }
    }
}
