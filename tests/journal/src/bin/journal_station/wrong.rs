//! The faults of a station with a journal that the runs on journals must find out, and how a wrong reader takes a file.

use shared::journal_form::{over, AROUND, HEAD};
use shared::reference::Station;
use std::io;
use std::process::exit;

/// Each fault with the run that finds it out, and what the station then does.
const FAULTS: [(&str, &str, &str); 59] = [
    ("power_cuts", "answers_first", "it answers before it appends"),
    ("power_cuts", "appends_late", "it appends what it was sent when the next messages come"),
    ("power_cuts", "never_appends", "it appends nothing"),
    ("power_cuts", "only_taken", "it leaves out what it refused"),
    ("power_cuts", "loses_the_last", "at the start it leaves out the last append"),
    ("power_cuts", "keeps_the_tail", "it leaves a tail that is cut short, and appends behind it"),
    ("power_cuts", "cuts_too_much", "with a tail it cuts off the append before it"),
    ("power_cuts", "answers_again", "at the start it answers what is in the journal once more"),
    ("power_cuts", "numbers_anew", "after a restart sets are numbered from 0 again"),
    ("power_cuts", "forgets_the_set", "a restart closes the outstanding set"),
    ("power_cuts", "forgets_the_drive", "a restart ends the drive that is under way"),
    ("power_cuts", "forgets_the_jam", "a restart clears what is set apart"),
    ("power_cuts", "sums_anew", "the checksum of an append does not go on from the one before"),
    ("journal_faults", "makes_what_is_missing", "a journal that is not there is begun"),
    ("journal_faults", "makes_over", "a new journal takes the place of one that is there"),
    ("journal_faults", "makes_no_head", "a new journal has no head"),
    ("journal_power", "leaves_the_name", "it does not wait until a new journal's name is on the disk"),
    ("journal_faults", "takes_any_name", "another garage's journal is gone on from"),
    ("journal_faults", "takes_any_garage", "a garage may have any name"),
    ("journal_faults", "takes_an_empty_file", "an empty file is the empty garage"),
    ("journal_faults", "takes_bare_messages", "a file of bare messages is a journal"),
    ("journal_faults", "takes_any_file", "any other file is the empty garage"),
    ("journal_faults", "starts_when_closed", "it goes on from a journal that another follows"),
    ("journal_faults", "starts_with_cards", "it goes on from a desk's journal, and the cards stay where the cars move"),
    ("journal_faults", "keeps_over", "bytes that were cut off before are written over"),
    ("journal_faults", "loses_the_tail", "what is cut off is not kept"),
    ("journal_faults", "tells_no_tail", "it does not say that bytes were cut off"),
    ("journal_faults", "notes_nothing", "what ends a session is not noted"),
    ("journal_faults", "notes_the_other", "a session that answer 1 ended is noted as one that answer 2 did"),
    ("journal_faults", "notes_no_bytes", "what ended a session is noted without its bytes"),
    ("journal_faults", "answers_unkept", "where it can't append, it answers all the same"),
    ("journal_faults", "ends_by_a_limit", "a limit on a file's size ends it without a word"),
    ("journal_faults", "never_syncs", "it does not wait until what it appends is on the disk"),
    ("journal_faults", "syncs_late", "it waits for the disk when it has answered"),
    ("journal_faults", "looks_away", "it does not look whether another station has written"),
    ("journal_faults", "looks_once", "it looks before it appends, and not after"),
    ("journal_faults", "keeps_a_lost_file", "it does not look whether the file still has its name"),
    ("journal_faults", "takes_any_word", "it leaves out words that it does not know"),
    ("journal_faults", "says_nothing", "where it stops it does not say why"),
    ("journal_damage", "trusts_lengths", "it checks no checksum of an append"),
    ("journal_damage", "trusts_titles", "it checks no checksum of what an append carries"),
    ("journal_damage", "trusts_the_head", "it checks no checksum of the head"),
    ("journal_damage", "takes_any_format", "it reads a journal of another format"),
    ("journal_damage", "takes_unfit", "it begins with a station that is not fit"),
    ("journal_damage", "takes_repeats", "an append that stands twice is taken twice"),
    ("journal_damage", "cuts_off_damage", "it cuts off what is damaged"),
    ("journal_damage", "up_to_the_damage", "it goes on with what stands before the damage"),
    ("journal_damage", "empty_if_damaged", "from a damaged journal it falls back to the empty garage"),
    ("journal_power", "syncs_twice", "it waits for the disk twice for a read"),
    ("journal_power", "keeps_late", "it cuts bytes off before they are kept"),
    ("journal_power", "keeps_unsynced", "it does not wait until the bytes that it cuts off are on the disk"),
    ("journal_power", "keeps_unnamed", "it does not wait until the name is on the disk under which they are kept"),
    ("journal_power", "closes_first", "it closes the old journal before the new one is there"),
    ("journal_power", "names_first", "it makes the new journal before there is a part of it"),
    ("journal_power", "starts_unfinished", "it starts on a journal of which there is a part"),
    ("journal_power", "closes_unsynced", "it does not wait until the closed copy of the old journal is on the disk"),
    ("journal_power", "follows_unsynced", "it does not wait until the new journal is on the disk"),
    ("journal_power", "never_closes", "the old journal stays open"),
    ("journal_power", "never_follows_again", "after a cut it takes a new journal that was begun for a finished one"),
];

/// Those of a journal that is described, recorded or followed by another.
const OTHERS: [(&str, &str, &str); 8] = [
    ("journal_faults", "describes_as_open", "a closed journal is described as whole"),
    ("journal_faults", "describes_as_whole", "a torn or damaged journal is described as whole"),
    ("journal_faults", "describes_less", "an append is left out of the count"),
    ("journal_faults", "describes_and_cuts", "a journal that is described is cut"),
    ("journal_faults", "records_what_is_torn", "more than the messages is recorded"),
    ("journal_power", "follows_without_set", "the new journal begins without the outstanding set"),
    ("journal_power", "follows_anew", "the new journal numbers sets from 0"),
    ("journal_power", "follows_unapart", "the new journal begins with nothing set apart"),
];

pub struct Fault(pub String);

impl Fault {
    pub fn is(&self, name: &str) -> bool {
        assert!(FAULTS.iter().chain(&OTHERS).any(|(_, known, _)| *known == name), "{name} is in a list");
        self.0 == name
    }

    pub fn stops(&self, status: i32, words: &str) -> ! {
        if !self.is("says_nothing") {
            eprintln!("station: {words}");
        }
        exit(status)
    }

    pub fn done<T>(&self, result: io::Result<T>, words: &str) -> T {
        result.unwrap_or_else(|error| self.stops(1, &format!("{words}: {error}")))
    }
}

pub fn list() {
    FAULTS.iter().chain(&OTHERS).for_each(|(by, name, does)| println!("{by} {name} {does}"));
}

fn four(bytes: &[u8], at: usize) -> u32 {
    u32::from_le_bytes([bytes[at], bytes[at + 1], bytes[at + 2], bytes[at + 3]])
}
fn put(bytes: &mut [u8], at: usize, sum: u32) {
    bytes[at..at + 4].copy_from_slice(&sum.to_le_bytes());
}

/// The same bytes with every checksum made right, as far as the lengths lead; where titles are to be right already, as far as they are.
fn summed(bytes: &[u8], titles: bool) -> Vec<u8> {
    let mut bytes = bytes.to_vec();
    if bytes.len() < HEAD {
        return bytes;
    }
    let (mut at, mut sum, mut stored) = (HEAD, over(0, &bytes[..HEAD - 4]), four(&bytes, HEAD - 4));
    put(&mut bytes, HEAD - 4, sum);
    while at + AROUND <= bytes.len() {
        let carries = usize::from(bytes[at + 1]) | usize::from(bytes[at + 2]) << 8 | usize::from(bytes[at + 3]) << 16;
        if at + carries + AROUND > bytes.len() {
            break;
        }
        if titles && four(&bytes, at + 4) != over(stored, &bytes[at..at + 4]) {
            break;
        }
        let titled = over(sum, &bytes[at..at + 4]);
        put(&mut bytes, at + 4, titled);
        stored = four(&bytes, at + 8 + carries);
        sum = over(titled, &bytes[at + 8..at + 8 + carries]);
        put(&mut bytes, at + 8 + carries, sum);
        bytes[at + 12 + carries] = 10;
        at += carries + AROUND;
    }
    bytes
}

/// The appends of some bytes as far as their lengths lead, and what is left.
fn appends(bytes: &[u8]) -> Vec<&[u8]> {
    let (mut rest, mut all) = (&bytes[HEAD..], Vec::new());
    while rest.len() >= AROUND {
        let size = AROUND + (usize::from(rest[1]) | usize::from(rest[2]) << 8 | usize::from(rest[3]) << 16);
        let Some((append, behind)) = rest.split_at_checked(size) else { break };
        all.push(append);
        rest = behind;
    }
    all.push(rest);
    all
}

/// The bytes of a file as a station with this fault takes them.
pub fn mended(fault: &Fault, bytes: &[u8]) -> Vec<u8> {
    let empty = || shared::journal_form::journal_of(b"none", &[]);
    let read = shared::journal_form::read(bytes);
    if fault.is("takes_an_empty_file") && bytes.is_empty() {
        return empty();
    }
    if fault.is("takes_any_file") && read.is_err() && !bytes.is_empty() {
        return empty();
    }
    if fault.is("takes_bare_messages") && read.is_err() {
        return shared::journal_form::journal_of(b"none", bytes);
    }
    if fault.is("empty_if_damaged") && read.as_ref().is_ok_and(|read| !read.starts()) {
        return empty();
    }
    if bytes.len() < HEAD {
        return bytes.to_vec();
    }
    let right_head = bytes[HEAD - 4..HEAD] == over(0, &bytes[..HEAD - 4]).to_le_bytes();
    if fault.is("trusts_lengths") && right_head {
        return summed(bytes, false);
    }
    if fault.is("trusts_titles") && right_head {
        return summed(bytes, true);
    }
    if fault.is("trusts_the_head") {
        return summed(bytes, false);
    }
    if fault.is("takes_any_format") && bytes[20] != 2 {
        return summed(&[&bytes[..20], &[2], &bytes[21..]].concat(), false);
    }
    if fault.is("takes_unfit") && read.is_err() {
        return summed(&[&bytes[..64], &Station::start().to_bytes(), &bytes[124..]].concat(), false);
    }
    if fault.is("takes_repeats") {
        let mut all = appends(bytes);
        all.dedup();
        return [&bytes[..HEAD], &all.concat()].concat();
    }
    bytes.to_vec()
}
