//! A station with a journal over the reference, right or with one fault: `journal_station FAULT WORD..`, with the words of the command station,
//! and `none` for the right one. The runs on journals must pass with the right one, and find out every other. Its disk is slow, so that a cut
//! between two steps of it is not rare.

mod wrong;

use shared::journal_form::{read, End, Read, Rejected, Written, BAD_LENGTH, CARDS, CLOSED, CUT_SHORT, HEAD, MESSAGES};
use shared::pipes::messages_in;
use shared::reference::{drive_under_way, serve_on, Parts, Station};
use std::fs::{self, File, OpenOptions};
use std::io::{self, Read as _, Seek, SeekFrom, Write};
use std::os::fd::AsRawFd;
use std::os::unix::fs::FileTypeExt;
use std::path::{Path, PathBuf};
use std::thread::sleep;
use std::time::Duration;
use wrong::{mended, Fault};

/// The journal: its file, open to read and to append, what the system calls it, how long it should be, and its checksum.
struct Journal {
    file: File,
    called: PathBuf,
    length: u64,
    sum: u32,
    late: Vec<u8>,
}

fn synced_folder(fault: &Fault, path: &str) {
    let folder = Path::new(path).parent().filter(|folder| !folder.as_os_str().is_empty()).unwrap_or(Path::new("."));
    fault.done(File::open(folder).and_then(|folder| folder.sync_all()), "the journal's folder can't be synced");
}

/// Makes the file with its head, and waits until both are on the disk.
fn made(fault: &Fault, path: &str, name: &str) {
    let mut options = OpenOptions::new();
    options.write(true);
    if fault.is("makes_over") {
        options.create(true).truncate(true)
    } else {
        options.create_new(true)
    };
    let mut file = fault.done(options.open(path), "the journal can't be made");
    if !fault.is("makes_no_head") {
        fault.done(file.write_all(&Written::begun(name.as_bytes(), &Station::start()).bytes), "the journal can't be written");
    }
    fault.done(file.sync_all(), "the journal can't be synced");
    if !fault.is("leaves_the_name") {
        synced_folder(fault, path);
    }
}

/// The bytes of a file; a device has no end.
fn bytes_of(fault: &Fault, mut file: &File) -> Vec<u8> {
    fault.done(file.rewind(), "the journal is no plain file");
    let mut bytes = Vec::new();
    let most = if file.metadata().is_ok_and(|file| file.file_type().is_char_device()) { 4096 } else { u64::MAX };
    fault.done(file.take(most).read_to_end(&mut bytes), "the journal can't be read");
    bytes
}

/// What the bytes of a file say to a station with this fault; it stops where they can't be trusted.
fn judged(fault: &Fault, bytes: &[u8]) -> Read {
    let read = read(&mended(fault, bytes)).unwrap_or_else(|why| {
        let why = match why {
            Rejected::NoJournal if bytes.is_empty() => "the file is empty, and no journal: remove it, or give another",
            Rejected::NoJournal => "the file is no journal",
            Rejected::OtherFormat => "the journal has another format: use the version that made it",
            Rejected::Damaged => "the journal's head is damaged: restore it from a copy",
            Rejected::Unfit => "the journal begins with a station that is not fit",
        };
        fault.stops(1, why)
    });
    if read.end == End::Damaged && !fault.is("cuts_off_damage") && !fault.is("up_to_the_damage") {
        fault.stops(
            1,
            &format!(
                "the journal is damaged at byte {}, in append {} behind {} messages",
                read.whole,
                read.appends.len() + 1,
                read.messages
            ),
        );
    }
    read
}

/// Cuts off what was never answered, when it is kept beside the journal.
fn cut_off(fault: &Fault, path: &str, file: &File, bytes: &[u8], whole: usize) {
    let torn = format!("{path}.torn");
    let cut = || fault.done(file.set_len(whole as u64).and_then(|()| file.sync_all()), "the journal can't be cut");
    if fault.is("keeps_late") {
        cut();
    }
    if !fault.is("loses_the_tail") {
        let mut options = OpenOptions::new();
        options.create(true).write(true);
        if fault.is("keeps_over") {
            options.truncate(true)
        } else {
            options.append(true)
        };
        let kept = options.open(&torn).and_then(|mut kept| {
            kept.write_all(&bytes[whole..])?;
            if fault.is("keeps_unsynced") {
                Ok(())
            } else {
                kept.sync_all()
            }
        });
        fault.done(kept, "the bytes that were never answered can't be kept");
        if !fault.is("keeps_unnamed") {
            synced_folder(fault, path);
        }
    }
    if !fault.is("tells_no_tail") {
        eprintln!(
            "station: note: {} bytes behind byte {whole} of the journal were never answered; they are kept in {torn}",
            bytes.len() - whole
        );
    }
    cut();
}

/// What a restart with this fault forgets.
fn forgetful(fault: &Fault, station: &mut Station) {
    if fault.is("numbers_anew") {
        station.next_issue = 0;
    }
    if fault.is("forgets_the_set") {
        (station.count, station.answered, station.set) = (0, 0, [0; 40]);
    }
    if fault.is("forgets_the_drive") && drive_under_way(station.record) {
        station.record &= !(3 << 55);
    }
    if fault.is("forgets_the_jam") {
        station.apart = Ok(Parts::NONE);
    }
}

/// The name in a journal is the one that is asked for.
fn named(fault: &Fault, read: &Read, garage: Option<&str>) {
    if garage.is_some_and(|garage| garage.as_bytes() != read.name) && !fault.is("takes_any_name") {
        let (is, asked) = (String::from_utf8_lossy(&read.name), garage.unwrap_or_default());
        fault.stops(1, &format!("the journal is that of garage {is}, not of {asked}"));
    }
}

/// The journal of this name and the station that it makes, with a tail cut off.
fn opened(fault: &Fault, path: &str, garage: Option<&str>) -> (Station, Journal) {
    if fault.is("makes_what_is_missing") && !Path::new(path).exists() {
        made(fault, path, garage.unwrap_or("none"));
    }
    let looked_at = fault.done(OpenOptions::new().read(true).write(true).open(path), "the journal can't be opened");
    if Path::new(&format!("{path}.part")).exists() && !fault.is("starts_unfinished") {
        fault.stops(1, "the journal is not finished: give --follow once more");
    }
    // only a journal that has been read is opened to append, as by the program: the runs with two stations wait for that
    let bytes = bytes_of(fault, &looked_at);
    let file = fault.done(OpenOptions::new().read(true).append(true).open(path), "the journal can't be opened");
    let read = judged(fault, &bytes);
    // what a wrong station takes for a journal is one from then on
    let taken = mended(fault, &bytes);
    if taken != bytes {
        drop(fs::write(path, &taken));
    }
    let bytes = taken;
    named(fault, &read, garage);
    if read.closed && !fault.is("starts_when_closed") {
        fault.stops(1, "the journal is closed: another follows it");
    }
    if read.appends.iter().any(|append| append.kind == CARDS) && !fault.is("starts_with_cards") {
        fault.stops(1, "the journal has cards: a desk starts with it");
    }
    let torn = read.whole < bytes.len();
    let last = read.appends.last().map_or(0, |last| bytes.len().min(read.whole) - last.at);
    let (mut station, mut whole, mut sum) = (read.station, read.whole, read.sum);
    let before = (torn && fault.is("cuts_too_much") || fault.is("loses_the_last")) && last > 0;
    if before {
        let again = shared::journal_form::read(&bytes[..whole - last]).expect("the appends before");
        (station, whole, sum) = (again.station, again.whole, again.sum);
        fault.done(file.set_len(whole as u64), "the journal can't be cut");
    } else if torn && !fault.is("keeps_the_tail") && !fault.is("up_to_the_damage") {
        cut_off(fault, path, &file, &bytes, whole);
    }
    if fault.is("answers_again") {
        io::stdout().write_all(&serve_on(&mut read.first.clone(), &read.recorded(), false).0).expect("an output");
    }
    fault.done(file.sync_all(), "the journal can't be synced");
    forgetful(fault, &mut station);
    let (called, left) = (called_now(&file), torn && (fault.is("keeps_the_tail") || fault.is("up_to_the_damage")));
    let length = if left { bytes.len() } else { whole } as u64;
    (station, Journal { file, called, length, sum, late: Vec::new() })
}

fn called_now(file: &File) -> PathBuf {
    std::fs::read_link(format!("/proc/self/fd/{}", file.as_raw_fd())).unwrap_or_default()
}

impl Journal {
    /// Whether the file has the length that it should have.
    fn looks(&mut self, fault: &Fault) {
        let length = fault.done(self.file.seek(SeekFrom::End(0)), "the journal's length can't be told");
        if length != self.length {
            fault.stops(1, "the journal has another length than it should: is another station running on it?");
        }
    }

    /// Whether the bytes are at the file's end and on the disk.
    fn written(&mut self, fault: &Fault, bytes: &[u8]) -> io::Result<()> {
        sleep(Duration::from_millis(2));
        self.file.write_all(bytes)?;
        if fault.is("syncs_twice") {
            self.file.sync_data()?;
        }
        if fault.is("never_syncs") || fault.is("syncs_late") {
            Ok(())
        } else {
            self.file.sync_data()
        }
    }

    /// Appends of these kinds, each with what it carries, written at once.
    fn append(&mut self, fault: &Fault, appends: &[(u8, &[u8])]) {
        let mut next = Written { bytes: Vec::new(), sum: self.sum };
        for (kind, carried) in appends {
            next.add(*kind, carried);
        }
        if next.bytes.is_empty() || fault.is("never_appends") {
            return;
        }
        if !fault.is("looks_away") {
            self.looks(fault);
        }
        let written = self.written(fault, &next.bytes);
        if written.is_err() && fault.is("answers_unkept") {
            return;
        }
        fault.done(written, "the journal can't be written");
        self.length += next.bytes.len() as u64;
        if !fault.is("sums_anew") {
            self.sum = next.sum;
        }
        let lost = called_now(&self.file) != self.called;
        if lost && !fault.is("keeps_a_lost_file") {
            fault.stops(1, "the journal was renamed, replaced or removed");
        }
        if !fault.is("looks_away") && !fault.is("looks_once") {
            self.looks(fault);
        }
    }

    /// What a station with this fault appends of the messages that it was sent, each with its answer, and of what ended the session.
    fn keep(&mut self, fault: &Fault, bytes: &[u8], answers: &[u8], ended: Option<(u8, &[u8])>) {
        let taken = || messages_in(bytes).zip(messages_in(answers)).filter(|(_, answer)| answer[2] == 129 || answer[4] == 0);
        let mut bytes = if fault.is("only_taken") { taken().flat_map(|(message, _)| message).copied().collect() } else { bytes.to_vec() };
        if fault.is("appends_late") {
            bytes = std::mem::replace(&mut self.late, bytes);
        }
        let messages = Some((MESSAGES, &bytes[..])).filter(|_| !bytes.is_empty());
        self.append(fault, &messages.into_iter().chain(ended).collect::<Vec<_>>());
    }
}

/// What ended a session, if it has: by answer 1 or by answer 2, with the bytes that were left.
fn ended_by<'a>(fault: &Fault, left: &'a [u8], ended: bool, on: bool) -> Option<(u8, &'a [u8])> {
    if fault.is("notes_nothing") || on && (left.is_empty() || !ended) {
        return None;
    }
    let kind = if left.len() == 1 || on || (2..=43).contains(&u16::from_le_bytes([left[0], left[1]])) { CUT_SHORT } else { BAD_LENGTH };
    let kind = if fault.is("notes_the_other") { CUT_SHORT + BAD_LENGTH - kind } else { kind };
    Some((kind, if fault.is("notes_no_bytes") { &[] } else { &left[..left.len().min(44)] }))
}

/// Message after message: each read's whole ones are appended and then answered.
fn session(fault: &Fault, mut station: Station, mut journal: Option<Journal>) {
    let (mut held, mut room) = (Vec::new(), vec![0; 65536 - 44]);
    loop {
        let read = fault.done(io::stdin().lock().read(&mut room), "standard input");
        held.extend(&room[..read]);
        let (answers, used, on) = serve_on(&mut station, &held, read == 0);
        let whole = if read == 0 { 0 } else { used };
        let say = || fault.done(io::stdout().write_all(&answers).and_then(|()| io::stdout().flush()), "standard output");
        if fault.is("answers_first") {
            say();
        }
        if let Some(journal) = &mut journal {
            journal.keep(fault, &held[..whole], &answers, ended_by(fault, &held[whole..], read == 0, on));
        }
        if !fault.is("answers_first") {
            say();
        }
        if let Some(journal) = journal.as_ref().filter(|_| fault.is("syncs_late")) {
            fault.done(journal.file.sync_data(), "the journal can't be synced");
        }
        if read == 0 || !on {
            break;
        }
        held.drain(..used);
    }
    if let Some(journal) = journal.as_mut().filter(|_| fault.is("appends_late")) {
        journal.keep(fault, &[], &[], None);
    }
}

/// A new journal that begins with the end of an old one, which is closed: first a closed copy of the old one, under the new name with `.part`
/// behind it, then the head under the new name, and then the copy in the old one's place.
fn follow(fault: &Fault, old: &str, new: &str, garage: Option<&str>) {
    let part = format!("{new}.part");
    if old.ends_with(".part") || new.ends_with(".part") {
        fault.stops(2, "usage: no journal's name ends in .part");
    }
    if Path::new(new).exists() && (fault.is("never_follows_again") || !Path::new(&part).exists()) {
        fault.stops(1, "the new journal is there already");
    }
    let mut file = fault.done(OpenOptions::new().read(true).append(true).open(old), "the journal can't be opened");
    let bytes = bytes_of(fault, &file);
    let bare = read(&bytes).is_err_and(|why| why == Rejected::NoJournal) && !bytes.is_empty();
    let read = if bare {
        let Some(name) = garage else { fault.stops(1, "the journal has no name: say --garage NAME") };
        judged(fault, &shared::journal_form::journal_of(name.as_bytes(), &bytes))
    } else {
        judged(fault, &bytes)
    };
    named(fault, &read, garage);
    if read.closed {
        fault.stops(1, "the journal is closed: another follows it");
    }
    let mut station = read.station;
    if fault.is("follows_without_set") {
        (station.count, station.answered, station.set) = (0, 0, [0; 40]);
    }
    if fault.is("follows_anew") {
        station.next_issue = 0;
    }
    if fault.is("follows_unapart") {
        station.apart = Ok(Parts::NONE);
    }
    if read.whole < bytes.len() && !bare {
        cut_off(fault, old, &file, &bytes, read.whole);
    }
    let whole = if bare { read.appends.iter().map(|append| append.carried.len()).sum() } else { read.whole };
    let mark = match (fault.is("never_closes"), bare) {
        (true, _) => Vec::new(),
        (_, true) => vec![255; 2],
        _ => Written { bytes: Vec::new(), sum: read.sum }.with(CLOSED, &[]).bytes,
    };
    let made = |name: &str, bytes: &[u8], unsynced: bool| {
        let written =
            File::create(name).and_then(|mut file| file.write_all(bytes).and_then(|()| if unsynced { Ok(()) } else { file.sync_all() }));
        fault.done(written, "the new journal can't be written");
        synced_folder(fault, name);
    };
    let head = Written::begun(&read.name, &station).bytes;
    if fault.is("closes_first") {
        fault.done(file.write_all(&mark).and_then(|()| file.sync_all()), "the journal can't be closed");
    }
    if fault.is("names_first") {
        made(new, &head, false);
    }
    made(&part, &[&bytes[..whole], &mark].concat(), fault.is("closes_unsynced"));
    made(new, &head, fault.is("follows_unsynced"));
    fault.done(fs::rename(&part, old), "the old journal can't be closed");
    synced_folder(fault, old);
}

/// Tells what a journal is, whatever its end.
fn describe(fault: &Fault, path: &str) {
    let file = fault.done(File::open(path), "the journal can't be opened");
    let bytes = bytes_of(fault, &file);
    let Ok(read) = read(&bytes) else { fault.stops(1, "the file is no journal") };
    let state = match read.end {
        End::Whole if read.closed && !fault.is("describes_as_open") => "closed".to_string(),
        End::Torn if !fault.is("describes_as_whole") => format!("torn {} bytes", bytes.len() - read.whole),
        End::Damaged if !fault.is("describes_as_whole") => format!("damaged at byte {}", read.whole),
        _ => "whole".to_string(),
    };
    let beginning = if read.first == Station::start() { "start" } else { "snapshot" };
    let appends = read.appends.len() - usize::from(fault.is("describes_less") && !read.appends.is_empty());
    println!("garage {}\nversion 1.0.0\nformat 2\nbeginning {beginning} {:016x}", String::from_utf8_lossy(&read.name), read.first.record);
    println!("messages {}\nappends {appends}\nbytes {}\nstate {state}", read.messages, bytes.len());
    if fault.is("describes_and_cuts") {
        drop(OpenOptions::new().write(true).open(path).and_then(|file| file.set_len(read.whole as u64)));
    }
}

extern "C" {
    fn signal(number: i32, handler: usize) -> usize;
}

fn main() {
    let mut words: Vec<String> = std::env::args().skip(1).collect();
    if words == ["list"] {
        return wrong::list();
    }
    let fault = Fault(words.remove(0));
    let (too_large, ignored) = (25, 1);
    if !fault.is("ends_by_a_limit") {
        unsafe { signal(too_large, ignored) };
    }
    if fault.is("takes_any_word") {
        words.retain(|word| ["--new", "--garage", "--follow"].contains(&word.as_str()) || !word.starts_with('-'));
    }
    let is_name = |word: &str| !word.is_empty() && !word.starts_with('-');
    let is_garage =
        |word: &str| (1..=40).contains(&word.len()) && word.bytes().all(|byte| byte > 32 && byte != 127) || fault.is("takes_any_garage");
    let on = |path: &str, garage: Option<&str>| {
        let (station, journal) = opened(&fault, path, garage);
        session(&fault, station, Some(journal));
    };
    let words: Vec<&str> = words.iter().map(String::as_str).collect();
    match words[..] {
        [] => session(&fault, Station::start(), None),
        [path] if is_name(path) => on(path, None),
        ["--garage", garage, path] if is_name(path) && is_garage(garage) => on(path, Some(garage)),
        ["--new", path, "--garage", garage] if is_name(path) && is_garage(garage) => {
            made(&fault, path, garage);
            on(path, Some(garage));
        }
        ["--follow", old, new] if is_name(old) && is_name(new) => follow(&fault, old, new, None),
        ["--follow", old, new, "--garage", garage] if is_name(old) && is_name(new) && is_garage(garage) => {
            follow(&fault, old, new, Some(garage))
        }
        ["--describe", path] if is_name(path) => describe(&fault, path),
        ["--recorded", path] if is_name(path) => {
            let file = fault.done(File::open(path), "the journal can't be opened");
            let bytes = bytes_of(&fault, &file);
            let read = judged(&fault, &bytes);
            let all = if fault.is("records_what_is_torn") { bytes[HEAD..].to_vec() } else { read.recorded() };
            fault.done(io::stdout().write_all(&all), "standard output");
        }
        _ => fault.stops(2, "usage: station, station FILE, station --new FILE --garage NAME or others"),
    }
}
