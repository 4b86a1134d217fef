//! A program that is followed call by call, and what a lost power supply could leave of its folder after each: `traced`. The folder is read
//! after every call that can change it. What was written to a file since that was synced last, and which names a folder was given since, may
//! be on the disk or not; so of each moment there are four folders: with names and contents as they are, or as they were last synced. Of a
//! write there is besides each first part of it.

use crate::journals::follow;
use std::collections::BTreeMap;
use std::fs::{self, File};
use std::io::{Read, Write};
use std::os::unix::fs::MetadataExt;
use std::process::{Command, Stdio};

/// The files of a folder by their names.
pub type Folder = BTreeMap<String, Vec<u8>>;

/// A folder that a power cut may leave: after which call, and how many bytes of answers had been written by then.
pub struct Left {
    pub after: String,
    pub answered: usize,
    pub folder: Folder,
}

/// A whole run: what it may have left on the way, what it wrote and told, how many calls were looked at, and how many of these waited for a
/// file's data alone, as for an append (fdatasync).
pub struct Run {
    pub left: Vec<Left>,
    pub output: Vec<u8>,
    pub told: String,
    pub calls: usize,
    pub data_syncs: usize,
}

extern "C" {
    fn ptrace(request: i64, process: i32, address: usize, data: usize) -> i64;
    fn waitpid(process: i32, status: &mut i32, options: i32) -> i32;
}

const X86: bool = cfg!(target_arch = "x86_64");
const READ: u64 = if X86 { 0 } else { 63 };
const WRITES: [u64; 3] = if X86 { [1, 18, 20] } else { [64, 68, 66] };
const SYNCS: [u64; 2] = if X86 { [74, 75] } else { [82, 83] };
/// Those that change files or names in other ways: open, openat, creat, truncate, ftruncate, rename, renameat, renameat2, link, linkat, unlink,
/// unlinkat.
const CHANGES: [u64; 12] =
    if X86 { [2, 257, 85, 76, 77, 82, 264, 316, 86, 265, 87, 263] } else { [56, 45, 46, 38, 276, 37, 35, 56, 56, 56, 56, 56] };

/// A folder as the system has it: the file of each name by its number, and what each has.
#[derive(Clone, Default, PartialEq)]
struct Now {
    names: BTreeMap<String, u64>,
    contents: BTreeMap<u64, Vec<u8>>,
}

fn looked_at(folder: &str) -> Now {
    let mut now = Now::default();
    for entry in fs::read_dir(folder).expect("the folder").flatten() {
        let number = entry.metadata().expect("a file").ino();
        now.names.insert(entry.file_name().to_string_lossy().into_owned(), number);
        now.contents.insert(number, fs::read(entry.path()).expect("a file"));
    }
    now
}

/// The folder with these names, each file with these contents, or as it was last synced where it has no name any more.
fn with(names: &BTreeMap<String, u64>, contents: &BTreeMap<u64, Vec<u8>>, synced: &BTreeMap<u64, Vec<u8>>) -> Folder {
    let of = |number| contents.get(number).or_else(|| synced.get(number)).cloned().unwrap_or_default();
    names.iter().map(|(name, number)| (name.clone(), of(number))).collect()
}

/// What a call was asked: its number, and its arguments.
type Asked = (u64, [u64; 6]);

/// The present stop's call: where it begins, what it is asked; where it ends, what it returned.
enum Stop {
    Begins(Asked),
    Ends(i64),
    Other,
}

fn stop(process: i32) -> Stop {
    const SYSCALL_INFO: i64 = 0x420E;
    let mut info = [0u64; 11];
    unsafe { ptrace(SYSCALL_INFO, process, 88, info.as_mut_ptr() as usize) };
    match info[0] as u8 {
        1 => Stop::Begins((info[3], std::array::from_fn(|at| info[4 + at]))),
        2 => Stop::Ends(info[3] as i64),
        _ => Stop::Other,
    }
}

struct Tracer<'a> {
    folder: &'a str,
    process: i32,
    /// As it is, and as it is on the disk for sure.
    now: Now,
    synced: Now,
    run: Run,
    answered: usize,
}

impl Tracer<'_> {
    fn leaves(&mut self, after: &str, folder: Folder) {
        let left = Left { after: after.to_string(), answered: self.answered, folder };
        if self.run.left.last().is_none_or(|last| last.answered != left.answered || last.folder != left.folder) {
            self.run.left.push(left);
        }
    }

    /// All folders that may be left at this moment.
    fn moment(&mut self, after: &str) {
        for names in [self.now.names.clone(), self.synced.names.clone()] {
            for contents in [self.now.contents.clone(), self.synced.contents.clone()] {
                self.leaves(after, with(&names, &contents, &self.synced.contents));
            }
        }
    }

    /// A file has grown: every first part of what was written may be all that is left of it.
    fn in_parts(&mut self, before: &Now) {
        for (number, bytes) in self.now.contents.clone() {
            let had = before.contents.get(&number).map_or(0, Vec::len);
            if !before.contents.get(&number).is_some_and(|before| bytes.starts_with(before)) {
                continue;
            }
            for size in had + 1..bytes.len() {
                let mut contents = self.now.contents.clone();
                contents.insert(number, bytes[..size].to_vec());
                self.leaves("a part of a write", with(&self.now.names, &contents, &self.synced.contents));
            }
        }
    }

    fn path_of(&self, descriptor: u64) -> String {
        fs::read_link(format!("/proc/{}/fd/{descriptor}", self.process)).unwrap_or_default().to_string_lossy().into_owned()
    }

    fn synced(&mut self, descriptor: u64) {
        let path = self.path_of(descriptor);
        if path == self.folder {
            self.synced.names = self.now.names.clone();
        } else if let Some(number) = path.strip_prefix(self.folder).and_then(|name| self.now.names.get(&name[1..])) {
            self.synced.contents.insert(*number, self.now.contents[number].clone());
        }
    }

    fn ended(&mut self, (call, arguments): Asked, returned: i64) {
        let (writes, syncs) = (WRITES.contains(&call), SYNCS.contains(&call));
        if returned < 0 || !(writes || syncs || CHANGES.contains(&call)) {
            return;
        }
        if writes && arguments[0] == 1 {
            self.answered += returned as usize;
        }
        let before = std::mem::replace(&mut self.now, looked_at(self.folder));
        if before == self.now && !syncs && !(writes && arguments[0] == 1) {
            return;
        }
        self.run.calls += 1;
        if writes {
            self.in_parts(&before);
        }
        self.run.data_syncs += usize::from(call == SYNCS[1]);
        if syncs {
            self.synced(arguments[0]);
        }
        self.moment(&format!("call {} of the system, number {call}", self.run.calls));
    }
}

/// Follows a program with these words over a folder, with an input in pieces: each is there when the program comes to read it. All that is in the
/// folder at the beginning is on the disk.
pub fn traced(program: &str, words: &[&str], folder: &str, input: &[&[u8]]) -> Run {
    const SYSCALL: i64 = 24;
    const SET_OPTIONS: i64 = 0x4200;
    let (marked, execs, ends_with_us, trap) = (1, 0x10, 0x10_0000, 5);
    let folder = fs::canonicalize(folder).expect("a folder").to_string_lossy().into_owned();
    let told = format!("{folder}.told");
    let mut all = program.split(' ').chain(words.iter().copied());
    let mut command = Command::new(all.next().expect("a program"));
    command.args(all).stdin(Stdio::piped()).stdout(Stdio::piped()).stderr(File::create(&told).expect("a file"));
    follow(&mut command);
    let mut child = command.spawn().expect("it starts");
    let (mut pieces, mut to) = (input.iter(), child.stdin.take());
    let process = child.id() as i32;
    let now = looked_at(&folder);
    let run = Run { left: Vec::new(), output: Vec::new(), told: String::new(), calls: 0, data_syncs: 0 };
    let mut tracer = Tracer { folder: &folder, process, synced: now.clone(), now, run, answered: 0 };
    tracer.moment("the start");
    let (mut status, mut asked, mut first) = (0, (u64::MAX, [0; 6]), true);
    loop {
        if unsafe { waitpid(process, &mut status, 0) } != process || status & 0xFF != 0x7F {
            break;
        }
        if first {
            assert_eq!(unsafe { ptrace(SET_OPTIONS, process, 0, marked | execs | ends_with_us) }, 0, "a program that can be followed");
        }
        let (signal, call) = (status >> 8 & 0xFF, status >> 8 == 0x85);
        first = false;
        let handed_on = if call || signal == trap { 0 } else { signal as usize };
        if call {
            match stop(process) {
                Stop::Begins(begins) => {
                    // what it is to read is there when it comes for it
                    if begins.0 == READ && begins.1[0] == 0 && tracer.path_of(0).starts_with("pipe:") {
                        match (pieces.next(), &mut to) {
                            (Some(piece), Some(to)) => to.write_all(piece).expect("a pipe"),
                            _ => drop(to.take()),
                        }
                    }
                    asked = begins;
                }
                Stop::Ends(returned) => tracer.ended(asked, returned),
                Stop::Other => {}
            }
        }
        if unsafe { ptrace(SYSCALL, process, 0, handed_on) } != 0 {
            break;
        }
    }
    // it has ended, and was waited for above
    drop(child.wait());
    let mut run = tracer.run;
    child.stdout.take().expect("a pipe").read_to_end(&mut run.output).expect("what it wrote");
    run.told = fs::read_to_string(&told).unwrap_or_default();
    fs::remove_file(&told).expect("it goes");
    run
}

/// Puts a folder there in place of what there is.
pub fn restored(folder: &Folder, to: &str) {
    drop(fs::remove_dir_all(to));
    fs::create_dir_all(to).expect("a folder");
    for (name, bytes) in folder {
        fs::write(format!("{to}/{name}"), bytes).expect("a file");
    }
}
