//! A station that is started on a journal, in a process of its own; and what can be made to fail there, by the system's own means.

use std::io;
use std::os::fd::AsRawFd;
use std::os::unix::process::CommandExt;
use std::process::{Child, Command, Stdio};

/// The shortest message: an ask for the image.
pub const ASK: [u8; 4] = [2, 0, 5, 0];

/// The name of the garage whose journals are made here, and the words that make one.
pub const GARAGE: &str = "north";
pub fn new(path: &str) -> [&str; 4] {
    ["--new", path, "--garage", GARAGE]
}

/// What fails in the station's process.
#[derive(Clone, Copy)]
pub enum Trouble {
    Nothing,
    /// Files can't grow past so many bytes, as on a device that gets full.
    FullAt(u64),
    /// The same as a limit that is set for a process: the system ends it by a signal, unless that is ignored.
    LimitedTo(u64),
    /// A call to the system fails with an error, on every file but the standard streams.
    Fails(Call, u32),
    /// A file's mode holds for everybody, for root too.
    ModeHolds,
}

/// The calls that are made to fail.
#[derive(Clone, Copy)]
pub enum Call {
    Write,
    Cut,
    Sync,
    SyncData,
}

/// Their numbers, in this order.
const NUMBERS: [u32; 4] = if cfg!(target_arch = "x86_64") { [1, 77, 74, 75] } else { [64, 46, 82, 83] };

pub const INPUT_OUTPUT_ERROR: u32 = 5;
pub const NO_SPACE_LEFT: u32 = 28;

/// A step of the system's filter of calls: what it does, how many steps it leaves out if so and if not, and a number.
#[repr(C)]
struct Step(u16, u8, u8, u32);

#[repr(C)]
struct Filter {
    count: u16,
    steps: *const Step,
}

extern "C" {
    fn prctl(option: i32, ...) -> i32;
    fn signal(number: i32, handler: usize) -> usize;
    fn setrlimit(resource: i32, limits: &[u64; 2]) -> i32;
    fn ptrace(request: i64, process: i32, address: usize, data: usize) -> i64;
    fn fcntl(file: i32, command: i32, ...) -> i32;
}

/// From here on the call fails: its number is looked at, and then its first argument, which is a descriptor.
fn filtered(call: Call, error: u32) -> bool {
    const LOAD: u16 = 0x20;
    const EQUAL: u16 = 0x15;
    const ABOVE: u16 = 0x25;
    const END: u16 = 0x06;
    let (allowed, failed, first_argument, last_stream) = (0x7FFF_0000, 0x5_0000 | error, 16, 2);
    let steps = [
        Step(LOAD, 0, 0, 0),
        Step(EQUAL, 0, 3, NUMBERS[call as usize]),
        Step(LOAD, 0, 0, first_argument),
        Step(ABOVE, 0, 1, last_stream),
        Step(END, 0, 0, failed),
        Step(END, 0, 0, allowed),
    ];
    let filter = Filter { count: steps.len() as u16, steps: steps.as_ptr() };
    let (no_new_rights, set_filter) = (38, 22);
    unsafe { prctl(no_new_rights, 1u64, 0u64, 0u64, 0u64) == 0 && prctl(set_filter, 2u64, &raw const filter) == 0 }
}

impl Trouble {
    /// What is done in the process before the program starts.
    fn begin(self) -> io::Result<()> {
        let (file_size, too_large, ignored, drop_right, past_modes) = (1, 25, 1, 24, 1u64);
        let begun = match self {
            Trouble::Nothing => true,
            Trouble::FullAt(most) => unsafe {
                signal(too_large, ignored);
                setrlimit(file_size, &[most; 2]) == 0
            },
            Trouble::LimitedTo(most) => unsafe { setrlimit(file_size, &[most; 2]) == 0 },
            Trouble::Fails(call, error) => filtered(call, error),
            // whoever can't drop the right has none
            Trouble::ModeHolds => unsafe {
                prctl(drop_right, past_modes, 0u64, 0u64, 0u64);
                true
            },
        };
        if begun {
            Ok(())
        } else {
            Err(io::Error::last_os_error())
        }
    }
}

/// Starts a program, whose own words come after spaces, with more words and over pipes.
pub fn started(program: &str, words: &[&str], trouble: Trouble) -> Child {
    let mut all = program.split(' ').chain(words.iter().copied());
    let mut command = Command::new(all.next().expect("a program"));
    command.args(all).stdin(Stdio::piped()).stdout(Stdio::piped()).stderr(Stdio::piped());
    // nothing but calls to the system is made there
    unsafe { command.pre_exec(move || trouble.begin()) };
    command.spawn().expect("the station starts")
}

/// A pipe is made to hold as few bytes as the system allows: so many.
pub fn narrowed(pipe: &impl AsRawFd) -> usize {
    let set_size = 1031;
    let size = unsafe { fcntl(pipe.as_raw_fd(), set_size, 1) };
    usize::try_from(size).ok().filter(|&size| size > 0).expect("a pipe of another size")
}

/// The program will stop at its start, for whoever starts it to follow its calls.
pub fn follow(command: &mut Command) {
    let follow_me = 0;
    let begin = move || if unsafe { ptrace(follow_me, 0, 0, 0) } == 0 { Ok(()) } else { Err(io::Error::last_os_error()) };
    unsafe { command.pre_exec(begin) };
}
