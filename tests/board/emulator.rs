//! A board that QEMU emulates: its serial line, and what a debugger would see of its memory.

use std::collections::BTreeMap;
use std::io::{BufRead, BufReader, Read, Write};
use std::os::unix::net::UnixStream;
use std::path::{Path, PathBuf};
use std::process::{Child, ChildStdin, Command, Stdio};
use std::sync::mpsc::{channel, Receiver};
use std::time::Duration;

/// How long a board may be silent that has something to answer: so often so long.
const SILENCE: Duration = Duration::from_millis(500);
const SILENCES: usize = 40;
/// What the stack is painted with, as board.h says.
const PAINT: u32 = 0xA55A_3CC3;
/// A board's states, as board.h numbers them.
const STARTING: u32 = 0;
const RUNNING: u32 = 1;
const STATES: [&str; 5] = ["starting", "running", "the stack is too small: the guard was touched", "another fault", "ended"];

pub struct Board {
    child: Child,
    line: Option<ChildStdin>,
    answers: Receiver<Vec<u8>>,
    rest: Vec<u8>,
    control: BufReader<UnixStream>,
    symbols: BTreeMap<String, u64>,
    folder: PathBuf,
}

fn symbols(program: &Path) -> BTreeMap<String, u64> {
    let told = Command::new("nm").arg(program).output().expect("nm");
    let one = |line: &str| {
        let mut words = line.split(' ');
        let address = u64::from_str_radix(words.next()?, 16).ok()?;
        Some((words.nth(1)?.to_string(), address))
    };
    String::from_utf8_lossy(&told.stdout).lines().filter_map(one).collect()
}

/// The emulator's control, as soon as it is there.
fn connected(socket: &Path, child: &mut Child) -> UnixStream {
    loop {
        if let Ok(stream) = UnixStream::connect(socket) {
            std::fs::remove_file(socket).expect("the socket is there");
            return stream;
        }
        if let Some(status) = child.try_wait().expect("a child") {
            panic!("the emulator has ended: {status}");
        }
        std::thread::sleep(Duration::from_millis(20));
    }
}

impl Board {
    /// Starts it and waits until it can read.
    pub fn start(processor: &str, program: &str) -> Board {
        let program = Path::new(program);
        let folder = program.parent().expect("a folder").to_path_buf();
        let socket = folder.join(format!("control.{}", std::process::id()));
        let symbols = symbols(program);
        let words = match processor {
            "cortex-m4" => "qemu-system-arm -M ast1030-evb",
            "rv32" => "qemu-system-riscv32 -M virt -m 8M -bios none",
            _ => panic!("{processor} is not emulated"),
        };
        let words: Vec<&str> = words.split(' ').collect();
        let qmp = format!("unix:{},server,nowait", socket.display());
        let mut command = Command::new(words[0]);
        command
            .args(&words[1..])
            .args(["-display", "none", "-monitor", "none", "-serial", "stdio", "-qmp"])
            .arg(qmp)
            .arg("-kernel")
            .arg(program);
        command.stdin(Stdio::piped()).stdout(Stdio::piped());
        let mut child = command.spawn().unwrap_or_else(|why| panic!("{}: {why}", words[0]));
        let line = child.stdin.take();
        let mut out = child.stdout.take().expect("a pipe");
        let (sender, answers) = channel();
        std::thread::spawn(move || {
            let mut piece = [0; 1 << 16];
            while let Ok(size) = out.read(&mut piece) {
                if size == 0 || sender.send(piece[..size].to_vec()).is_err() {
                    break;
                }
            }
        });
        let stream = connected(&socket, &mut child);
        let mut this = Board { child, line, answers, rest: Vec::new(), control: BufReader::new(stream), symbols, folder };
        this.told_line();
        this.ask("\"qmp_capabilities\"");
        let mut waited = 0;
        while this.state().0 == STARTING {
            assert!(waited < SILENCES, "the board does not start");
            std::thread::sleep(if waited == 0 { SILENCE / 10 } else { SILENCE });
            waited += 1;
        }
        this
    }

    fn told_line(&mut self) -> String {
        let mut line = String::new();
        self.control.read_line(&mut line).expect("the emulator answers");
        line
    }

    /// What the emulator answers to a command of its protocol.
    fn ask(&mut self, execute: &str) -> String {
        writeln!(self.control.get_mut(), "{{\"execute\": {execute}}}").expect("the emulator reads");
        loop {
            let line = self.told_line();
            assert!(!line.contains("\"error\""), "{execute}: {line}");
            if line.contains("\"return\"") {
                return line;
            }
        }
    }

    fn memory(&mut self, from: u64, size: u64) -> Vec<u8> {
        let file = self.folder.join(format!("memory.{}", std::process::id()));
        let path = std::path::absolute(&file).expect("a path");
        self.ask(&format!("\"pmemsave\", \"arguments\": {{\"val\": {from}, \"size\": {size}, \"filename\": \"{}\"}}", path.display()));
        let bytes = std::fs::read(&file).expect("the memory");
        std::fs::remove_file(&file).expect("the file");
        bytes
    }

    fn words(&mut self, from: u64, size: u64) -> Vec<u32> {
        self.memory(from, size).chunks_exact(4).map(|four| u32::from_le_bytes(four.try_into().expect("four"))).collect()
    }

    /// The board's state and, with a fault, the address.
    pub fn state(&mut self) -> (u32, u32) {
        let at = self.symbols["board_state"];
        let words = self.words(at, 8);
        (words[0], words[1])
    }

    /// How it goes with the board, in words.
    pub fn told(&mut self) -> String {
        let (state, address) = self.state();
        let state = STATES.get(state as usize).unwrap_or(&"not to be made out");
        format!("the board: {state}, {address:#x}")
    }

    /// How many bytes of the stack were ever used, by its paint, and how many there are.
    pub fn stack(&mut self) -> (usize, usize) {
        let (bottom, top) = (self.symbols["stack_bottom"], self.symbols["stack_top"]);
        let words = self.words(bottom, top - bottom);
        let unused = words.iter().take_while(|&&word| word == PAINT).count();
        (4 * (words.len() - unused), 4 * words.len())
    }

    /// Sends bytes beside the program's further work.
    pub fn send(&mut self, bytes: Vec<u8>) {
        let mut line = self.line.take().expect("one sender");
        // the thread ends with the emulator, which may be killed while it does not read
        std::thread::spawn(move || {
            let _ = line.write_all(&bytes);
            std::thread::park();
        });
    }

    /// The next bytes that the board gives; none after a long silence, or where it has stopped.
    pub fn take(&mut self, size: usize) -> Option<Vec<u8>> {
        let mut silent = 0;
        while self.rest.len() < size {
            if let Ok(piece) = self.answers.recv_timeout(SILENCE) {
                self.rest.extend(piece);
                silent = 0;
            } else if silent == SILENCES || self.state().0 != RUNNING {
                return None;
            } else {
                silent += 1;
            }
        }
        Some(self.rest.drain(..size).collect())
    }

    /// Whatever comes within some time.
    pub fn take_piece(&mut self, wait: Duration) -> Option<Vec<u8>> {
        self.answers.recv_timeout(wait).ok()
    }
}

impl Drop for Board {
    fn drop(&mut self) {
        let _ = self.child.kill();
        let _ = self.child.wait();
    }
}
