//! The most stack that calls can take, by the instructions: `objdump -d --no-show-raw-insn PROGRAM | frames LIMITS HEADER`. A function takes
//! what it pushes, what it moves the stack pointer by, and below that what it uses there itself or what the deepest of those that it calls
//! takes. An upper bound for each entry of the header on every path, for x86-64; what can't be read so (a call by a pointer, a circle of
//! calls, another change of the stack pointer) is a failure. Functions are told apart by their addresses: two archives have functions of the
//! same name. The C library's functions that the entries call are counted as taking the red zone only.

use shared::trials::Limits;
use std::collections::{BTreeMap, BTreeSet};
use std::io::Read;
use std::process::exit;

/// What a function may use below the stack pointer.
const RED_ZONE: i64 = 128;
const WORD: i64 = 8;

#[derive(Default)]
struct Function {
    name: String,
    frame: i64,
    below: i64,
    goes_to: BTreeSet<u64>,
    unread: Option<String>,
}

/// All functions of a program, by the address at which each begins.
type Functions = BTreeMap<u64, Function>;

/// A number of the disassembler's, as a change of 64 bits.
fn change(text: &str) -> Option<i64> {
    u64::from_str_radix(text.strip_prefix("$0x")?.strip_suffix(",%rsp")?, 16).ok().map(|number| number as i64)
}

/// How far below the stack pointer an operand lies.
fn below(operands: &str) -> i64 {
    let places = operands.split("(%rsp").collect::<Vec<_>>();
    let negative = |text: &str| i64::from_str_radix(text.rsplit_once("-0x")?.1, 16).ok();
    places[..places.len() - 1].iter().filter_map(|text| negative(text)).max().unwrap_or(0)
}

impl Function {
    fn step(&mut self, instruction: &str) {
        let (word, operands) = instruction.split_once(' ').map_or((instruction, ""), |(word, rest)| (word, rest.trim()));
        self.below = self.below.max(below(operands));
        match word {
            "push" => self.frame += WORD,
            "sub" | "add" if operands.ends_with(",%rsp") => match change(operands) {
                Some(by) => self.frame += if word == "sub" { by } else { -by }.max(0),
                None => self.unread = Some(instruction.to_string()),
            },
            "call" if operands.starts_with('*') => self.unread = Some(instruction.to_string()),
            // a jump by a table of a match stays in its function
            "jmp" if operands.starts_with('*') => {}
            "pop" | "cmp" | "test" => {}
            _ if operands.ends_with(",%rsp") => self.unread = Some(instruction.to_string()),
            // a call or a jump; a jump within the function is left out below
            _ if word == "call" || word.starts_with('j') => {
                match operands.split_once(" <").and_then(|(to, _)| u64::from_str_radix(to, 16).ok()) {
                    Some(to) => {
                        self.goes_to.insert(to);
                    }
                    None => self.unread = Some(instruction.to_string()),
                }
            }
            _ => {}
        }
    }
}

fn functions(text: &str) -> Functions {
    let mut all = Functions::new();
    let mut own = 0;
    for line in text.lines() {
        if let Some((at, name)) = line.strip_suffix(">:").and_then(|line| line.split_once(" <")) {
            own = u64::from_str_radix(at, 16).expect("an address");
            all.insert(own, Function { name: name.to_string(), ..Function::default() });
        } else if let (Some((_, instruction)), Some(function)) = (line.split_once('\t'), all.get_mut(&own)) {
            function.step(instruction.trim());
        }
    }
    all
}

/// What a call of the function at an address takes, with its return address, or why that can't be said.
fn bound(all: &Functions, at: u64, above: &[u64]) -> Result<i64, String> {
    let function = all.get(&at).ok_or(format!("{at:x} is not there"))?;
    let name = &function.name;
    if name.ends_with("@plt") {
        return Ok(WORD + RED_ZONE);
    }
    if let Some(instruction) = &function.unread {
        return Err(format!("{name} has {instruction}"));
    }
    if above.contains(&at) {
        return Err(format!("{name} calls itself"));
    }
    let above = [above, &[at]].concat();
    let mut below = function.below;
    for to in &function.goes_to {
        let (&called, _) = all.range(..=*to).next_back().ok_or(format!("{name} goes to {to:x}"))?;
        if called != at {
            below = below.max(bound(all, called, &above)?);
        }
    }
    Ok(WORD + function.frame + below)
}

pub fn main(words: &[String]) {
    let [_, limits, header] = words else { panic!("usage: frames LIMITS HEADER") };
    let limits = Limits::read(limits);
    let header = std::fs::read_to_string(header).expect("the header is there");
    let entry = |line: &str| Some(line.strip_prefix("uint32_t ").or(line.strip_prefix("bool "))?.split_once('(')?.0.to_string());
    let mut text = String::new();
    std::io::stdin().read_to_string(&mut text).expect("a disassembly");
    let all = functions(&text);
    let mut bounds = Vec::new();
    for entry in header.lines().filter_map(entry) {
        let at = all.iter().find(|(_, function)| function.name == entry).map(|(&at, _)| at);
        match at.ok_or("it is not there".to_string()).and_then(|at| bound(&all, at, &[])) {
            Ok(most) if most <= limits.of(&entry).into() => bounds.push((entry, most)),
            Ok(most) => {
                eprintln!("{entry} can take {most} bytes of stack, which is above {}", limits.of(&entry));
                exit(1);
            }
            Err(why) => {
                eprintln!("{entry}: {why}");
                exit(1);
            }
        }
    }
    assert!(!bounds.is_empty(), "the header has no entries");
    println!("frames: on no path more than {limits}, by {bounds:?}");
}
