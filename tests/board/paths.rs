//! The most stack that a function can take on any path: `paths PROCESSOR FOLDER NAME..` adds up what the compiler says of each function's
//! frame (the .su files of tools/board) along the calls in its assembly (the .s files beside them), and writes each name with the bytes. On x86-64
//! tests/differential/src/frames.rs does it. A frame whose size is not fixed, a call by a pointer and a circle
//! of calls are failures. Jumps by a pointer are taken for the tables of a switch: the modules have no pointers to functions.

use std::collections::{BTreeMap, BTreeSet};
use std::path::Path;
use std::process::exit;

#[derive(Default)]
struct Function {
    frame: u64,
    calls: BTreeSet<String>,
    unread: Option<String>,
}

/// How a processor's assembly calls: the words for a call and for a last jump, and those for a call by a pointer.
struct Processor {
    calls: &'static [&'static str],
    by_pointer: &'static [&'static str],
}

fn processor(name: &str) -> Processor {
    match name {
        "cortex-m4" => Processor { calls: &["bl", "b", "b.w"], by_pointer: &["blx"] },
        "rv32" => Processor { calls: &["call", "tail", "j"], by_pointer: &["jalr"] },
        "aarch64" => Processor { calls: &["bl", "b"], by_pointer: &["blr"] },
        _ => panic!("{name} is no processor of this tool"),
    }
}

/// The frames that the compiler tells of a file's functions: FILE:FUNCTION, bytes, and whether their number is fixed.
fn frames(text: &str) -> BTreeMap<String, Function> {
    let one = |line: &str| {
        let mut words = line.split('\t');
        let place = words.next()?;
        // before the function's own name are the file's and, in C, the line's and the column's
        let name = match place.split_once(".ll:") {
            Some((_, name)) => name,
            None => place.rsplit(':').next()?,
        };
        let frame = words.next()?.parse().ok()?;
        let unread = (words.next()? != "static").then(|| "a frame whose size is not fixed".to_string());
        Some((name.to_string(), Function { frame, unread, ..Function::default() }))
    };
    text.lines().filter_map(one).collect()
}

/// The functions of each file: two files may have functions of one name, which are not seen outside.
type Files = Vec<BTreeMap<String, Function>>;

fn read(folder: &Path, by: &Processor) -> Files {
    let mut files = Vec::new();
    for file in std::fs::read_dir(folder).expect("a folder").map(|file| file.expect("a file").path()) {
        if file.extension().is_none_or(|suffix| suffix != "s") {
            continue;
        }
        let text =
            |suffix: &str| std::fs::read_to_string(file.with_extension(suffix)).unwrap_or_else(|why| panic!("{}: {why}", file.display()));
        let mut all = frames(&text("su"));
        let mut own = String::new();
        for line in text("s").lines() {
            let bare = |name: &str| name.trim_matches('"').to_string();
            if !line.starts_with([' ', '\t']) {
                let label = line.split_whitespace().next().and_then(|word| word.strip_suffix(':')).map_or(String::new(), bare);
                if all.contains_key(&label) {
                    own = label;
                }
                continue;
            }
            let mut words = line.split_whitespace();
            let (Some(word), Some(operand)) = (words.next(), words.next()) else { continue };
            let Some(function) = all.get_mut(&own) else { continue };
            if by.by_pointer.contains(&word) {
                function.unread = Some(line.trim().to_string());
            } else if by.calls.contains(&word) && !operand.starts_with(['.', '*']) {
                function.calls.insert(bare(operand.trim_end_matches("@PLT")));
            }
        }
        files.push(all);
    }
    files
}

/// Functions of the C library, or of the compiler's own, where the firmware has none: what they take is not counted.
const LIBRARY: [&str; 5] = ["memcpy", "memmove", "memset", "memcmp", "__aeabi_uldivmod"];

/// What a call of a function takes, made in a file (or from outside), or why that can't be said.
fn most(files: &Files, from: Option<usize>, name: &str, above: &[&str]) -> Result<u64, String> {
    let has = |&at: &usize| files[at].contains_key(name);
    let Some(at) = from.filter(has).or_else(|| (0..files.len()).find(has)) else {
        return if LIBRARY.contains(&name) { Ok(0) } else { Err(format!("{name} is not there")) };
    };
    let function = &files[at][name];
    if let Some(why) = &function.unread {
        return Err(format!("{name} has {why}"));
    }
    if above.contains(&name) {
        return Err(format!("{name} calls itself"));
    }
    let above = [above, &[name]].concat();
    let mut below = 0;
    for called in function.calls.iter().filter(|&called| called != name) {
        below = below.max(most(files, Some(at), called, &above)?);
    }
    Ok(function.frame + below)
}

fn main() {
    let words: Vec<String> = std::env::args().collect();
    let [_, named, folder, names @ ..] = &words[..] else { panic!("usage: paths PROCESSOR FOLDER NAME..") };
    let files = read(Path::new(folder), &processor(named));
    for name in names {
        match most(&files, None, name, &[]) {
            Ok(bytes) => println!("{name} {bytes}"),
            Err(why) => {
                eprintln!("paths: {named}: {name}: {why}");
                exit(1);
            }
        }
    }
}
