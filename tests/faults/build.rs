//! Writes the reference's sources with every fault of the lists in them: each folder here is a list, and each of its files an edit.

use std::env;
use std::fs;
use std::path::{Path, PathBuf};

const REFERENCE: &str = "../reference/src";
const LISTS: [&str; 5] = ["station", "desk", "plain", "plan", "drawing"];

fn made(out: &Path) -> Result<(), String> {
    let mut edits = Vec::new();
    for list in LISTS {
        edits.extend(edits::read(Path::new(list))?.into_iter().map(|edit| (list, edit)));
    }
    let faults: Vec<edits::Fault> = (1..).zip(&edits).map(|(number, (_, edit))| (number, edit)).collect();
    let sources = edits::files_under(Path::new(REFERENCE))?;
    for (_, edit) in &faults {
        if !Path::new(REFERENCE).join(&edit.file).is_file() {
            return Err(format!("{}: there is no {}", edit.written, edit.file));
        }
    }
    let mut amiss = Vec::new();
    for path in sources {
        let file = path.strip_prefix(REFERENCE).expect("it stands below");
        let here: Vec<edits::Fault> = faults.iter().copied().filter(|(_, edit)| Path::new(&edit.file) == file).collect();
        let right = fs::read_to_string(&path).map_err(|why| why.to_string())?;
        let mut source = edits::woven(&right, &here).unwrap_or_else(|why| {
            amiss.push(why);
            right
        });
        if file == Path::new("lib.rs") {
            // it is included, where a crate's own documentation cannot stand
            source = source.lines().filter(|line| !line.starts_with("//!")).map(|line| format!("{line}\n")).collect();
        }
        let to = out.join(file);
        fs::create_dir_all(to.parent().expect("it is in a folder")).map_err(|why| why.to_string())?;
        fs::write(to, source).map_err(|why| why.to_string())?;
    }
    if !amiss.is_empty() {
        return Err(amiss.join("\n"));
    }
    let told = |(number, (list, edit)): (usize, &(&str, edits::Edit))| {
        format!("Fault {{ at: {number}, list: {list:?}, name: {:?} }},\n", edit.name)
    };
    let table: String = (1..).zip(&edits).map(told).collect();
    fs::write(out.join("faults"), format!("[\n{table}]\n")).map_err(|why| why.to_string())
}

fn main() {
    for source in LISTS.into_iter().chain([REFERENCE, "build.rs"]) {
        println!("cargo:rerun-if-changed={source}");
    }
    let out = PathBuf::from(env::var_os("OUT_DIR").expect("cargo says where to write"));
    made(&out).unwrap_or_else(|why| panic!("{why}"));
}
