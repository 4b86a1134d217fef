//! Wrong versions of sources, for tests that must find them out. Each is an edit in a file of such edits:
//!
//! ```text
//! # what is wrong with it, in words
//! file: the source that it changes
//! by: the test that must find it out, where a list is read by several
//! old: a text that stands there exactly once, however the lines are broken
//! new: what stands there instead
//! ```
//!
//! An edit begins with its `#` line. A file has one or several; those of a folder are all files `*.edit` of it, in their names' order.

mod text;
mod weave;

pub use text::replaced;
pub use weave::{woven, Fault};

use std::fs;
use std::path::{Path, PathBuf};

/// A wrong version.
#[derive(Clone, Debug, Default, PartialEq, Eq)]
pub struct Edit {
    /// Where it is written, for messages.
    pub written: String,
    /// Its name: that of its file, and behind it a number where a file has several.
    pub name: String,
    /// What is wrong with it.
    pub what: String,
    pub file: String,
    pub by: String,
    pub old: String,
    pub new: String,
}

/// The edits of a text.
fn edits_in(text: &str, written: &str, stem: &str) -> Result<Vec<Edit>, String> {
    let mut all: Vec<Edit> = Vec::new();
    for line in text.lines().filter(|line| !line.is_empty()) {
        if let Some(what) = line.strip_prefix("# ") {
            all.push(Edit { what: what.to_string(), ..Edit::default() });
            continue;
        }
        let edit = all.last_mut().ok_or(format!("{written}: an edit begins with its `#` line"))?;
        let (field, said) = line.split_once(": ").unwrap_or((line.trim_end_matches(':'), ""));
        *match field {
            "file" => &mut edit.file,
            "by" => &mut edit.by,
            "old" => &mut edit.old,
            "new" => &mut edit.new,
            _ => return Err(format!("{written}: `{field}` is no field of an edit")),
        } = said.to_string();
    }
    let several = all.len() > 1;
    for (at, edit) in all.iter_mut().enumerate() {
        edit.name = if several { format!("{stem}-{}", at + 1) } else { stem.to_string() };
        edit.written = format!("{written}: {}", edit.what);
        if edit.file.is_empty() || edit.old.is_empty() {
            return Err(format!("{}: it has no `file:` or no `old:`", edit.written));
        }
    }
    Ok(all)
}

/// The files under a folder, in the order of their names.
pub fn files_under(folder: &Path) -> Result<Vec<PathBuf>, String> {
    let failed = |why| format!("{}: {why}", folder.display());
    let mut all = Vec::new();
    for entry in fs::read_dir(folder).map_err(failed)? {
        let path = entry.map_err(failed)?.path();
        if path.is_dir() {
            all.extend(files_under(&path)?);
        } else {
            all.push(path);
        }
    }
    all.sort();
    Ok(all)
}

/// The edits of a file, or of all files of a folder.
pub fn read(list: &Path) -> Result<Vec<Edit>, String> {
    let files = if list.is_dir() { files_under(list)? } else { vec![list.to_path_buf()] };
    let mut all = Vec::new();
    for file in files.iter().filter(|file| file.extension().is_some_and(|is| is == "edit")) {
        let (written, stem) = (file.display().to_string(), file.file_stem().unwrap_or_default().to_string_lossy());
        let text = fs::read_to_string(file).map_err(|why| format!("{written}: {why}"))?;
        all.extend(edits_in(&text, &written, &stem)?);
    }
    Ok(all)
}

impl Edit {
    /// A source with this fault.
    pub fn applied(&self, source: &str) -> Result<String, String> {
        let at = text::place(source, &self.old).map_err(|why| format!("{}: {why} in {}", self.written, self.file))?;
        Ok(replaced(source, at, &self.new))
    }

    /// A copy of a folder with this fault in one of its files.
    pub fn written_to(&self, from: &Path, to: &Path) -> Result<(), String> {
        for file in files_under(from)? {
            let place = to.join(file.strip_prefix(from).expect("it stands below"));
            let failed = |why| format!("{}: {why}", place.display());
            fs::create_dir_all(place.parent().expect("it is in a folder")).map_err(failed)?;
            fs::copy(&file, &place).map_err(failed)?;
        }
        let changed = to.join(&self.file);
        let failed = |why| format!("{}: {}: {why}", self.written, changed.display());
        let source = fs::read_to_string(&changed).map_err(failed)?;
        fs::write(&changed, self.applied(&source)?).map_err(failed)
    }
}

#[cfg(test)]
mod tests {
    use super::*;

    const LIST: &str = "# one\nfile: a.rs\nold: x\nnew: y\n\n# two\nfile: b.rs\nby: night\nold: z: z\nnew:\n";

    #[test]
    fn lists_are_read() {
        let all = edits_in(LIST, "some.edit", "some").expect("two edits");
        let told: Vec<_> = all.iter().map(|edit| [&edit.name, &edit.file, &edit.by, &edit.old, &edit.new]).collect();
        assert_eq!(told, [["some-1", "a.rs", "", "x", "y"], ["some-2", "b.rs", "night", "z: z", ""]]);
        assert!(edits_in("file: a.rs\n", "", "").is_err(), "no `#` line");
        assert!(edits_in("# one\nfile: a.rs\n", "", "").is_err(), "no old text");
        assert!(edits_in("# one\nfiel: a.rs\n", "", "").is_err(), "a wrong field");
    }

    #[test]
    fn an_old_text_stands_once() {
        let edit = |old: &str| Edit { old: old.to_string(), new: "c()".to_string(), ..Edit::default() };
        assert_eq!(edit("a(1, b)").applied("a(\n    1,\n    b,\n);").as_deref(), Ok("c();"));
        assert!(edit("a").applied("a + a").is_err(), "twice");
        assert!(edit("d").applied("a + a").is_err(), "not at all");
    }
}
