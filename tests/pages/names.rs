//! Every name on the given pages is there: the file that a link names exists, so does the heading that it names in a page, and what is marked
//! as a name in the link's text is defined in that file. A theorem that is linked in proofs/ and proves a statement that has a name must prove one that its own line of
//! the page names.
use std::collections::HashSet;
use std::fs;
use std::path::Path;
use std::process::exit;

/// The parts of a line between two marks.
fn between(text: &str, mark: char) -> impl Iterator<Item = &str> {
    text.split(mark).skip(1).step_by(2)
}

/// Whether a page has a heading that a link to it names: in small letters, with - for a blank, and without signs.
fn has_heading(page: &str, anchor: &str) -> bool {
    let mut code = false;
    page.lines().any(|line| {
        code ^= line.starts_with("```");
        let words = line.trim_start_matches('#').trim().to_lowercase();
        let kept = words.chars().filter(|c| c.is_alphanumeric() || "-_ ".contains(*c)).map(|c| if c == ' ' { '-' } else { c });
        !code && line.starts_with('#') && kept.eq(anchor.chars())
    })
}

/// The links of a line: text and target, web addresses left out.
fn links(line: &str) -> Vec<(&str, &str)> {
    let mut found = Vec::new();
    for (at, _) in line.match_indices("](") {
        let text = line[..at].rsplit_once('[').map_or("", |(_, text)| text);
        let target = line[at + 2..].split(')').next().unwrap_or_default();
        if !target.contains("://") {
            found.push((text, target));
        }
    }
    found
}

/// What a line of a proof's or specification's file declares, and of which type.
fn declared(line: &str) -> Option<(&str, &str)> {
    let line = line.trim_start().trim_start_matches("pub ").trim_start_matches("abbrev ").trim_start_matches("unfoldable ");
    let line = line.trim_start_matches("pub ");
    if let Some(rest) = line.strip_prefix("record ").or(line.strip_prefix("data ")) {
        return Some((rest.split_whitespace().next()?, ""));
    }
    let (name, kind) = line.split_once(" : ")?;
    (!name.contains(' ')).then_some((name, kind))
}

/// Whether a file defines a name; a theorem whose statement has a name must prove one of those named beside it.
fn defines(file: &str, text: &str, name: &str, beside: &HashSet<&str>) -> bool {
    let base = name.rsplit("::").next().unwrap_or(name);
    if file.ends_with(".antt") {
        let proof = file.contains("/proofs/");
        let stated = |kind: &str| !proof || kind.contains(' ') || beside.contains(kind);
        return text.lines().filter_map(declared).any(|(found, kind)| found == name && stated(kind.trim()));
    }
    if file.ends_with(".rt") {
        return ["fn ", "const ", "enum ", "struct ", "mod "].iter().any(|word| {
            let found = format!("{word}{base}");
            text.lines().any(|line| {
                line.find(&found).is_some_and(|at| !line[at + found.len()..].starts_with(|c: char| c.is_alphanumeric() || c == '_'))
            })
        });
    }
    text.contains(name)
}

fn main() {
    let (mut names, mut faults) = (0, 0);
    for page in std::env::args().skip(1) {
        let Ok(text) = fs::read_to_string(&page) else {
            eprintln!("names: {page} is not there");
            exit(1)
        };
        let folder = Path::new(&page).parent().unwrap_or(Path::new(""));
        for (number, line) in text.lines().enumerate() {
            let mut fault = |what: String| {
                eprintln!("names: {page}:{}: {what}", number + 1);
                faults += 1;
            };
            let beside: HashSet<_> = between(line, '`').collect();
            for (text, target) in links(line) {
                let (file, anchor) = target.split_once('#').unwrap_or((target, ""));
                let path = if file.is_empty() { Path::new(&page).to_path_buf() } else { folder.join(file) };
                let file = path.to_string_lossy();
                if !path.exists() {
                    fault(format!("{target} is not there"));
                    continue;
                }
                let content = fs::read_to_string(&path).unwrap_or_default();
                if file.ends_with(".md") && !anchor.is_empty() && !has_heading(&content, anchor) {
                    fault(format!("{target} has no such heading"));
                }
                for name in between(text, '`').filter(|name| !name.contains('/')) {
                    names += 1;
                    if path.is_file() && !defines(&file, &content, name, &beside) {
                        fault(format!("{target} does not have `{name}`"));
                    }
                }
            }
        }
    }
    println!("names: {names} names of the pages found where the pages say, {faults} faults");
    exit(i32::from(faults > 0))
}
