//! The page of contracts: every public function with its contract and the wrong programs that were tried against it, taken from the
//! sources and the must-fail edits. `contracts write PAGE` renews the page's list; `contracts check PAGE` fails if the page differs,
//! if a contract leaves an answer open, if a function has fewer than two wrong programs, if an archive does not promise what its library
//! does, or if the prover's log of an edit refuses no goal or law for its own fault (docs/CONTRACTS.md says when that is so).
//! `contracts check PAGE CRATE..` reads the logs of these crates alone.
use std::fs;
use std::path::{Path, PathBuf};
use std::process::exit;

/// A function as its source declares it, in the file and on the line where it begins.
struct Function {
    path: String,
    public: bool,
    header: String,
    file: String,
    line: usize,
}

impl Function {
    /// Its name without the module that it stands in.
    fn name(&self) -> &str {
        self.path.rsplit("::").next().unwrap_or_default()
    }
}

/// A wrong version: the edit that makes it, the function or law that it is a wrong version of, the one whose proof must be refused (the
/// same, or a private part of the function), whether that is a law, and how.
struct Wrong {
    edit: String,
    name: String,
    spoiled: String,
    law: bool,
    how: String,
}

const START: &str = "<!-- the list: written by `tests/pages/run write` -->\n";

fn read(path: &Path) -> String {
    fs::read_to_string(path).unwrap_or_else(|error| {
        eprintln!("{}: {error}", path.display());
        exit(1)
    })
}

fn files(folder: &Path, ending: &str) -> Vec<PathBuf> {
    let entries = fs::read_dir(folder).into_iter().flatten().flatten().map(|entry| entry.path());
    let mut found: Vec<_> = entries.filter(|path| path.to_string_lossy().ends_with(ending)).collect();
    found.sort();
    found
}

fn name_of(path: &Path) -> String {
    path.file_stem().unwrap_or_default().to_string_lossy().into_owned()
}

/// The functions of a crate; public ones are those of a library's lib.rt and of its public modules, and a type's wherever they stand. A
/// type's functions are named by the type, without the module.
fn functions(krate: &Path) -> Vec<Function> {
    let lib = fs::read_to_string(krate.join("src/lib.rt")).unwrap_or_default();
    let mut found = Vec::new();
    for file in files(&krate.join("src"), ".rt") {
        let module = name_of(&file);
        let root = ["lib", "main"].contains(&module.as_str());
        let inside = if root { String::new() } else { format!("{module}::") };
        let open = root || lib.contains(&format!("pub mod {module};"));
        let (source, mut of) = (read(&file), String::new());
        let mut lines = source.lines().enumerate();
        while let Some((number, line)) = lines.next() {
            if let Some(name) = line.strip_prefix("impl ") {
                of = format!("{}::", name.trim_end_matches(" {"));
            } else if line == "}" {
                of.clear();
            }
            let words = line.trim_start();
            let public = words.starts_with("pub ");
            let Some((_, rest)) = words.strip_prefix("fn ").map(|rest| ("", rest)).or(words.split_once(" fn ")) else { continue };
            if words.starts_with("//") || !line.contains('(') {
                continue;
            }
            let mut header = words.trim_end_matches(" {").to_string();
            if header == words {
                for (_, line) in lines.by_ref() {
                    let line = line.trim();
                    if line == "{" {
                        break;
                    }
                    header.push('\n');
                    header.push_str(line.trim_end_matches(" {"));
                    // a header of several lines with no clause
                    if line.starts_with(')') && line.ends_with(" {") {
                        break;
                    }
                }
            }
            let name = rest.split(['(', '<']).next().unwrap_or_default();
            let within = if of.is_empty() { &inside } else { &of };
            let file = format!("src/{module}.rt");
            found.push(Function {
                path: format!("{within}{name}"),
                public: public && (open || !of.is_empty()),
                header,
                file,
                line: number + 1,
            });
        }
    }
    found
}

/// The one promise of a contract: what stands between its braces.
fn promise(header: &str) -> Option<String> {
    let clauses = header.split("\nensures").skip(1).map(|clause| clause.split("\nrequires").next().unwrap_or_default());
    let said: Vec<_> =
        clauses.filter_map(|clause| Some(clause.split_once('{')?.1.trim().strip_suffix('}')?.trim().replace('\n', " "))).collect();
    (said.len() == 1).then(|| said.concat())
}

/// Whether a crate reads or writes what is outside, or is handed words: what comes from there no contract can say.
fn reaches_out(krate: &Path) -> bool {
    let out = |source: String| ["HostRuntime", "std::io", "std::fs"].iter().any(|name| source.contains(name));
    files(&krate.join("src"), ".rt").iter().any(|file| out(read(file)))
}

/// Why a contract may let two answers through, if it may: it must be one equation for the answer, or one of the forms that are an
/// equation for the answer and one for each room that is lent to be written. What comes from outside no equation can say, so there only a
/// precondition is a fault.
fn open_contract(header: &str, from_outside: bool) -> Option<&'static str> {
    if header.lines().any(|line| line.starts_with("requires")) {
        return Some("it has a precondition");
    }
    if from_outside {
        return None;
    }
    let Some(says) = promise(header) else { return Some("it is not one promise") };
    let taken = header.split("\nensures").next().unwrap_or_default();
    let lent = taken.split(['(', ',', ')']).filter(|part| part.contains(": &mut "));
    let rooms: Vec<_> = lent.filter_map(|part| part.split(':').next()).map(|name| format!("{}.new", name.trim())).collect();
    let ending = format!(" result {}", rooms.join(" "));
    let definition = if rooms.is_empty() {
        says.strip_prefix("result ≡ ")
    } else {
        let form = [
            "Copied ",
            "Serves ",
            "Exchanges ",
            "Holds ",
            "Turns ",
            "Counts ",
            "Replays ",
            "LeavesCounts ",
            "LeavesDrawing ",
            "DeskServes ",
            "LeavesMessage ",
            "LeavesReply ",
            "LeavesRoom ",
            "LeavesStep ",
            "LeavesTotals ",
        ]
        .iter()
        .find_map(|form| says.strip_prefix(form));
        form.and_then(|says| says.strip_suffix(&ending))
    };
    let Some(definition) = definition else { return Some("it is no equation for the answer and each lent room") };
    let mut words = definition.split(|c: char| c.is_whitespace() || "()".contains(c));
    words.any(|word| word == "result" || word.ends_with(".new")).then_some("what it equates the answer with speaks of the answer")
}

/// The functions that an archive and the library behind it do not have alike, with the same parameters and the same clauses: an archive hands
/// on all that the library promises, and nothing else, so that the wrong programs that are tried against the library speak of it too.
fn not_handed_on(archive: &[Function], library: &[Function]) -> Vec<String> {
    let entry = |function: &Function| Some((function.name().to_string(), function.header.split_once("fn ")?.1.to_string()));
    let entries = |of: &[Function]| of.iter().filter(|one| one.public).filter_map(entry).collect::<Vec<_>>();
    let (left, right) = (entries(archive), entries(library));
    let unlike = |one: &[(String, String)], other: &[(String, String)]| {
        one.iter().filter(|it| !other.contains(it)).map(|it| it.0.clone()).collect::<Vec<_>>()
    };
    let mut found = [unlike(&left, &right), unlike(&right, &left)].concat();
    found.sort();
    found.dedup();
    found
}

/// The laws of a crate: what the files of `proofs/` declare, but for the functions' own.
fn laws(krate: &Path) -> Vec<String> {
    let mut found = Vec::new();
    for file in files(&krate.join("proofs"), ".antt") {
        let source = read(&file);
        let declared =
            source.lines().filter_map(|line| line.trim_start().split_once(" : ").map(|parts| parts.0).or(line.strip_suffix(" :")));
        found.extend(declared.map(|name| name.trim_start().trim_start_matches("pub ").to_string()));
    }
    found
}

/// What a line of an edit says before a replacement: `# FUNCTION: how`, `# LAW: how`, or `# FUNCTION by PART: how`.
fn named(line: &str) -> Option<(&str, &str, &str)> {
    let (names, how) = line.strip_prefix("# ")?.split_once(": ")?;
    let (name, spoiled) = names.split_once(" by ").unwrap_or((names, names));
    (!name.contains(' ') && !spoiled.contains(' ')).then_some((name, spoiled, how))
}

/// The wrong versions of a crate that are named.
fn wrongs(krate: &Path, known: &[Function]) -> Vec<Wrong> {
    let (laws, mut found) = (laws(krate), Vec::new());
    let function = |name: &str| known.iter().any(|one| one.path == name);
    for file in files(&krate.join("must-fail"), ".edit") {
        for line in read(&file).lines() {
            let Some((name, spoiled, how)) = named(line) else { continue };
            let law = !function(name);
            if function(name) && function(spoiled) || laws.iter().any(|one| one == name) {
                found.push(Wrong { edit: name_of(&file), name: name.into(), spoiled: spoiled.into(), law, how: how.into() });
            }
        }
    }
    found
}

/// A wrong program on the page.
fn told(krate: &str, how: &str, edit: &str) -> String {
    format!("{how} ([{edit}](../crates/{krate}/must-fail/{edit}.edit))")
}

/// An error that says no more than that a proof's text no longer fits the code, or that another proof is missing.
fn misfit(error: &str) -> bool {
    [
        "was not admitted",
        "no occurrence of",
        "no part of the goal",
        "that can be named from here",
        "has no field",
        "is not in scope",
        "a bound of its own",
    ]
    .iter()
    .any(|words| error.contains(words))
}

/// The declaration that an error is of: the first word of it, between backquotes.
fn declaration(words: &str) -> &str {
    words.strip_prefix('`').and_then(|words| words.split('`').next()).unwrap_or_default()
}

/// The errors of a log, each as the file that it stands in and its words, which may go on in the next line.
fn errors(log: &str) -> Vec<(String, String)> {
    let mut found = Vec::new();
    let mut lines = log.lines().peekable();
    while let Some(line) = lines.next() {
        let Some((place, words)) = line.split_once(": error: ") else { continue };
        // (what begins with other words is said again later)
        let file = place.strip_prefix("./").unwrap_or(place);
        if place.contains(' ') {
            continue;
        }
        let more = lines.next_if(|line| line.starts_with("  ")).unwrap_or_default();
        found.push((file.split(':').next().unwrap_or_default().into(), format!("{words}{more}")));
    }
    found
}

fn main() {
    let words: Vec<_> = std::env::args().collect();
    let (Some("check" | "write"), Some(page)) = (words.get(1).map(String::as_str), words.get(2)) else {
        eprintln!("contracts write PAGE, or contracts check PAGE [CRATE..]");
        exit(2)
    };
    let looked_at = |name: &str| words.len() == 3 || words[3..].iter().any(|one| one == name);
    let (mut list, mut faults, mut publics, mut tried) = (String::new(), Vec::new(), 0, 0);
    for krate in files(Path::new("crates"), "") {
        let (name, known) = (name_of(&krate), functions(&krate));
        if let Some(of) = name.strip_suffix("_archive") {
            let handed = functions(&krate.with_file_name(format!("{of}_c")));
            faults.extend(
                not_handed_on(&known, &handed).iter().map(|path| format!("{name}::{path}: it does not promise what {of}_c promises")),
            );
            continue;
        }
        let from_outside = reaches_out(&krate);
        let wrongs = wrongs(&krate, &known);
        tried += wrongs.len();
        let public: Vec<_> = known.iter().filter(|function| function.public).collect();
        let public_none = public.is_empty();
        if !public_none {
            list += &format!("\n## `{name}`\n\n| function | contract | wrong programs that it shuts out |\n|---|---|---|\n");
        }
        publics += public.len();
        for function in public {
            let path = &function.path;
            if let Some(why) = open_contract(&function.header, from_outside) {
                faults.push(format!("{name}::{path}: {why}"));
            }
            let contract = promise(&function.header).unwrap_or_default();
            let shut: Vec<_> = wrongs.iter().filter(|wrong| wrong.name == *path).collect();
            let promises_nothing = from_outside && contract.is_empty();
            if shut.len() < 2 && !promises_nothing {
                faults.push(format!("{name}::{path}: {} wrong programs tried", shut.len()));
            }
            let shut: Vec<_> = shut.iter().map(|wrong| told(&name, &wrong.how, &wrong.edit)).collect();
            let contract = if promises_nothing { "that it ends".into() } else { format!("`{}`", contract.replace('|', "\\|")) };
            list += &format!("| `{path}` | {contract} | {} |\n", shut.join("; "));
        }
        let edits = files(&krate.join("must-fail"), ".edit");
        if public_none && !edits.is_empty() {
            list += &format!("\n## `{name}`\n");
        }
        let private = |wrong: &&Wrong| known.iter().any(|one| one.path == wrong.name && !one.public);
        let listed = |wrong: &Wrong| format!("`{}`: {}", wrong.name, told(&name, &wrong.how, &wrong.edit));
        let parts: Vec<_> = wrongs.iter().filter(private).map(listed).collect();
        if !parts.is_empty() {
            list += &format!("\nOf its parts: {}.\n", parts.join("; "));
        }
        let shut: Vec<_> = wrongs.iter().filter(|wrong| wrong.law).map(listed).collect();
        if !shut.is_empty() {
            list += &format!("\nBy its laws: {}.\n", shut.join("; "));
        }
        let whole: Vec<_> = edits.iter().filter(|file| !wrongs.iter().any(|wrong| wrong.edit == name_of(file))).collect();
        if !whole.is_empty() {
            let how = |file: &Path| read(file).lines().next().unwrap_or_default().trim_start_matches("# ").to_string();
            let shut: Vec<_> = whole.iter().map(|file| told(&name, &how(file), &name_of(file))).collect();
            list += &format!("\nAs a whole: {}.\n", shut.join("; "));
            tried += whole.iter().map(|file| how(file).split("; ").count()).sum::<usize>();
        }
        for file in edits.iter().filter(|_| words[1] == "check" && looked_at(&name)) {
            let edit = name_of(file);
            let Ok(log) = fs::read_to_string(format!("target/must-fail/{name}/{edit}.log")) else {
                faults.push(format!("{name}/{edit}: not tried"));
                continue;
            };
            let errors = errors(&log);
            // goals that the prover shows false at some values, or that it closes by itself in the right program, or that only the wrong one has,
            // each in the function that has the line
            let open_goals: Vec<(&str, &str)> = log
                .lines()
                .filter_map(|line| {
                    let (place, says) = line.strip_prefix("note: src/")?.split_once(": ")?;
                    let goal = says.split_once("(`")?.1.split('`').next()?;
                    let (file, line) = place.rsplit_once(':')?.0.rsplit_once(':')?;
                    let line: usize = line.parse().ok()?;
                    let here = known.iter().filter(|one| one.file[4..] == *file && one.line <= line);
                    let function = here.max_by_key(|one| one.line)?.path.as_str();
                    let kind = goal.split('-').next().unwrap_or_default();
                    let answers: String =
                        files(&krate.join("proofs").join(function.replace("::", "/")), ".antt").iter().map(|file| read(file)).collect();
                    let answered =
                        |words: &str| answers.lines().any(|line| line.strip_prefix("pub ").is_some_and(|name| name.starts_with(words)));
                    let renamed = errors.iter().any(|(file, words)| {
                        file.starts_with(&format!("proofs/{}/", function.replace("::", "/")))
                            && words.contains("that can be named from here")
                    });
                    let false_there = says.contains("; the facts known there allow values at which this goal is false");
                    // a place beside those that are answered, all of which are still there, is one that the right program doesn't have
                    let of_its_own = !renamed && !answered(&format!("{goal} "));
                    (!answered(kind) || false_there || of_its_own).then_some((function, goal))
                })
                .collect();
            let own: Vec<_> = wrongs.iter().filter(|wrong| wrong.edit == edit).collect();
            if own.is_empty() && errors.first().is_none_or(|(_, words)| misfit(words)) {
                faults.push(format!("{name}/{edit}: its log's first error refuses nothing for its own fault"));
            }
            for line in read(file).lines().filter(|_| !own.is_empty()) {
                let Some((named, spoiled, _)) = named(line) else { continue };
                if own.iter().all(|wrong| wrong.name != named || wrong.spoiled != spoiled) {
                    faults.push(format!("{name}/{edit}: {named} is no function and no law, or {spoiled} no part"));
                }
            }
            // several wrong versions of one function, or by one part of it, are each refused at a declaration of its proof of their own
            let mut spoiled: Vec<_> = own.iter().map(|wrong| (&wrong.spoiled, wrong.law)).collect();
            spoiled.sort();
            spoiled.dedup();
            for (what, of_law) in spoiled {
                let proof = format!("proofs/{}/", what.replace("::", "/"));
                let by_itself = format!("fn {name}::{what}: no proof: ");
                // the places of a function whose goals no answer is given for, and which the prover does not close by itself
                let searched = log.lines().filter_map(|line| line.strip_prefix(&by_itself)?.split_once("`search` did not prove "));
                let open = searched.flat_map(|(_, goals)| goals.split(';').next().unwrap_or_default().split('`').skip(1).step_by(2));
                let refuses = |file: &str, words: &str| {
                    if of_law {
                        file.starts_with("proofs/") && !file["proofs/".len()..].contains('/') && declaration(words) == *what
                    } else {
                        file.strip_prefix(&proof).is_some_and(|file| !file.contains('/'))
                    }
                };
                let shown = open_goals.iter().filter(|(path, _)| path == what).map(|(_, goal)| *goal);
                let mut at: Vec<_> = errors
                    .iter()
                    .filter(|(file, words)| refuses(file, words) && !misfit(words))
                    .map(|(_, words)| declaration(words))
                    .chain(open)
                    .chain(shown)
                    .collect();
                at.sort_unstable();
                at.dedup();
                let versions = own.iter().filter(|wrong| wrong.spoiled == *what).count();
                if at.len() < versions {
                    faults.push(format!(
                        "{name}/{edit}: of {what} {versions} wrong versions are named, and it is refused for its own fault at {} places",
                        at.len()
                    ));
                }
            }
        }
    }
    let text = read(Path::new(page));
    let Some((head, old)) = text.split_once(START) else {
        eprintln!("{page}: no list");
        exit(1)
    };
    if words[1] == "write" {
        fs::write(page, format!("{head}{START}{list}")).unwrap_or_else(|error| eprintln!("{page}: {error}"));
    } else if old != list {
        faults.push(format!("{page} is not what the sources say: tests/pages/run write"));
    }
    faults.iter().for_each(|fault| eprintln!("contracts: {fault}"));
    println!("contracts: {publics} public functions, {tried} wrong programs and definitions, {} faults", faults.len());
    exit(i32::from(!faults.is_empty()))
}
