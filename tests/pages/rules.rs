//! The page of rules, held against what defines them: `rules PAGE`. Its table of numbers has the headers' words and the definitions'
//! numbers, its orders are those of the definitions, and so are the kinds and lengths of messages, the bits of the record, the order of
//! each instruction's conditions and the records of the examples.
use std::collections::{BTreeMap, BTreeSet};
use std::fs;
use std::process::exit;

/// How many facts of the page were held against what defines them, and how many differ.
struct Check {
    faults: usize,
    held: usize,
}

impl Check {
    fn same<T: PartialEq + std::fmt::Debug>(&mut self, what: &str, page: &T, defined: &T) {
        self.held += 1;
        if page != defined {
            eprintln!("rules: {what}: the page has {page:?}, defined is {defined:?}");
            self.faults += 1;
        }
    }
}

fn read(path: &str) -> String {
    fs::read_to_string(path).unwrap_or_else(|error| {
        eprintln!("rules: {path}: {error}");
        exit(1)
    })
}

/// The numbers of a list as it is written: `6, 5, 20 to 28`.
fn numbers(list: &str) -> Vec<u32> {
    let number = |word: &str| word.trim().parse::<u32>().unwrap_or(u32::MAX);
    let parts = list.split(',').filter(|part| !part.trim().is_empty());
    parts.flat_map(|part| part.split_once(" to ").map_or(number(part)..=number(part), |(from, to)| number(from)..=number(to))).collect()
}

/// The rows of the first table of a page's section, by cells, without its head.
fn table<'a>(page: &'a str, heading: &str, head: &str) -> Vec<Vec<&'a str>> {
    let section = page.split("\n#").find(|section| section.trim_start_matches(['#', ' ']).starts_with(heading)).unwrap_or_default();
    let lines = section.lines().skip_while(|line| !line.starts_with(&format!("| {head} |"))).skip(2);
    let rows = lines.take_while(|line| line.starts_with('|'));
    rows.map(|line| line.trim_matches('|').split('|').map(str::trim).collect()).collect()
}

fn column(rows: &[Vec<&str>], at: usize) -> Vec<u32> {
    rows.iter().flat_map(|row| numbers(row.get(at).unwrap_or(&""))).collect()
}

/// The text of a definition: from the line that begins with this to the next blank one.
fn definition<'a>(text: &'a str, begins: &str) -> &'a str {
    let at = text.find(&format!("\n{begins}")).unwrap_or_else(|| {
        eprintln!("rules: {begins} is not defined where it was");
        exit(1)
    });
    text[at + 1..].split("\n\n").next().unwrap_or_default()
}

/// The number that a definition of one line gives.
fn defined(text: &str, name: &str) -> u32 {
    definition(text, &format!("{name} = ")).lines().next().and_then(|line| line.rsplit(' ').next()?.parse().ok()).unwrap_or(u32::MAX)
}

/// The bytes that a definition reads, in its order: `from_little_endian 2 4 m`, `get_or m 6 0`, `take 40 (drop 10 m)`.
fn places(text: &str) -> Vec<String> {
    let words: Vec<_> = text.split([' ', '(', ')', ';', '\n']).filter(|word| !word.is_empty()).collect();
    let number = |at: usize| words.get(at).and_then(|word| word.parse::<u32>().ok());
    let range = |from: u32, many: u32| if many == 1 { from.to_string() } else { format!("{from}-{}", from + many - 1) };
    let read = words.iter().enumerate().filter_map(|(at, word)| match *word {
        "from_little_endian" => Some(range(number(at + 2)?, number(at + 1)?)),
        "get_or" | "slice_index" => Some(range(number(at + 2)?, 1)),
        "take" => Some(range(number(at + 3)?, number(at + 1)?)),
        _ => None,
    });
    read.collect()
}

/// The definition that begins so, in whichever crate's specs/ it stands.
fn found(begins: &str) -> String {
    let folders = fs::read_dir("crates").into_iter().flatten().flatten().filter_map(|krate| fs::read_dir(krate.path().join("specs")).ok());
    let mut texts = folders.flatten().flatten().filter_map(|file| fs::read_to_string(file.path()).ok());
    texts.find(|text| text.contains(&format!("\n{begins}"))).map_or_else(String::new, |text| definition(&text, begins).to_string())
}

/// The numbers of the table by their cases: `number_of (BadField p) = 4`, `reason_number Gap = 21`.
fn cases(answers: &str) -> BTreeMap<&str, u32> {
    let of = |line: &&str| line.starts_with("number_of ") || line.starts_with("reason_number ");
    let lines = answers.lines().filter(of).filter_map(|line| line.split_once(' ')?.1.rsplit_once(" = "));
    lines.filter_map(|(case, number)| Some((case.trim_start_matches('(').split([' ', ')']).next()?, number.parse().ok()?))).collect()
}

/// The order in which a call's table of rejections has its numbers.
fn order(rejections: &str, call: &str, cases: &BTreeMap<&str, u32>) -> Vec<u32> {
    let reasons = definition(rejections, "reasons = ");
    let body = definition(rejections, &format!("{call}_table s"));
    let mut found = Vec::new();
    for line in body.lines().skip(1).map(|line| line.trim().trim_start_matches("∷ ")).filter(|line| !line.starts_with("--")) {
        if line.contains(" reasons") {
            found.extend(reasons.split([' ', '\n']).filter_map(|word| cases.get(word)));
        } else {
            found.extend(line.split(' ').find_map(|word| cases.get(word)));
        }
    }
    found
}

/// The numbers of the headers' tables with their words; a number keeps those of the first header that has it.
fn words() -> BTreeMap<u32, String> {
    let mut found = BTreeMap::new();
    for (header, first) in [
        ("station", "STATION_TAKEN"),
        ("desk", "DESK_ZERO_NUMBER"),
        ("plan", "PLAN_ACCEPTED"),
        ("report", "REPORT_TAKEN"),
        ("drawing", "DRAWING_TAKEN"),
    ] {
        let text = read(&format!("include/{header}.h"));
        let Some(at) = text.find(&format!("    {first} = ")) else {
            eprintln!("rules: include/{header}.h has no table that begins with {first}");
            exit(1)
        };
        for line in text[at..].lines().take_while(|line| !line.starts_with("};")) {
            let Some((value, comment)) = line.split_once(" = ").and_then(|(_, rest)| rest.split_once("/* ")) else { continue };
            if let Ok(number) = value.trim().trim_end_matches(',').parse() {
                found.entry(number).or_insert_with(|| comment.trim_end_matches(" */").to_string());
            }
        }
    }
    found
}

/// A record as a number, from its bytes in hexadecimal, the lowest first.
fn record(bytes: &str) -> Option<u64> {
    let bytes: Option<Vec<u8>> = bytes.split(' ').map(|byte| u8::from_str_radix(byte, 16).ok()).collect();
    Some(u64::from_le_bytes(bytes?.try_into().ok()?))
}

fn main() {
    let path = std::env::args().nth(1).unwrap_or_default();
    let page = read(&path);
    let answers = read("crates/answers/specs/Answers.antt");
    let rejections = read("crates/station_laws/specs/Rejections.antt");
    let rules = read("crates/rules/specs/Rules.antt");
    let floor = read("crates/floor/specs/Floor.antt");
    let kinds = read("crates/wire/specs/Kinds.antt");
    let examples = read("crates/examples/specs/Table.antt");
    let cases = cases(&answers);
    let mut check = Check { faults: 0, held: 0 };

    // the orders of the calls, and the table of each call's conditions
    let orders = table(&page, "The order of rejections", "call");
    let calls = ["request", "event", "result", "image", "ask"];
    check.same("calls", &orders.iter().map(|row| row[0]).collect::<Vec<_>>(), &calls.to_vec());
    let defined_orders: Vec<_> = calls.iter().map(|call| order(&rejections, call, &cases)).collect();
    for ((call, row), defined) in calls.iter().zip(&orders).zip(&defined_orders) {
        check.same(&format!("order of {call}"), &numbers(row[1]), defined);
    }
    let tests = [
        ("Sets and results", "the request", 0),
        ("Drives", "the event", 1),
        ("Sets and results", "the result", 2),
        ("Images", "the image", 3),
    ];
    for (section, who, call) in tests {
        let rows = table(&page, section, &format!("order | {who} is accepted when"));
        check.same(&format!("when {who} is accepted"), &column(&rows, 2), &defined_orders[call][1..].to_vec());
    }

    // the table of numbers: each of 0 to 41 once; in force with the headers' words, and from the calls whose orders have it
    let rows = table(&page, "The numbers", "no.");
    check.same("numbers", &column(&rows, 0), &(0..=41).collect());
    let words = words();
    for row in &rows {
        let number = numbers(row[0])[0];
        let from: Vec<_> = row[1].split(", ").filter(|word| calls.contains(word)).collect();
        let given: Vec<_> = calls.iter().zip(&defined_orders).filter(|(_, order)| order.contains(&number)).map(|(call, _)| *call).collect();
        check.same(&format!("calls that return {number}"), &from, &given);
        let out = row[1] == "retired" || row[1] == "unused";
        check.same(&format!("{number} in force"), &!out, &words.contains_key(&number));
        if let Some(said) = words.get(&number) {
            check.same(&format!("when {number}"), &row[2], &said.as_str());
        }
    }
    let in_force: BTreeSet<_> = words.keys().copied().filter(|number| *number < 34).collect();
    check.same("numbers of the definitions", &cases.values().copied().collect(), &in_force);
    let history = table(&page, "The numbers", "request");
    let retired = column(&history, 2);
    let out: Vec<_> = rows.iter().filter(|row| row[1] == "retired").flat_map(|row| numbers(row[0])).collect();
    check.same("retired numbers", &retired, &out);
    let all = (0..=17).chain(column(&history, 1)).filter(|number| !retired.contains(number)).collect::<BTreeSet<_>>();
    check.same("added numbers", &all, &words.keys().copied().collect());

    // each instruction's conditions, by the numbers of their reasons
    for (section, case) in
        [("Move belts", "Belts"), ("Move shuttles", "Shuttles"), ("Tilt", "Tilt"), ("Move lift", "Lift"), ("Rotate", "Rotate")]
    {
        let begins = if case == "Rotate" { "clauses Rotate".to_string() } else { format!("clauses ({case} ") };
        let body = definition(&rules, &begins).split("\n    ∷ []").next().unwrap_or_default();
        let reasons: Vec<_> = body.split(" else ").skip(1).flat_map(|rest| rest.lines().next().unwrap_or_default().split(' ')).collect();
        let defined: Vec<_> = reasons.iter().filter_map(|word| cases.get(word).copied()).collect();
        let rows = table(&page, section, if case == "Tilt" { "order | condition, if the shuttle is lowered" } else { "order | condition" });
        let mut said: Vec<_> =
            rows.iter().flat_map(|row| row[2..].iter().flat_map(|cell| numbers(cell))).filter(|number| *number <= 41).collect();
        said.dedup();
        check.same(&format!("conditions of {section}"), &said, &defined);
    }

    // kinds and lengths; a request's length goes by its count
    let rows = table(&page, "Messages", "kind");
    let sized = |name: &str| {
        let text = definition(&kinds, &format!("{name}_kind = record"));
        let field = |name: &str| text.split(&format!("{name} = ")).nth(1)?.split(';').next()?.parse::<u32>().ok();
        [field("number").unwrap_or(u32::MAX), 2 + field("size").unwrap_or(u32::MAX - 2)]
    };
    let defined_kinds: Vec<_> = ["event", "result", "image", "ask", "answer", "held"].map(sized).to_vec();
    let said: Vec<_> = rows.iter().skip(1).map(|row| [numbers(row[0])[0], numbers(row[2])[0]]).collect();
    check.same("kinds and lengths", &said, &defined_kinds);
    check.same("kind of a request", &numbers(rows.first().map_or("", |row| row[0])), &vec![defined(&kinds, "request_kind")]);

    // every byte of a message, of a lent station and of a plan's head
    let mut bytes = vec!["0-1", "2-3", "4", "5 on"].into_iter().map(String::from).collect::<Vec<_>>();
    for kind in ["event", "result", "image", "answer", "held"] {
        bytes.extend(places(definition(&kinds, &format!("{kind}_kind = record"))));
    }
    let column_of = |rows: &[Vec<&str>], at: usize| rows.iter().map(|row| row[at].to_string()).collect::<Vec<_>>();
    check.same("bytes of messages", &column_of(&table(&page, "Messages", "kind | bytes"), 1), &bytes);
    check.same("bytes of a station", &column_of(&table(&page, "A fit station", "bytes"), 0), &places(&found("station_of m =")));
    let plans = read("crates/plan/specs/Plans.antt");
    let mut head = places(definition(&plans, "plan_in s ="));
    head.push(format!("{} on", defined(&plans, "head")));
    check.same("bytes of a plan", &column_of(&table(&page, "Plans", "bytes"), 0), &head);

    // opcodes, events and the reader's kinds
    let codes = read("crates/rules/specs/Codes.antt");
    let after = |word: &str, line: &str| line.split(word).nth(1).and_then(|rest| rest.split(';').next()?.trim().parse::<u32>().ok());
    let ops: Vec<_> = codes.lines().filter(|line| line.starts_with("code_of ")).filter_map(|line| after("op = ", line)).collect();
    check.same("opcodes", &column(&table(&page, "The five instructions", "instruction"), 1), &ops);
    let events: Vec<_> = codes.lines().filter(|line| line.starts_with("event_code ")).filter_map(|line| after(" = ", line)).collect();
    check.same("events", &column(&table(&page, "Drives", "event"), 1), &events);

    // the record's bits
    let bits: Vec<_> = table(&page, "The record", "bits").iter().map(|row| row[0].to_string()).collect();
    let of = |name: &str| defined(&floor, name);
    let spare = definition(&floor, "spare = from ").rsplit("from ").next().and_then(|rest| rest.split_once(' ')).map(|(from, many)| {
        let (from, many) = (from.parse().unwrap_or(u32::MAX), many.trim().parse::<u32>().unwrap_or(1));
        format!("{from}-{}", from + many - 1)
    });
    let low = of("height_low");
    let mut expected: Vec<String> = ["0-39", "40-42", "43-45", "46-48", "49-51"].map(String::from).to_vec();
    expected.extend([
        of("raised_car").to_string(),
        format!("{low}-{}", of("height_high")),
        of("drive_in").to_string(),
        of("drive_out").to_string(),
    ]);
    expected.extend(spare);
    check.same("bits of the record", &bits, &expected);
    let slot = definition(&floor, "slot side orientation row = ");
    check.same("slots", &slot, &"slot side orientation row = 39 + orientation * 6 + side * 3 + row");

    // every record of the examples' table is one of the proved table's
    let rows = table(&page, "Examples", "no.");
    let shown: Vec<_> = rows.iter().flatten().flat_map(|cell| cell.split('`').skip(1).step_by(2)).filter_map(record).collect();
    check.same("examples with records", &(shown.len() >= 12), &true);
    for image in shown {
        let written = format!("0x{image:016X}");
        check.same("record of an example", &examples.contains(&written).then_some(&written), &Some(&written));
    }
    println!("rules: {} facts of {path} held against definitions and headers, {} faults", check.held, check.faults);
    exit(i32::from(check.faults > 0))
}
