//! The parameter lists of the entries, held against each other: `signatures SOURCE HEADER HOST` compares what the header for C and the
//! first block of entries of a host in Rust declare with the source's own signatures, names too, and says each difference. `signatures
//! SOURCE HEADER` writes a program in C that takes each entry's address at the type that the source gives it, for a compiler to hold
//! against the header.

use std::collections::BTreeMap;
use std::process::exit;

/// What an entry returns, and its parameters, each a type of C and a name.
#[derive(PartialEq)]
struct Signature {
    returns: String,
    parameters: Vec<(String, String)>,
}

type Entries = BTreeMap<String, Signature>;

/// What C has in the place of no parameters.
const NONE: &str = "void";

impl Signature {
    /// As C declares a function or a pointer to one, by what stands for its name.
    fn declare(&self, name: &str, with_names: bool) -> String {
        let parameters: Vec<String> =
            self.parameters.iter().map(|(kind, name)| if with_names { format!("{kind} {name}") } else { kind.clone() }).collect();
        format!("{} {name}({})", self.returns, if parameters.is_empty() { NONE.to_string() } else { parameters.join(", ") })
    }
}

/// A number's type in C, by its name in Rattle and Rust.
fn number(kind: &str) -> &'static str {
    match kind {
        "u8" => "uint8_t",
        "u16" => "uint16_t",
        "u32" => "uint32_t",
        "u64" => "uint64_t",
        "usize" => "size_t",
        "bool" => "bool",
        _ => panic!("{kind} has no form in C here"),
    }
}

/// A parameter of the source: a run of bytes crosses as its address and its length.
fn source_parameter(kind: &str, name: &str) -> Vec<(String, String)> {
    let run = |address: &str| vec![(address.to_string(), name.to_string()), ("size_t".to_string(), format!("{name}_length"))];
    match kind {
        "&mut [u8]" => run("uint8_t *"),
        "&[u8]" => run("const uint8_t *"),
        _ => vec![(number(kind).to_string(), name.to_string())],
    }
}

/// A parameter of a host's.
fn host_parameter(kind: &str, name: &str) -> Vec<(String, String)> {
    let kind = match kind {
        "*mut u8" => "uint8_t *",
        "*const u8" => "const uint8_t *",
        _ => number(kind),
    };
    vec![(kind.to_string(), name.to_string())]
}

/// The functions of a text in Rattle or Rust that begin with these words.
fn functions(text: &str, begins: &str, parameter: fn(&str, &str) -> Vec<(String, String)>) -> Entries {
    let one = |text: &str| {
        let (name, rest) = text.split_once('(').expect("parameters");
        let (parameters, rest) = rest.split_once(')').expect("their end");
        let returns = rest.trim_start().strip_prefix("->").expect("a result").trim_start();
        let returns = number(returns.split(|letter: char| !letter.is_alphanumeric()).next().expect("a type")).to_string();
        let parameters = parameters.split(',').map(str::trim).filter(|parameter| !parameter.is_empty());
        let parameters = parameters.flat_map(|given| {
            let (name, kind) = given.split_once(':').expect("a name and a type");
            parameter(kind.trim(), name.trim())
        });
        (name.to_string(), Signature { returns, parameters: parameters.collect() })
    };
    text.split(begins).skip(1).map(one).collect()
}

/// A type and a name, as C has them one after the other.
fn typed(text: &str) -> (String, String) {
    let text = text.split_whitespace().collect::<Vec<_>>().join(" ");
    let at = text.rfind(|letter: char| !letter.is_alphanumeric() && letter != '_').map_or(0, |at| at + 1);
    (text[..at].trim().to_string(), text[at..].to_string())
}

/// The declarations of a header: what has parameters, once comments and lines for the preprocessor are gone.
fn header(text: &str) -> Entries {
    let mut parts = text.split("/*");
    let before = parts.next().unwrap_or("").to_string();
    let bare = parts.fold(before, |bare, part| bare + part.split_once("*/").expect("a comment's end").1).replace("\\\n", "");
    let lines: Vec<&str> = bare.lines().filter(|line| !line.trim_start().starts_with('#')).collect();
    let one = |declaration: &str| {
        let (before, parameters) = declaration.split_once('(')?;
        let (returns, name) = typed(before);
        let parameters = parameters.strip_suffix(')').expect("one pair of brackets").split(',').filter(|&one| one != NONE).map(typed);
        Some((name, Signature { returns, parameters: parameters.collect() }))
    };
    lines.join("\n").split(';').filter_map(one).collect()
}

/// Says where declared entries are not the source's.
fn differences(file: &str, source: &Entries, declared: &Entries) -> bool {
    let told = |entries: &Entries, name: &str| entries.get(name).map_or("nothing".to_string(), |one| one.declare(name, true));
    let mut names: Vec<&String> = source.keys().chain(declared.keys()).collect();
    names.sort();
    names.dedup();
    names.retain(|&name| source.get(name) != declared.get(name));
    for name in &names {
        eprintln!("{file} has {}, the source {}", told(declared, name), told(source, name));
    }
    !names.is_empty()
}

pub fn main(words: &[String]) {
    let words = &words[1..];
    let read = |name: &String| std::fs::read_to_string(name).unwrap_or_else(|why| panic!("{name}: {why}"));
    let source = functions(&read(&words[0]), "pub extern \"C\" fn ", source_parameter);
    assert!(!source.is_empty(), "the source has no entries");
    match &words[1..] {
        [in_c] => {
            println!("#include \"{in_c}\"");
            for (name, signature) in &source {
                println!("{} = {name};", signature.declare(&format!("(*const as_{name})"), false));
            }
        }
        [in_c, in_rust] => {
            let other_c = differences(in_c, &source, &header(&read(in_c)));
            let text = read(in_rust);
            let block = text.split_once("extern \"C\" {").and_then(|(_, rest)| rest.split_once('}')).expect("a block of entries").0;
            let other_rust = differences(in_rust, &source, &functions(block, "pub fn ", host_parameter));
            if other_c || other_rust {
                exit(1);
            }
            println!("signatures: {} entries, as the source has them in {in_c} and {in_rust}", source.len());
        }
        _ => panic!("usage: signatures SOURCE HEADER [HOST]"),
    }
}
