//! All wrong versions of some sources at once: the function around an edit's place gets a body for each of its faults beside the right
//! one, and `crate::fault::chosen()` says at run time which of them runs. So all of them together compile in about the time of two.

use crate::{text, Edit};
use std::ops::Range;

/// An edit and its number, from 1 on: 0 is no fault.
pub type Fault<'a> = (usize, &'a Edit);

/// Whether a line begins a function, and by how much it is indented.
fn begins(line: &str) -> Option<&str> {
    let code = line.trim_start();
    let mut words = code.split(' ').skip_while(|word| matches!(*word, "pub" | "pub(crate)" | "const" | "unsafe" | "extern" | "\"C\""));
    (words.next() == Some("fn")).then(|| &line[..line.len() - code.len()])
}

/// The first brace behind a place that is in no bracket.
fn first_brace(source: &str, from: usize) -> usize {
    let mut depth = 0;
    let found = source[from..].char_indices().find(|(_, letter)| {
        depth += match letter {
            '(' | '[' => 1,
            ')' | ']' => -1,
            _ => 0,
        };
        depth == 0 && *letter == '{'
    });
    found.map_or(source.len(), |(at, _)| from + at)
}

/// The bodies of a source's functions, those within others left out. A body ends in the line of its `fn`, or with a brace that stands
/// below the `fn`.
fn bodies(source: &str) -> Vec<Range<usize>> {
    let (mut all, mut at, mut lines) = (Vec::new(), 0, source.split_inclusive('\n'));
    while let Some(line) = lines.next() {
        let begun = at;
        at += line.len();
        let Some(indent) = begins(line) else { continue };
        let mut end = begun + line.trim_end().len();
        if !line.trim_end().ends_with('}') {
            for line in lines.by_ref() {
                at += line.len();
                end = at - line.len() + line.trim_end().len();
                if line.trim_end() == format!("{indent}}}") {
                    break;
                }
            }
        }
        all.push(first_brace(source, begun)..end);
    }
    all
}

/// The body that an edit changes, by its place among all, and the wrong one.
fn placed(source: &str, bodies: &[Range<usize>], edit: &Edit) -> Result<(usize, String), String> {
    let place = text::place(source, &edit.old).map_err(|why| format!("{why} in {}", edit.file))?;
    let at = bodies.iter().position(|body| body.start <= place.start && place.end <= body.end).ok_or("it is not within one function")?;
    let Range { start, end } = bodies[at];
    Ok((at, text::replaced(&source[start..end], place.start - start..place.end - start, &edit.new)))
}

/// A source with all its faults, or what is amiss with them.
pub fn woven(source: &str, faults: &[Fault]) -> Result<String, String> {
    let all = bodies(source);
    let mut within: Vec<Vec<(usize, String)>> = vec![Vec::new(); all.len()];
    let mut amiss = Vec::new();
    for (number, edit) in faults {
        match placed(source, &all, edit) {
            Ok((at, wrong)) => within[at].push((*number, wrong)),
            Err(why) => amiss.push(format!("{}: {why}", edit.written)),
        }
    }
    if !amiss.is_empty() {
        return Err(amiss.join("\n"));
    }
    let (mut result, mut done) = (String::new(), 0);
    for (body, wrong) in all.into_iter().zip(within).filter(|(_, wrong)| !wrong.is_empty()) {
        let arms: String = wrong.iter().map(|(number, wrong)| format!("{number} => {wrong}\n")).collect();
        let right = &source[body.clone()];
        result += &format!("{}{{ match crate::fault::chosen() {{\n{arms}_ => {right} }} }}", &source[done..body.start]);
        done = body.end;
    }
    Ok(result + &source[done..])
}

#[cfg(test)]
mod tests {
    use super::*;

    const SOURCE: &str =
        "fn one() -> u8 { 1 }\n\nimpl A {\n    pub fn two(\n        self,\n    ) -> u8 {\n        let x = 2;\n        x\n    }\n}\n";

    fn edit(old: &str, new: &str) -> Edit {
        Edit { old: old.to_string(), new: new.to_string(), ..Edit::default() }
    }

    #[test]
    fn functions_have_a_body_for_each_fault() {
        let (first, second, third) = (edit("{ 1", "{ 3"), edit("x = 2", "x = 4"), edit("; x", "; x + 1"));
        let source = woven(SOURCE, &[(1, &first), (2, &second), (3, &third)]).expect("all are within functions");
        assert!(source.starts_with("fn one() -> u8 { match crate::fault::chosen() {\n1 => { 3 }\n_ => { 1 } } }\n"));
        assert!(source.contains(") -> u8 { match crate::fault::chosen() {\n2 => {\n        let x = 4;\n        x\n    }\n3 => {"));
        assert!(source.ends_with("_ => {\n        let x = 2;\n        x\n    } } }\n}\n"));
    }

    #[test]
    fn a_fault_is_within_one_function() {
        assert!(woven(SOURCE, &[(1, &edit("impl A", "impl B"))]).is_err());
        assert!(woven(SOURCE, &[(1, &edit("1 } impl A {", "2 }"))]).is_err());
    }
}
