//! The examples of a page, which stand there in blocks with a mark.

/// The blocks of a page that have one of some marks: the line that each ends at, its mark and its text.
pub fn blocks<'a>(page: &'a str, marks: &[&str]) -> Vec<(usize, &'a str, String)> {
    let (mut found, mut inside) = (Vec::new(), None);
    for (line, at) in page.lines().zip(1..) {
        match (&mut inside, line.strip_prefix("```")) {
            (None, Some(mark)) => inside = Some((mark, String::new())),
            (Some(_), Some(_)) => {
                let (mark, text) = inside.take().expect("a block");
                if marks.contains(&mark) {
                    found.push((at, mark, text));
                }
            }
            (Some((_, text)), None) => {
                text.push_str(line);
                text.push('\n');
            }
            (None, None) => {}
        }
    }
    found
}
