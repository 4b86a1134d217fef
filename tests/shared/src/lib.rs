//! What the tests in Rust share: the traffic they make, and how they call programs and entries.

pub use ::reference;

pub mod calls;
pub mod child;
pub mod desk_handed;
pub mod drawing_traffic;
pub mod drives;
pub mod filling;
pub mod handed;
pub mod hex;
pub mod jams;
pub mod journal_form;
pub mod journals;
pub mod lifts;
pub mod page;
pub mod panel_calls;
pub mod pipes;
pub mod plan_traffic;
pub mod planned;
pub mod sound_records;
pub mod texts;
pub mod traced;
pub mod traffic;
pub mod trials;

/// A test by its name, given all words behind the program's own name: the test's name is the first of them.
pub type Test = (&'static str, fn(&[String]));

/// Runs the test that the program's words name.
pub fn chosen(tests: &[Test]) {
    let words: Vec<String> = std::env::args().skip(1).collect();
    let named = |name: &String| tests.iter().find(|test| test.0 == name);
    let Some((_, run)) = words.first().and_then(named) else {
        let names: Vec<&str> = tests.iter().map(|test| test.0).collect();
        panic!("usage: TEST WORD.., with one of these tests: {}", names.join(", "));
    };
    run(&words);
}
