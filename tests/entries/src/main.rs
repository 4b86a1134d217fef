//! `entries TEST WORD..`: the entries for C, called beside the reference, and what is counted by them. Each test says in its file which words
//! it takes.

mod beside;
mod counts;
mod desk;
mod desk_examples;
mod drawings;
mod plain;
mod plans;
mod totals;

fn main() {
    shared::chosen(&[
        ("beside", beside::main),
        ("counts", counts::main),
        ("desk", desk::main),
        ("desk_examples", desk_examples::main),
        ("drawings", drawings::main),
        ("plain", plain::main),
        ("plans", plans::main),
        ("totals", totals::main),
    ]);
}
