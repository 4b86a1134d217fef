//! `differential TEST WORD..`: the programs, and hosts in C, beside the reference. Each test says in its file which words it takes.

mod desk;
mod entries;
mod explain;
mod frames;
mod issues;
mod panel;
mod panel_text;
mod plan_text;
mod program;
mod report;
mod signatures;
mod streams;

fn main() {
    shared::chosen(&[
        ("desk", desk::main),
        ("entries", entries::main),
        ("explain", explain::main),
        ("frames", frames::main),
        ("issues", issues::main),
        ("panel", panel::main),
        ("panel_text", panel_text::main),
        ("plan_text", plan_text::main),
        ("program", program::main),
        ("report", report::main),
        ("signatures", signatures::main),
        ("streams", streams::main),
    ]);
}
