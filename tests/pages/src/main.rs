//! `pages TEST WORD..`: the worked examples of the pages, run. Each test says in its file which words it takes.

mod drawing_page;
mod sessions;
mod shortest;
mod steps;

fn main() {
    shared::chosen(&[
        ("drawing_page", drawing_page::main),
        ("sessions", sessions::main),
        ("shortest", shortest::main),
        ("steps", steps::main),
    ]);
}
