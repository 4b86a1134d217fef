//! Which fault the references have: none until one is chosen.

use std::sync::atomic::{AtomicUsize, Ordering::Relaxed};

/// A fault: its number, the list it belongs to, and its name there.
pub struct Fault {
    at: usize,
    list: &'static str,
    pub name: &'static str,
}

/// All faults; their numbers begin with 1.
static ALL: &[Fault] = &include!(concat!(env!("OUT_DIR"), "/faults"));

static CHOSEN: AtomicUsize = AtomicUsize::new(0);

/// The number of the chosen fault, or 0.
pub fn chosen() -> usize {
    CHOSEN.load(Relaxed)
}

/// The faults of a list.
pub fn all_of(list: &str) -> impl Iterator<Item = &'static Fault> + '_ {
    ALL.iter().filter(move |fault| fault.list == list)
}

impl Fault {
    /// What a call returns while the references have this fault.
    pub fn with<T>(&self, call: impl FnOnce() -> T) -> T {
        self.choose();
        let returned = call();
        CHOSEN.store(0, Relaxed);
        returned
    }

    /// Gives the references this fault, from now on.
    pub fn choose(&self) {
        CHOSEN.store(self.at, Relaxed)
    }
}
