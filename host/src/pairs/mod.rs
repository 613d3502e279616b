//! Pairs at each limit of a walk: a request that a limit just allows, and one that it does not.
mod parts;
mod pieces;
pub mod walks;

use crate::asks::{groups, Asked};
use crate::assemble::assemble;
pub use pieces::asked;

pub struct Pair {
    pub name: String,
    /// What the last request of each answers: 0 accepted, or its refusal.
    pub answers: (u16, u16),
    pub within: Asked,
    pub past: Asked,
}

impl Pair {
    /// Of two listings, each of a module and up to four requests.
    fn new(name: impl Into<String>, answers: (u16, u16), within: &str, past: &str) -> Pair {
        let name = name.into();
        let asked = |text: &str| {
            let made = assemble(text).unwrap_or_else(|f| panic!("{name}, line {}: {}", f.line, f.reason));
            groups(&made.bytes).remove(0)
        };
        let (within, past) = (asked(within), asked(past));
        Pair { name, answers, within, past }
    }
}

pub fn all() -> Vec<Pair> {
    let mut found = parts::all();
    found.extend(pieces::all());
    found.extend(walks::all());
    found
}
