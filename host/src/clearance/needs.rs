//! The needs at a point of the walk: of globals, locals, arguments and evaluated expressions.
use super::need::{Need, Pieces};
use std::collections::BTreeMap;

#[derive(Clone, Copy, PartialEq, Eq, PartialOrd, Ord, Debug)]
pub enum Key {
    Global(u16),
    Local(u16),
    Argument(u16),
    Expression(usize),
}

pub type Needs = BTreeMap<Key, Need>;

pub fn add(pieces: &mut Pieces, needs: &mut Needs, key: Key, need: Need) {
    let joined = needs.get(&key).map_or(need, |old| pieces.join(*old, need));
    needs.insert(key, joined);
}

pub fn join(pieces: &mut Pieces, mut a: Needs, b: &Needs) -> Needs {
    for (key, need) in b {
        add(pieces, &mut a, *key, *need);
    }
    a
}

/// What 16 counts: one for each, and its entries.
pub fn count(pieces: &Pieces, needs: &Needs) -> u64 {
    needs.values().fold(0, |n: u64, need| n.saturating_add(1).saturating_add(pieces.count(*need)))
}

/// A report's words for what has a need.
pub fn name(key: Key) -> String {
    match key {
        Key::Global(n) => format!("global {n}"),
        Key::Local(n) => format!("local {n}"),
        Key::Argument(n) => format!("arg {n}"),
        Key::Expression(n) => format!("expr {n}"),
    }
}
