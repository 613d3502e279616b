//! A need: all, or indexes with a need each, never empty. Equal needs have one number, so that needs which share much stay small.
use super::shape::{Id, Shapes};
use crate::limits;
use crate::part::Part;
use std::collections::HashMap;

/// A need's number.
pub type Need = usize;
pub const ALL: Need = 0;

#[derive(Default)]
struct Piece {
    entries: Vec<(u16, Need)>,
    depth: usize,
    /// Whether some part in it has too many entries.
    wide: bool,
    /// Its entries at every depth.
    pieces: u64,
}

pub struct Pieces {
    list: Vec<Piece>,
    numbers: HashMap<Vec<(u16, Need)>, Need>,
    joined: HashMap<(Need, Need), Need>,
}

impl Default for Pieces {
    fn default() -> Pieces {
        Pieces { list: vec![Piece::default()], numbers: HashMap::new(), joined: HashMap::new() }
    }
}

impl Pieces {
    /// The need of these entries, which ascend; nothing if there are none.
    pub fn of(&mut self, entries: Vec<(u16, Need)>) -> Option<Need> {
        if entries.is_empty() {
            return None;
        }
        if let Some(found) = self.numbers.get(&entries) {
            return Some(*found);
        }
        let inner = || entries.iter().map(|e| &self.list[e.1]);
        let piece = Piece {
            depth: 1 + inner().map(|p| p.depth).max().unwrap_or(0),
            wide: entries.len() > limits::ENTRIES || inner().any(|p| p.wide),
            pieces: inner().fold(0, |n: u64, p| n.saturating_add(p.pieces).saturating_add(1)),
            entries: entries.clone(),
        };
        self.list.push(piece);
        self.numbers.insert(entries, self.list.len() - 1);
        Some(self.list.len() - 1)
    }

    /// The need under an index alone.
    pub fn under(&mut self, index: u16, need: Need) -> Need {
        self.of(vec![(index, need)]).expect("an entry")
    }

    /// The need at the end of these indexes alone.
    pub fn at(&mut self, path: &[u16], need: Need) -> Need {
        path.iter().rev().fold(need, |inner, index| self.under(*index, inner))
    }

    pub fn entries(&self, need: Need) -> &[(u16, Need)] {
        &self.list[need].entries
    }

    /// What is needed under an index.
    pub fn member(&self, need: Need, index: u16) -> Option<Need> {
        if need == ALL {
            return Some(ALL);
        }
        self.entries(need).iter().find(|e| e.0 == index).map(|e| e.1)
    }

    /// `PartReq::add`.
    pub fn join(&mut self, a: Need, b: Need) -> Need {
        if a == ALL || b == ALL {
            return ALL;
        }
        if a == b {
            return a;
        }
        if let Some(found) = self.joined.get(&(a, b)) {
            return *found;
        }
        let mut merged: std::collections::BTreeMap<u16, Need> = self.entries(a).iter().copied().collect();
        for (index, other) in self.entries(b).to_vec() {
            let one = merged.get(&index).map_or(other, |mine| self.join(*mine, other));
            merged.insert(index, one);
        }
        let made = self.of(merged.into_iter().collect()).expect("an entry");
        self.joined.insert((a, b), made);
        made
    }

    /// What of a need lies at, above or below a path, as a need of what the path leads to.
    pub fn overlap(&self, need: Need, path: &[u16]) -> Option<Need> {
        path.iter().try_fold(need, |at, index| self.member(at, *index))
    }

    /// What is left of a need once the path is taken out: by type, one level at a time. An array on the way stops it.
    pub fn take_out(&mut self, shapes: &Shapes, shape: Id, need: Need, path: &[u16]) -> Option<Need> {
        let Some((index, rest)) = path.split_first() else { return None };
        let (Some(count), Some(member)) = (shapes.splits(shape), shapes.member(shape, *index)) else { return Some(need) };
        let mut entries = if need == ALL { (0..count).map(|i| (i, ALL)).collect() } else { self.entries(need).to_vec() };
        let Some(at) = entries.iter().position(|e| e.0 == *index) else { return Some(need) };
        match self.take_out(shapes, member, entries[at].1, rest) {
            Some(left) => entries[at].1 = left,
            None => drop(entries.remove(at)),
        }
        self.of(entries)
    }

    /// What a part needs of a type: exist, emptied parts and indexes outside the type go, at every depth.
    pub fn trimmed(&mut self, shapes: &Shapes, shape: Id, part: &Part) -> Option<Need> {
        match part {
            Part::All => Some(ALL),
            Part::Exist | Part::None => None,
            Part::Entries(parts) => {
                let inner = |(index, part): &(u16, Part)| {
                    let member = shapes.member(shape, *index)?;
                    Some((*index, self.trimmed(shapes, member, part)?))
                };
                let entries = parts.iter().filter_map(inner).collect();
                self.of(entries)
            }
        }
    }

    /// `PartReq::contains`, of a need.
    pub fn is_contained(&self, need: Need, part: &Part) -> bool {
        match part {
            Part::All => true,
            Part::Entries(parts) if need != ALL => self.entries(need).iter().all(|(index, inner)| {
                let found = parts.iter().find(|p| p.0 == *index);
                found.is_some_and(|(_, part)| self.is_contained(*inner, part))
            }),
            _ => false,
        }
    }

    /// Whether it passes the limits of 15.
    pub fn is_deep(&self, need: Need) -> bool {
        self.list[need].depth > limits::DEPTH || self.list[need].wide
    }

    /// Its entries at every depth.
    pub fn count(&self, need: Need) -> u64 {
        self.list[need].pieces
    }

    /// How many needs there are.
    pub fn kept(&self) -> usize {
        self.list.len()
    }

    /// The need as a part, for a context.
    pub fn part(&self, need: Need) -> Part {
        if need == ALL {
            return Part::All;
        }
        Part::Entries(self.entries(need).iter().map(|(index, inner)| (*index, self.part(*inner))).collect())
    }
}
