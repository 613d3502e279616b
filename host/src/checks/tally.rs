//! How often each author's cases got each answer, as a table.
use crate::clearance::Verdict;
use std::collections::{BTreeMap, BTreeSet};

#[derive(Default)]
pub struct Tally {
    /// By refusal, and then by the answer's words.
    counts: BTreeMap<(u32, String), BTreeMap<&'static str, usize>>,
    pub cases: usize,
}

impl Tally {
    pub fn add(&mut self, author: &'static str, answer: &Verdict) {
        let refusal = if let Verdict::Refused(number) = answer { *number } else { 0 };
        *self.counts.entry((refusal, answer.sort())).or_default().entry(author).or_default() += 1;
        self.cases += 1;
    }

    pub fn count(&self, answer: &str) -> usize {
        let same = self.counts.iter().filter(|((_, word), _)| word == answer);
        same.flat_map(|(_, by)| by.values()).sum()
    }

    pub fn table(&self) -> String {
        let mut authors: BTreeSet<&str> = self.counts.values().flat_map(|by| by.keys().copied()).collect();
        if authors.len() == 1 {
            authors.clear();
        }
        let row = |cells: Vec<String>| format!("| {} |\n", cells.join(" | "));
        let head = ["answer", "all"].into_iter().chain(authors.iter().copied()).map(String::from).collect();
        let mut text = row(head) + &"|---".repeat(2 + authors.len()) + "|\n";
        for ((_, answer), by) in &self.counts {
            let each = authors.iter().map(|a| by.get(a).copied().unwrap_or(0).to_string());
            text += &row([answer.clone(), self.count(answer).to_string()].into_iter().chain(each).collect());
        }
        text
    }
}
