//! What a comparison of requests has reached: answers, panics with the kind at their place, kinds in accepted modules, and how often
//! those were recorded or marked in accepted reports.
use crate::count::Counts;
use crate::form::{EXPRESSIONS, STATEMENTS};
use crate::lent::Written;
use crate::oracle::Answer;
use crate::outline::Outline;
use crate::part::Part;
use std::collections::BTreeMap;
use std::fmt::Write;

#[derive(Default)]
pub struct Reached {
    pub modules: usize,
    pub requests: usize,
    /// Of all requests, those that were refused on the way too.
    all_visits: u64,
    /// Refusals by number, 0 for accepted.
    pub answers: BTreeMap<u16, usize>,
    /// Accepted requests by the digits of their visits.
    visits: BTreeMap<usize, usize>,
    panics: BTreeMap<String, usize>,
    /// Buffers that were short or damaged.
    pub probes: BTreeMap<String, usize>,
    pub kinds: Counts,
    recorded: BTreeMap<u16, usize>,
    marked: BTreeMap<u16, usize>,
}

impl Reached {
    pub fn answer(&mut self, outline: &Outline, answer: &Answer) {
        self.requests += 1;
        self.all_visits += u64::from(answer.visits);
        *self.answers.entry(answer.refusal).or_default() += 1;
        if answer.refusal == 0 {
            *self.visits.entry(answer.visits.to_string().len()).or_default() += 1;
        }
        if answer.refusal == 13 {
            *self.panics.entry(panic(outline, answer)).or_default() += 1;
        }
    }

    /// An accepted request's records and marks, by the kinds that have them.
    pub fn written(&mut self, outline: &Outline, function: usize, written: &Written) {
        let asked = &outline.functions[function];
        let there = asked.expressions.iter().zip(&written.reported.records).filter(|(_, part)| **part != Part::None);
        there.for_each(|(kind, _)| *self.recorded.entry(*kind).or_default() += 1);
        let marks = &written.marks[outline.stretch(function)];
        let own = asked.statements.iter().zip(asked.own(marks)).filter(|(_, own)| own.contains(&1));
        own.for_each(|(statement, _)| *self.marked.entry(statement.kind).or_default() += 1);
    }

    pub fn lines(&self) -> String {
        let mut text = format!("modules: {}\nrequests: {}\nvisits: {}\n", self.modules, self.requests, self.all_visits);
        for (number, count) in &self.answers {
            let name = if *number == 0 { "accepted".into() } else { format!("refused {number}") };
            writeln!(text, "{name}: {count}").expect("text");
        }
        for (digits, count) in &self.visits {
            writeln!(text, "accepted with up to {} visits: {count}", 10usize.pow(*digits as u32) - 1).expect("text");
        }
        for (name, count) in self.panics.iter().chain(&self.probes) {
            writeln!(text, "{name}: {count}").expect("text");
        }
        text + &self.kind_lines()
    }

    fn kind_lines(&self) -> String {
        let count = |counts: &BTreeMap<u16, usize>, kind: usize| counts.get(&(kind as u16)).copied().unwrap_or(0);
        let mut text = String::new();
        for (form, kinds, counts, verb) in
            [("EX", &EXPRESSIONS[..], &self.recorded, "recorded"), ("ST", &STATEMENTS[..], &self.marked, "marked")]
        {
            for (n, kind) in kinds.iter().enumerate() {
                let all = self.kinds.of(form, n as u16);
                writeln!(text, "{form} {n} {}: {all}, {verb} {}", kind.name, count(counts, n)).expect("text");
            }
        }
        text
    }
}

/// The kind at the place of a panic, and what the Rust says, without its numbers.
fn panic(outline: &Outline, answer: &Answer) -> String {
    let words = answer.panic.split(' ').map(|w| if w.bytes().all(|b| b.is_ascii_digit()) { "N" } else { w });
    let message = words.collect::<Vec<_>>().join(" ");
    let Some(place) = answer.place else { return format!("13 nowhere: {message}") };
    let function = &outline.functions[place.function as usize];
    let name = if place.statement {
        STATEMENTS[function.statements[place.number as usize].kind as usize].name
    } else {
        EXPRESSIONS[function.expressions[place.number as usize] as usize].name
    };
    format!("13 at {name}: {message}")
}
