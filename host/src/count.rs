//! What the stored lists reach: how often each record, kind and refusal occurs.
use crate::form::{Mark, FORMS};
use crate::record::{fields, records};
use crate::stored::{Reading, Requests};
use std::collections::BTreeMap;
use std::fmt::Write;

/// Counts of names, in the order of the form's tables.
#[derive(Default)]
pub struct Counts {
    pub records: BTreeMap<Mark, usize>,
    pub kinds: BTreeMap<(Mark, u16), usize>,
    pub refusals: BTreeMap<u16, usize>,
}

impl Counts {
    /// The strings that are accepted, and every answer.
    pub fn of_reading(cases: &[Reading]) -> Counts {
        let mut counts = Counts::default();
        cases.iter().for_each(|case| counts.reading(case));
        counts
    }

    pub fn reading(&mut self, case: &Reading) {
        *self.refusals.entry(case.refusal).or_default() += 1;
        if case.refusal == 0 {
            self.add(&case.module);
        }
    }

    pub fn of_requests(cases: &[Requests]) -> Counts {
        let mut counts = Counts::default();
        for case in cases {
            counts.add(&case.module);
            for (request, answer) in &case.requests {
                counts.add(request);
                *counts.refusals.entry(answer.refusal).or_default() += 1;
            }
        }
        counts
    }

    /// How many records of these letters have this kind.
    pub fn of(&self, letters: &str, kind: u16) -> usize {
        let mark = FORMS.iter().find(|f| f.letters == letters.as_bytes()).map(|f| f.mark);
        mark.and_then(|m| self.kinds.get(&(m, kind))).copied().unwrap_or(0)
    }

    /// A file's records and kinds.
    pub fn add(&mut self, bytes: &[u8]) {
        for record in records(bytes).0 {
            let Some(mark) = Mark::of_letters(record.letters) else { continue };
            *self.records.entry(mark).or_default() += 1;
            let form = mark.form();
            if let (false, Some(kind)) = (form.kinds.is_empty(), fields(record.body).get(form.head.len())) {
                *self.kinds.entry((mark, *kind)).or_default() += 1;
            }
        }
    }
}

/// A line for each record, kind and answer of reading.
pub fn lines(counts: &Counts) -> String {
    let mut text = String::new();
    let mut line = |name: &str, count: Option<&usize>| writeln!(text, "{name}: {}", count.unwrap_or(&0)).expect("text");
    for form in FORMS.iter().filter(|f| f.mark != Mark::Request) {
        let name = String::from_utf8_lossy(&form.letters).into_owned();
        line(&name, counts.records.get(&form.mark));
        for (code, kind) in form.kinds.iter().enumerate() {
            line(&format!("{name} {code} {}", kind.name), counts.kinds.get(&(form.mark, code as u16)));
        }
    }
    line("accepted", counts.refusals.get(&0));
    for number in 1..=5 {
        line(&format!("refused {number}"), counts.refusals.get(&number));
    }
    text
}

/// What can occur: reading has no requests, and each list its own refusals.
fn shown(count: Option<&usize>, possible: bool) -> String {
    if possible {
        count.copied().unwrap_or(0).to_string()
    } else {
        "-".into()
    }
}

/// A table of both lists, for their README.
pub fn table(reading: &[Reading], requests: &[Requests]) -> String {
    let (a, b) = (Counts::of_reading(reading), Counts::of_requests(requests));
    let asked: usize = requests.iter().map(|c| c.requests.len()).sum();
    let mut text =
        format!("| | reading.list ({}) | requests.list ({}, {asked} requests) |\n|---|---|---|\n", reading.len(), requests.len());
    let mut row = |name: &str, a: String, b: String| writeln!(text, "| {name} | {a} | {b} |").expect("text");
    for form in &FORMS {
        let name = String::from_utf8_lossy(&form.letters).into_owned();
        let module = form.mark != Mark::Request;
        row(&name, shown(a.records.get(&form.mark), module), shown(b.records.get(&form.mark), true));
        for (code, kind) in form.kinds.iter().enumerate() {
            let key = (form.mark, code as u16);
            row(&format!("{name} {code} {}", kind.name), shown(a.kinds.get(&key), true), shown(b.kinds.get(&key), true));
        }
    }
    row("accepted", shown(a.refusals.get(&0), true), shown(b.refusals.get(&0), true));
    for number in (1..=5).chain(11..=18) {
        let read = number <= 5;
        row(&format!("refused {number}"), shown(a.refusals.get(&number), read), shown(b.refusals.get(&number), !read));
    }
    text
}
