//! A pruner's record against the oracle's lines of totals in the stored list: the lines as a record give the same lines again, and a
//! damaged record is none, or another.
use host::context::Context;
use host::limits;
use host::outline::{Function, Outline};
use host::part::Part;
use host::random::Random;
use host::stored::{Requests, Source};
use host::totals::{Total, Totals};
use std::path::PathBuf;

fn cases() -> Vec<Requests> {
    let path = PathBuf::from(env!("CARGO_MANIFEST_DIR")).join("../tests/requests.list");
    Source(&std::fs::read(path).expect("requests.list")).all(Requests::read).expect("a whole list")
}

fn empty(function: &Function) -> Total {
    let context = Context { retval: Part::None, globals: vec![], arguments: vec![], locals: vec![] };
    Total { marks: vec![], context, records: vec![Part::None; function.expressions.len()] }
}

/// The totals that the oracle's lines say.
fn parsed(outline: &Outline, text: &str) -> Totals {
    let mut totals = Totals::fresh(outline);
    let mut open = None;
    for line in text.lines() {
        let words: Vec<&str> = line.split(' ').collect();
        let number = || words[1].parse::<u16>().expect("a number");
        if words[0] == "fn" {
            open = Some(number() as usize);
            totals.functions[number() as usize] = Some(empty(&outline.functions[number() as usize]));
            continue;
        }
        let part = || Part::parse(words[words.len() - 1]).expect("a part");
        let total = open.and_then(|f: usize| totals.functions[f].as_mut());
        match (words[0], total) {
            ("global", None) => totals.globals.push((number(), part())),
            ("global", Some(total)) => total.context.globals.push((number(), part())),
            ("retval", Some(total)) => total.context.retval = part(),
            ("arg", Some(total)) => total.context.arguments.push((number(), part())),
            ("local", Some(total)) => total.context.locals.push((number(), part())),
            ("expr", Some(total)) => total.records[number() as usize] = part(),
            ("stmt", Some(total)) => total.marks.extend(words[3..].iter().map(|w| u8::from(*w == "yes"))),
            _ => panic!("{line}"),
        }
    }
    totals
}

fn buffer(record: &[u8]) -> Vec<u8> {
    let mut bytes = record.to_vec();
    bytes.resize(limits::PRUNER, 0xa5);
    bytes
}

#[test]
fn totals_are_written_and_read() {
    let mut random = Random::new(5);
    for (n, case) in cases().iter().enumerate() {
        let outline = Outline::of(&case.module);
        for (_, answer) in &case.requests {
            let totals = parsed(&outline, &answer.totals);
            assert_eq!(totals.lines(&outline), answer.totals, "item {n}");
            let record = totals.write();
            let mut bytes = buffer(&record);
            assert_eq!(Totals::read(&outline, &bytes).as_ref(), Some(&totals), "item {n}");
            assert_eq!(Totals::read(&outline, &bytes[1..]), None);
            bytes[random.below(record.len())] ^= 1 << random.below(8);
            assert_ne!(Totals::read(&outline, &bytes), Some(totals), "item {n}");
        }
    }
}

#[test]
fn a_fresh_pruner_has_no_totals() {
    let outline = Outline::of(&cases()[0].module);
    let mut bytes = buffer(&[0, 0]);
    assert_eq!(Totals::read(&outline, &bytes), Some(Totals::fresh(&outline)));
    assert_eq!(Totals::fresh(&outline).lines(&outline), "");
    bytes[1] = 1;
    assert_eq!(Totals::read(&outline, &bytes), None);
}
