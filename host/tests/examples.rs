//! The examples assemble, reading accepts them, and the large one is what `generate` makes.
use host::assemble::assemble;
use host::form::{Mark, EXPRESSIONS, STATEMENTS};
use host::record::{fields, records};
use host::stored::{Requests, Source};
use host::{check, list, model};
use std::path::PathBuf;

fn example(name: &str) -> String {
    let path = PathBuf::from(env!("CARGO_MANIFEST_DIR")).join("../examples").join(name);
    std::fs::read_to_string(path).expect(name)
}

fn file(name: &str) -> Vec<u8> {
    let made = assemble(&example(name)).unwrap_or_else(|f| panic!("{name}:{}: {}", f.line, f.reason));
    check::file(&made.bytes).unwrap_or_else(|r| panic!("{name}:{}: {}", made.line(r.at), r.reason));
    made.bytes
}

/// The lines without comments and spaces at the ends.
fn plain(text: &str) -> Vec<&str> {
    text.lines().map(|l| l.split('#').next().unwrap_or("").trim_end()).filter(|l| !l.is_empty()).collect()
}

fn statements(bytes: &[u8]) -> usize {
    records(bytes).0.iter().filter(|r| r.letters == *b"ST").count()
}

#[test]
fn examples_are_listed_as_they_are_written() {
    for name in ["case-a.txt", "casting.txt", "model-600.txt"] {
        let text = example(name);
        assert_eq!(plain(&list::list(&file(name))), plain(&text), "{name}");
    }
}

/// The stored reports are the oracle's, which the list of requests has too.
#[test]
fn reports_are_stored() {
    let path = PathBuf::from(env!("CARGO_MANIFEST_DIR")).join("../tests/requests.list");
    let cases = Source(&std::fs::read(path).expect("the list")).all(Requests::read).expect("a whole list");
    for name in ["case-a", "casting", "model-600"] {
        let bytes = file(&format!("{name}.txt"));
        let whole = |c: &&Requests| c.requests.len() == 1 && [&c.module[..], &c.requests[0].0].concat() == bytes;
        let case = cases.iter().find(whole).expect(name);
        assert_eq!(case.requests[0].1.report, example(&format!("{name}.report")), "{name}");
    }
}

#[test]
fn sizes() {
    assert_eq!(statements(&file("case-a.txt")), 3);
    assert_eq!(statements(&file("casting.txt")), 39);
    assert_eq!(statements(&file("model-600.txt")), 600);
}

#[test]
fn the_large_model_is_generated() {
    assert_eq!(file("model-600.txt"), model::generate(600, 1).expect("a model"));
}

#[test]
fn models_of_every_size() {
    for size in [model::LEAST, 41, 100, 200, 601, 1024] {
        for seed in 0..8 {
            let bytes = model::generate(size, seed).expect("a model");
            check::file(&bytes).unwrap_or_else(|r| panic!("{size} {seed}: {}", r.reason));
            assert_eq!(statements(&bytes), size);
            assert_eq!(bytes, model::generate(size, seed).expect("a model"));
        }
    }
    assert!(model::generate(model::LEAST - 1, 0).is_err() && model::generate(1025, 0).is_err());
}

/// Kinds that the clearance does not judge.
#[test]
fn examples_have_judged_kinds_alone() {
    let large = model::generate(1024, 3).expect("a model");
    for bytes in [file("case-a.txt"), file("casting.txt"), file("model-600.txt"), large] {
        for record in records(&bytes).0 {
            let fields = fields(record.body);
            match Mark::of_letters(record.letters) {
                Some(Mark::Expression) => {
                    assert!(matches!(fields[1], 0 | 1 | 3..=12 | 16..=18 | 20..=22), "{}", EXPRESSIONS[fields[1] as usize].name)
                }
                Some(Mark::Statement) => assert!(matches!(fields[0], 0..=7 | 12), "{}", STATEMENTS[fields[0] as usize].name),
                _ => {}
            }
        }
    }
}
