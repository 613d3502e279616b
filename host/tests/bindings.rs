//! The stored list of the operations on bindings: the library gives its answers, and every answer is there.
use host::library::{self, Answer};
use host::stored::{Binding, Bindings, Operation, Source};
use std::collections::BTreeMap;
use std::path::PathBuf;

fn items() -> Vec<Bindings> {
    let path = PathBuf::from(env!("CARGO_MANIFEST_DIR")).join("../tests/bindings.list");
    Source(&std::fs::read(path).expect("a list")).all(Bindings::read).expect("a whole list")
}

fn ask(module: &[u8], case: &Binding, out: &mut [u8]) -> Answer {
    match case.operation {
        Operation::Input => library::input_to_bindings(module, case.number, &case.given, out),
        Operation::Output => library::output_from_bindings(module, case.number, &case.given, out),
        Operation::Add => library::add_binding(module, &case.given, case.number, out),
    }
}

fn wanted(case: &Binding) -> Answer {
    match (case.answer >> 32) as u32 {
        0 => Answer::Written(case.written.clone()),
        13 => Answer::Asserts(case.answer as u32),
        number => Answer::Refused(number),
    }
}

/// A byte that no answer writes.
const UNTOUCHED: u8 = 170;

#[test]
fn bindings_agree() {
    library::with_stack(|| {
        for (n, item) in items().iter().enumerate() {
            for (k, case) in item.asked.iter().enumerate() {
                let mut out = vec![UNTOUCHED; case.room as usize];
                assert_eq!(ask(&item.module, case, &mut out), wanted(case), "item {n}, {k}");
                assert!(out[case.written.len()..].iter().all(|b| *b == UNTOUCHED), "item {n}, {k}: bytes past the answer");
            }
        }
    });
}

#[test]
fn every_answer_is_there() {
    let mut met: BTreeMap<(Operation, u32), usize> = BTreeMap::new();
    for case in items().iter().flat_map(|item| &item.asked) {
        *met.entry((case.operation, (case.answer >> 32) as u32)).or_default() += 1;
    }
    assert!(met.values().sum::<usize>() >= 300);
    for (operation, answers) in [
        (Operation::Input, [0, 11, 12, 13, 16, 20]),
        (Operation::Output, [0, 11, 12, 15, 16, 20]),
        (Operation::Add, [0, 11, 12, 15, 16, 20]),
    ] {
        for answer in answers {
            assert!(met.contains_key(&(operation, answer)), "{operation:?} {answer}: {met:?}");
        }
    }
    let long = items().iter().flat_map(|item| &item.asked).any(|case| case.given.len() == 49_166 && case.answer >> 32 == 0);
    assert!(long, "a context of 8,192 pieces of six bytes each");
}
