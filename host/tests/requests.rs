//! Requests through the library, on the stored list of the oracle's answers.
use host::stored::{Requests, Source};
use host::{library, list, replay};
use std::path::PathBuf;

fn cases() -> Vec<Requests> {
    let path = PathBuf::from(env!("CARGO_MANIFEST_DIR")).join("../tests/requests.list");
    Source(&std::fs::read(path).expect("requests.list")).all(Requests::read).expect("a whole list")
}

#[test]
fn requests_are_answered_as_the_oracle_answers_them() {
    let cases = cases();
    assert!(cases.len() > 400);
    library::with_stack(|| {
        for (n, case) in cases.iter().enumerate() {
            replay::replay(case).unwrap_or_else(|reason| panic!("item {n}, {reason}\n{}", list::list(&case.module)));
        }
    });
}
