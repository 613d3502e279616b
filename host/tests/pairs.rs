//! Pairs at each limit: the stored list has each, with the answers that its name promises. (tests/requests.rs asks the library.)
use host::asks::Asked;
use host::oracle::Answer;
use host::pairs::{self, Pair};
use host::stored::{Requests, Source};
use std::path::PathBuf;

fn cases() -> Vec<Requests> {
    let path = PathBuf::from(env!("CARGO_MANIFEST_DIR")).join("../tests/requests.list");
    Source(&std::fs::read(path).expect("requests.list")).all(Requests::read).expect("a whole list")
}

/// The answer to the last request of a stored case.
fn last<'a>(cases: &'a [Requests], asked: &Asked) -> Option<&'a Answer> {
    let same =
        |c: &&Requests| c.buffer == asked.buffer && c.module == asked.module && c.requests.iter().map(|r| &r.0).eq(asked.requests.iter());
    cases.iter().find(same)?.requests.last().map(|r| &r.1)
}

/// Why a request that is accepted is not at its limit, if it is not.
fn below(pair: &Pair, answer: &Answer) -> Option<String> {
    let (count, limit) = match pair.name.split(':').next()? {
        "pieces" => (answer.peak, 8192),
        "visits" => (answer.visits, 1_000_000),
        "turns" => (answer.longest, 64),
        _ => return None,
    };
    (count != limit).then(|| format!("{}: {count} of {limit}", pair.name))
}

#[test]
fn pairs_are_stored() {
    let cases = cases();
    let mut wrong = Vec::new();
    for pair in pairs::all() {
        for (asked, wanted) in [(&pair.within, pair.answers.0), (&pair.past, pair.answers.1)] {
            match last(&cases, asked) {
                Some(answer) if answer.refusal == wanted => {}
                other => wrong.push(format!(
                    "{}: {wanted} expected, not {:?} at {:?}",
                    pair.name,
                    other.map(|a| a.refusal),
                    other.map(|a| a.place)
                )),
            }
        }
        wrong.extend(last(&cases, &pair.within).filter(|a| a.refusal == 0).and_then(|a| below(&pair, a)));
    }
    assert!(wrong.is_empty(), "{}", wrong.join("\n"));
}
