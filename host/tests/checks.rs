//! The stored list of checks: the second clearance gives its answers, and every answer is there. (tests/checked.rs asks the library.)
use host::checks::tally::Tally;
use host::checks::{corners, worst, Case};
use host::clearance::authors::Asked;
use host::clearance::Verdict;
use host::library;
use host::stored::{Checks, Source};
use std::path::PathBuf;

fn stored(name: &str) -> Vec<u8> {
    std::fs::read(PathBuf::from(env!("CARGO_MANIFEST_DIR")).join("../tests").join(name)).expect(name)
}

fn cases() -> Vec<(Case, Verdict)> {
    let items = Source(&stored("clearance.list")).all(Checks::read).expect("a whole list");
    let of_item = |item: Checks| {
        let module = item.module;
        item.checks.into_iter().map(move |c| {
            let answer = Verdict::of_word(c.answer).expect("an answer");
            (Case { module: module.clone(), request: c.request, report: c.report, context: c.context }, answer)
        })
    };
    items.into_iter().flat_map(of_item).collect()
}

/// Our own number, which the second clearance does not know.
const OWN: Verdict = Verdict::Refused(26);

#[test]
fn checks_agree() {
    library::with_stack(|| {
        for (n, (case, answer)) in cases().iter().enumerate().filter(|(_, c)| c.1 != OWN) {
            assert_eq!(case.answer(), *answer, "item {n}");
        }
    });
}

#[test]
fn every_answer_is_there() {
    let mut tally = Tally::default();
    cases().iter().for_each(|(_, answer)| tally.add("checks", answer));
    assert!(tally.cases >= 400);
    for answer in ["clear", "start", "stmt", "unjudged expr", "unjudged stmt"] {
        assert!(tally.count(answer) > 30, "{answer}");
    }
    for number in [1, 2, 3, 4, 5, 11, 12, 15, 16, 21, 26] {
        assert!(tally.count(&format!("refused {number}")) > 0, "{number}");
    }
    let readme = String::from_utf8(stored("README.md")).expect("text");
    assert!(readme.contains(&tally.table()), "tests/README.md has another table:\n{}", tally.table());
}

/// The corners are where their names say, all marked and with the needs as context.
#[test]
fn corners_are_at_their_limits() {
    let marked = |file: Vec<u8>| {
        let asked = Asked::of(&file).expect("a request that fits");
        asked.judge(&asked.all_marked()).verdict
    };
    let pairs = [
        (corners::sum(16), corners::sum(17), 15),
        (corners::nested(8), corners::nested(9), 15),
        (corners::turns(17, true), corners::turns(17, false), 15),
        (corners::column(6), corners::column(7), 15),
        (corners::chosen(30, 1), corners::chosen(30, 2), 16),
        (corners::pieces(30, 2, true), corners::pieces(30, 3, true), 16),
        (corners::pieces(30, 2, false), corners::pieces(30, 3, false), 16),
    ];
    library::with_stack(|| {
        for (n, (within, past, number)) in pairs.into_iter().enumerate() {
            assert_eq!((marked(within), marked(past)), (Verdict::Clear, Verdict::Refused(number)), "pair {n}");
        }
        assert_eq!(marked(corners::loops(16)), Verdict::Clear);
        assert_eq!(marked(corners::loops(480)), Verdict::Refused(15));
    });
}

/// What the worst inputs come to; of the greatest odometer see docs/PERFORMANCE.md.
#[test]
fn worst_inputs_have_an_answer() {
    let answer = |input: worst::Named| library::with_stack(|| input.case().answer());
    assert_eq!(answer(worst::loops(300)), Verdict::Clear);
    assert_eq!(answer(worst::copies(1000)), Verdict::Clear);
    assert_eq!(answer(worst::ifs(1000)), Verdict::Statement(0));
    assert_eq!(answer(worst::odometer(2)), Verdict::Clear);
    assert!(worst::in_loops(1024, 5, 1).is_ok_and(|file| Asked::of(&file).is_some_and(|a| a.is_judged())));
}
