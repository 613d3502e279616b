//! Checks of reports through the library, on the stored list of the second clearance's answers, and on fresh cases.
use host::checks::tally::Tally;
use host::checks::{compare, fresh, Case};
use host::clearance::Verdict;
use host::random::Random;
use host::stored::{Checks, Requests, Source};
use host::{library, list};
use std::path::PathBuf;

/// Our own number, which the second clearance does not know.
const OWN: Verdict = Verdict::Refused(26);

fn items() -> Vec<Checks> {
    let path = PathBuf::from(env!("CARGO_MANIFEST_DIR")).join("../tests/clearance.list");
    Source(&std::fs::read(path).expect("clearance.list")).all(Checks::read).expect("a whole list")
}

#[test]
fn checks_are_answered_as_the_second_clearance_answers_them() {
    let items = items();
    assert!(items.iter().map(|item| item.checks.len()).sum::<usize>() >= 400);
    library::with_stack(|| {
        for item in items {
            for (n, c) in item.checks.into_iter().enumerate() {
                let case = Case { module: item.module.clone(), request: c.request, report: c.report, context: c.context };
                let found = case.check().expect("nothing is written");
                let text = || list::list(&[&case.module[..], &case.request].concat());
                assert_eq!(Verdict::of_word(found), Verdict::of_word(c.answer), "check {n} of\n{}", text());
            }
        }
    });
}

/// The modules of the stored requests, the deepest and the longest among them, with reports by several authors.
#[test]
fn stored_modules_are_checked_alike() {
    let path = PathBuf::from(env!("CARGO_MANIFEST_DIR")).join("../tests/requests.list");
    let stored = Source(&std::fs::read(path).expect("requests.list")).all(Requests::read).expect("a whole list");
    library::with_stack(|| {
        let (mut random, mut tally) = (Random::new(7), Tally::default());
        for (n, item) in stored.iter().enumerate() {
            let file = [&item.module[..], &item.requests[0].0].concat();
            for (author, case) in fresh::of_file(&file, &mut random).unwrap_or_default() {
                let (wanted, found) = (case.answer(), Verdict::of_word(case.check().expect("nothing is written")));
                assert!(found.as_ref() == Some(&wanted) || found == Some(OWN), "item {n}, {author}: {wanted} expected, not {found:?}");
                tally.add(author, &wanted);
            }
        }
        assert!(tally.cases > 2000 && tally.count("clear") > 100, "{}", tally.table());
    });
}

#[test]
fn fresh_checks_are_answered_alike() {
    let folder = std::env::temp_dir();
    let found = library::with_stack(|| compare::compare(1, 2000, &folder, &Case::check));
    found.unwrap_or_else(|text| panic!("{text}"));
}
