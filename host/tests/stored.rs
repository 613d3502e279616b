//! The stored lists: this program's own check agrees with the oracle's answers, every file has a listing that gives it back,
//! and nothing is left out.
use host::stored::{Reading, Report, Requests, Source};
use host::{assemble, check, count, list, record};
use std::path::PathBuf;

fn stored(name: &str) -> Vec<u8> {
    let path = PathBuf::from(env!("CARGO_MANIFEST_DIR")).join("../tests").join(name);
    std::fs::read(path).expect(name)
}

fn readings() -> Vec<Reading> {
    Source(&stored("reading.list")).all(Reading::read).expect("a whole list")
}

fn requests() -> Vec<Requests> {
    Source(&stored("requests.list")).all(Requests::read).expect("a whole list")
}

fn number(answer: Result<(), check::Refusal>) -> u16 {
    answer.err().map_or(0, |r| r.number)
}

#[test]
fn reading_agrees() {
    for (n, case) in readings().iter().enumerate() {
        assert_eq!(number(check::module(&case.module).map(drop)), case.refusal, "item {n}");
    }
}

#[test]
fn requests_agree() {
    for (n, case) in requests().iter().enumerate() {
        let module = check::module(&case.module).unwrap_or_else(|r| panic!("item {n}: {}", r.reason));
        for (request, answer) in &case.requests {
            let found = match &record::records(request) {
                (found, []) if found.len() == 1 => number(check::request(&found[0], &module)),
                _ => 12,
            };
            let wanted = if matches!(answer.refusal, 11 | 12) { answer.refusal } else { 0 };
            assert_eq!(found, wanted, "item {n}");
        }
    }
}

#[test]
fn reports_agree() {
    let reports = Source(&stored("report.list")).all(Report::read).expect("a whole list");
    for (n, case) in reports.iter().enumerate() {
        let (module, rest) = case.input.split_at(record::split(&case.input));
        let one = matches!(record::records(rest), (found, []) if found.len() == 1);
        let found = match number(check::module(module).map(drop)) {
            0 if !one => 12,
            0 => number(check::file(&case.input)),
            number => number,
        };
        let refused = |number: u16| case.output == format!("refused {number}\n");
        let known = (1..=5).chain(11..=12).any(refused);
        assert!(if found == 0 { !known } else { refused(found) }, "item {n}");
    }
    let accepted = reports.iter().filter(|c| c.output.starts_with("required")).count();
    assert!(accepted > 50 && reports.len() > 150);
}

#[test]
fn every_file_has_a_listing() {
    let strings = readings().into_iter().map(|c| c.module);
    let files = requests().into_iter().map(|c| [c.module, c.requests.into_iter().flat_map(|r| r.0).collect()].concat());
    for (n, bytes) in strings.chain(files).enumerate() {
        let text = list::list(&bytes);
        let made = assemble::assemble(&text).unwrap_or_else(|f| panic!("item {n}, line {}: {}", f.line, f.reason));
        assert!(made.bytes == bytes, "item {n}");
    }
}

#[test]
fn read_modules_are_listed_by_kinds() {
    for case in readings().iter().filter(|c| c.refusal == 0) {
        let text = list::list(&case.module);
        assert!(!text.contains("record ") && !text.contains("bytes "), "{text}");
    }
}

#[test]
fn nothing_is_left_out() {
    let table = count::table(&readings(), &requests());
    assert!(!table.contains("| 0 "), "{table}");
    let readme = String::from_utf8(stored("README.md")).expect("text");
    assert!(readme.ends_with(&table), "tests/README.md has another table");
}
