//! Compares a check of reports with the second clearance's, on cases that are made anew.
use super::tally::Tally;
use super::{fresh, Case};
use crate::clearance::Verdict;
use crate::list::list;
use crate::random::Random;
use std::path::Path;
use std::time::{Duration, Instant};

/// What a check of a case answers, by its number; a message if it did what it may not.
pub type Check<'a> = &'a dyn Fn(&Case) -> Result<u64, String>;

/// Our own number, for needs that pass the working bound, which the second clearance does not know.
const OWN: Verdict = Verdict::Refused(26);
/// Differences that are written before the campaign ends.
const SHOWN: usize = 5;

struct Campaign<'a> {
    check: Check<'a>,
    folder: &'a Path,
    tally: Tally,
    models: usize,
    /// What the second clearance answers where the check answers 26.
    own: Tally,
    differences: Vec<String>,
    /// Spent in the check, and in the second clearance.
    checked: Duration,
    second: Duration,
}

/// At least `count` cases. The table of answers, and no difference; or the first differences, whose files are in the folder.
pub fn compare(seed: u64, count: usize, folder: &Path, check: Check) -> Result<String, String> {
    let (tally, own) = (Tally::default(), Tally::default());
    let (checked, second) = (Duration::ZERO, Duration::ZERO);
    let mut campaign = Campaign { check, folder, tally, models: 0, own, differences: Vec::new(), checked, second };
    let (mut random, start) = (Random::new(seed), Instant::now());
    while campaign.tally.cases < count && campaign.differences.len() < SHOWN {
        campaign.models += 1;
        for (author, case) in fresh::cases(&mut random)? {
            campaign.case(author, &case)?;
        }
        if campaign.models % 500 == 0 {
            eprint!("\r{} of {count}", campaign.tally.cases);
        }
    }
    eprintln!();
    let text = format!("seed: {seed}\n{}", campaign.lines(start.elapsed()));
    if campaign.differences.is_empty() {
        Ok(text)
    } else {
        Err(text)
    }
}

impl Campaign<'_> {
    fn case(&mut self, author: &'static str, case: &Case) -> Result<(), String> {
        let start = Instant::now();
        let wanted = case.answer();
        let between = Instant::now();
        let word = (self.check)(case);
        self.checked += between.elapsed();
        self.second += between - start;
        self.tally.add(author, &wanted);
        match word {
            Ok(word) if word == wanted.word() => Ok(()),
            Ok(word) if word == OWN.word() => {
                self.own.add(author, &wanted);
                Ok(())
            }
            Ok(word) => {
                let found = Verdict::of_word(word).map_or(format!("{word}, which is no answer"), |v| v.to_string());
                self.differ(case, &format!("{author}: the second clearance answers {wanted}, the library {found}"))
            }
            Err(reason) => self.differ(case, &format!("{author}: {reason}")),
        }
    }

    fn differ(&mut self, case: &Case, reason: &str) -> Result<(), String> {
        let name = self.folder.join(format!("difference-{}", self.differences.len()));
        let write = |end: &str, bytes: &[u8]| {
            let path = name.with_extension(end);
            std::fs::write(&path, bytes).map_err(|e| format!("{}: {e}", path.display()))
        };
        write("module", &case.module)?;
        write("request", &case.request)?;
        write("report", &case.report)?;
        write("context", &case.context)?;
        write("txt", format!("# {reason}\n{}", list(&[&case.module[..], &case.request].concat())).as_bytes())?;
        self.differences.push(format!("{reason} ({}.*)\n", name.display()));
        Ok(())
    }

    fn lines(&self, all: Duration) -> String {
        let each = |spent: Duration| spent.as_micros() as usize / self.tally.cases.max(1);
        let Campaign { models, tally, own, .. } = self;
        let mut text = format!("cases: {}, of {models} models, in {} s\n", tally.cases, all.as_secs());
        text += &format!("a case: {} µs in the check, {} µs in the second clearance\n", each(self.checked), each(self.second));
        text += &tally.table();
        if own.cases > 0 {
            text += &format!("26, our own number, instead of:\n{}", own.table());
        }
        match self.differences.len() {
            0 => text + "no difference\n",
            _ => text + &self.differences.concat(),
        }
    }
}

#[cfg(test)]
mod tests {
    use super::*;
    use crate::library::with_stack;

    #[test]
    fn differences_are_found() {
        with_stack(|| {
            let folder = std::env::temp_dir().join(format!("host-checks-{}", std::process::id()));
            std::fs::create_dir_all(&folder).unwrap();
            let same = compare(3, 300, &folder, &|case| Ok(case.answer().word())).expect("no difference");
            assert!(same.contains("no difference"), "{same}");
            let wrong = |case: &Case| {
                let answer = case.answer();
                Ok(if answer == Verdict::Start { 0 } else { answer.word() })
            };
            let found = compare(3, 300, &folder, &wrong).expect_err("differences");
            assert!(found.contains("the second clearance answers start, the library clear"), "{found}");
            assert!(["module", "request", "report", "context", "txt"]
                .iter()
                .all(|end| folder.join(format!("difference-0.{end}")).exists()));
            let own = compare(3, 300, &folder, &|_| Ok(OWN.word())).expect("a number of our own");
            assert!(own.contains("26, our own number, instead of:"));
            std::fs::remove_dir_all(&folder).unwrap();
        });
    }
}
