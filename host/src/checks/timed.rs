//! Times the check of reports: of models beside their walk, and on the worst inputs.
use super::compare::Check;
use super::worst::{self, Named};
use super::Case;
use crate::clearance::authors::{Asked, Report};
use crate::clearance::Verdict;
use crate::{library, model};
use std::time::Instant;

/// A figure is the median of so many calls, or of fewer where they take longer than this together.
const CALLS: usize = 101;
const NANOSECONDS: u128 = 2_000_000_000;
/// The seed of a model on which the walk settles even where all of it stands in loops.
const SETTLES: u64 = 3;

/// Two tables. `walk` is one request of the library with buffers that are ready.
pub fn timed(check: Check, walk: &dyn Fn(&Asked)) -> Result<String, String> {
    let mut text = String::from("| model | statements | request | check, the walk's report | answer | check, all marked | answer |\n|---|---|---|---|---|---|---|\n");
    for (name, file) in models()? {
        text += &model_row(&name, &file, check, walk)?;
    }
    text += "\n| worst inputs | statements | check | answer | second clearance |\n|---|---|---|---|---|\n";
    for input in worst::all() {
        text += &worst_row(&input, check)?;
    }
    Ok(text)
}

fn models() -> Result<Vec<(String, Vec<u8>)>, String> {
    let mut found = Vec::new();
    for size in [40, 200, 600, 1024] {
        found.push((format!("model of {size} statements"), model::generate(size, 1)?));
    }
    for depth in [1, 5] {
        found.push((format!("model of 1024 statements, in {depth} loops"), worst::in_loops(1024, depth, SETTLES)?));
    }
    Ok(found)
}

fn model_row(name: &str, file: &[u8], check: Check, walk: &dyn Fn(&Asked)) -> Result<String, String> {
    let asked = Asked::of(file).ok_or("a model has no request that fits")?;
    let own = asked.of_walk()?;
    let walked = median(|| walk(&asked));
    let mut cells = vec![name.to_string(), asked.function().statements.len().to_string(), micro(walked)];
    for report in [own, Some(asked.all_marked())] {
        cells.extend(report.map_or(Ok(["-".into(), "the request is refused".into()]), |r| checked(&asked, &r, check))?);
    }
    Ok(format!("| {} |\n", cells.join(" | ")))
}

/// The time of a check, and its answer.
fn checked(asked: &Asked, report: &Report, check: Check) -> Result<[String; 2], String> {
    let case = Case::of(asked, report);
    let answer = answer(check(&case)?);
    Ok([micro(median(|| drop(std::hint::black_box(check(&case))))), answer])
}

fn worst_row(input: &Named, check: Check) -> Result<String, String> {
    let case = input.case();
    let answer = answer(check(&case)?);
    let time = median(|| drop(std::hint::black_box(check(&case))));
    let start = Instant::now();
    let second = case.answer();
    let second = format!("{} ({second})", micro(start.elapsed().as_nanos()));
    let cells = [input.name.clone(), input.asked.function().statements.len().to_string(), micro(time), answer, second];
    Ok(format!("| {} |\n", cells.join(" | ")))
}

fn answer(word: u64) -> String {
    Verdict::of_word(word).map_or(format!("{word}, which is no answer"), |v| v.to_string())
}

fn micro(nanoseconds: u128) -> String {
    format!("{:.1} µs", nanoseconds as f64 / 1000.0)
}

fn median(mut call: impl FnMut()) -> u128 {
    let mut times = Vec::new();
    while times.len() < CALLS && (times.is_empty() || times.iter().sum::<u128>() < NANOSECONDS) {
        let start = Instant::now();
        call();
        times.push(start.elapsed().as_nanos());
    }
    times.sort_unstable();
    times[times.len() / 2]
}

/// A request of the library with buffers that are ready, as it is timed.
pub fn walk(lent: &mut crate::lent::Lent, asked: &Asked) {
    lent.pruner.lent()[..2].fill(0);
    let reply = library::request(&asked.bytes, &asked.record, lent.pruner.lent(), lent.report.lent(), lent.answer.lent());
    std::hint::black_box(reply);
}
