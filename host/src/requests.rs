//! Compares the library's answers to requests with the oracle's, on cases that are made anew.
use crate::fresh::{case, Case, Sources};
use crate::lent::{Lent, Served};
use crate::library::{self, Reply};
use crate::oracle::{self, Answer, Outcome};
use crate::outline::Outline;
use crate::probe::{probe, Asked};
use crate::raise::raised;
use crate::random::Random;
use crate::reached::Reached;
use crate::record::fields;
use crate::{limits, list, replay};

/// How many modules the oracle is asked at once.
const BATCH: usize = 400;
/// How many requests of a hundred are asked with other buffers too.
const PROBED: usize = 8;
/// How many accepted requests of a hundred are asked again at the limit of pieces, or near it.
const RAISED: usize = 3;
/// A source whose requests take more visits than this is drawn seldom.
const LIGHT: u32 = 5_000;

/// Asks `count` requests or a few more. The oracle answers a batch while the library does.
pub fn compare(program: &str, seed: u64, count: usize, files: &[Vec<u8>]) -> Result<Reached, String> {
    if files.is_empty() {
        return Err("no source".into());
    }
    let mut random = Random::new(seed);
    let mut sources = Sources { files, light: Vec::new() };
    let (mut reached, mut drawn, mut cases) = (Reached::default(), 0, Vec::new());
    while reached.requests < count {
        cases.extend((drawn..drawn + BATCH).map(|n| case(&sources, n, &mut random)));
        drawn += BATCH;
        let outcomes = batch(program, &cases, &mut random, &mut reached)
            .map_err(|(n, reason)| format!("seed {seed}: {reason}\n{}", list::list(&file(&cases[n]))))?;
        let light = cases.iter().zip(&outcomes).filter(|(_, outcome)| visits(outcome) <= LIGHT);
        sources.light.extend(light.filter_map(|(case, _)| case.source));
        cases = cases.iter().zip(&outcomes).flat_map(|(c, outcome)| raises(c, outcome, &mut random)).collect();
        eprint!("\r{} of {count}", reached.requests);
    }
    eprintln!();
    Ok(reached)
}

/// The oracle's outcomes where the library's are the same; else the case and what differs.
fn batch(program: &str, cases: &[Case], random: &mut Random, reached: &mut Reached) -> Result<Vec<Outcome>, (usize, String)> {
    let files: Vec<Vec<u8>> = cases.iter().map(file).collect();
    let (outcomes, served) = std::thread::scope(|scope| {
        let oracle = scope.spawn(|| oracle::outcomes(program, &files));
        let served = library::with_stack(|| cases.iter().map(|c| serve(c, random, reached)).collect::<Vec<_>>());
        (oracle.join().expect("no panic"), served)
    });
    let outcomes = outcomes.map_err(|reason| (0, reason))?;
    for (n, (outcome, served)) in outcomes.iter().zip(served).enumerate() {
        served.and_then(|served| same(&cases[n], outcome, &served, reached)).map_err(|reason| (n, reason))?;
        reached.modules += 1;
    }
    Ok(outcomes)
}

/// Some accepted requests again, with a total before them that brings them to the limit of pieces, one past it, or anywhere between.
fn raises(case: &Case, outcome: &Outcome, random: &mut Random) -> Vec<Case> {
    let (Outcome::Answers(answers), Some(outline)) = (outcome, &case.outline) else { return Vec::new() };
    let mut found = Vec::new();
    for (n, answer) in answers.iter().enumerate().filter(|(_, a)| a.refusal == 0) {
        let (peak, more) = (answer.peak as usize, [0, 1, random.below(answer.peak as usize + 1)]);
        if random.chance(RAISED) && answer.visits <= LIGHT {
            let total = limits::PIECES - peak + random.pick(&more);
            found.extend(raised(&case.module, outline, &case.requests[..=n], total));
        }
    }
    found
}

fn visits(outcome: &Outcome) -> u32 {
    match outcome {
        Outcome::Refused(_) => 0,
        Outcome::Answers(answers) => answers.iter().map(|a| a.visits).sum(),
    }
}

/// The file that the oracle is asked: requests after a module that is read, none after one that is not. What is no record by its length
/// would take others' bytes with it; in its place stands a request that is malformed as well.
fn file(case: &Case) -> Vec<u8> {
    if case.outline.is_none() {
        return oracle::without_requests(&case.module);
    }
    let whole = |r: &Vec<u8>| r.len() >= 4 && r.starts_with(b"RQ") && usize::from(fields(&r[2..4])[0]) + 4 == r.len();
    let sent = case.requests.iter().map(|r| if whole(r) { r.clone() } else { b"RQ\0\0".to_vec() });
    [vec![case.module.clone()], sent.collect()].concat().concat()
}

/// The library's answers, one after the other, with a probe now and then.
fn serve(case: &Case, random: &mut Random, reached: &mut Reached) -> Result<Vec<Served>, String> {
    let none = Outline::default();
    let outline = case.outline.as_ref().unwrap_or(&none);
    let mut lent = Lent::with_report(limits::REPORT);
    let mut found = Vec::new();
    for request in &case.requests {
        let before = random.chance(PROBED).then(|| lent.clone());
        let served = lent.serve(&case.module, outline, request)?;
        if let Some(before) = &before {
            let asked = Asked { module: &case.module, outline, request, before, served: &served };
            *reached.probes.entry(probe(&asked, random)?).or_default() += 1;
        }
        found.push(served);
    }
    Ok(found)
}

fn same(case: &Case, outcome: &Outcome, served: &[Served], reached: &mut Reached) -> Result<(), String> {
    match (outcome, &case.outline) {
        (Outcome::Answers(answers), Some(outline)) if answers.len() == served.len() => {
            reached.kinds.add(&case.module);
            same_answers(case, outline, answers, served, reached)
        }
        (Outcome::Refused(number), None) => same_refusals(*number, served, reached),
        _ => Err("the oracle reads the module otherwise than this program".into()),
    }
}

fn same_answers(case: &Case, outline: &Outline, answers: &[Answer], served: &[Served], reached: &mut Reached) -> Result<(), String> {
    let mut totals = String::new();
    for (n, ((request, answer), served)) in case.requests.iter().zip(answers).zip(served).enumerate() {
        replay::same(outline, request, answer, served, &mut totals).map_err(|reason| format!("request {n}: {reason}"))?;
        reached.answer(outline, answer);
        if let Some(written) = &served.written {
            reached.written(outline, fields(&request[4..])[0] as usize, written);
        }
    }
    Ok(())
}

/// Reading's refusal answers every request.
fn same_refusals(number: u16, served: &[Served], reached: &mut Reached) -> Result<(), String> {
    let wanted = Reply::Refused { number: u32::from(number), place: None };
    for served in served {
        if served.reply != wanted {
            return Err(format!("the oracle's reading answers {number}, the library {:?}", served.reply));
        }
        reached.requests += 1;
        *reached.answers.entry(number).or_default() += 1;
    }
    Ok(())
}
