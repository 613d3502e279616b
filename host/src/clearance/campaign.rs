//! Many models, each with reports by every author: what the verdicts are, and pairs of runs on each report that is cleared.
use super::authors::{damaged, Asked, Report};
use super::pair::{self, Pairing, Pairs};
use super::plan::Plan;
use super::verdict::Verdict;
use super::wild;
use crate::list::list;
use crate::outline::Outline;
use crate::random::Random;
use crate::record::split;
use crate::vary::varied;
use crate::{limits, model, report_text};
use std::collections::BTreeMap;
use std::fmt::Write;

#[derive(Default)]
pub struct Campaign {
    pub models: usize,
    /// How often an author's reports got each kind of verdict.
    pub verdicts: BTreeMap<(&'static str, String), usize>,
    /// Of reports that are not cleared, how many a pair of runs refutes.
    pub refuted: BTreeMap<&'static str, usize>,
    pub pairs: Pairs,
}

/// Copies of each author's report that are damaged.
const DAMAGED: usize = 4;
/// Pairs of inputs for each cleared report, and for each that is not.
const INPUTS: usize = 8;
const TRIES: usize = 2;

/// Casting models, most often small ones, and wild functions, until so many pairs of runs were compared.
pub fn run(seed: u64, count: usize) -> Result<String, String> {
    let mut random = Random::new(seed);
    let start = std::time::Instant::now();
    let [mut models, mut functions, mut others] = [(); 3].map(|()| Campaign::default());
    while models.pairs.same + functions.pairs.same + others.pairs.same < count {
        if random.chance(15) {
            models.model(&casting(&mut random)?, INPUTS, &mut random)?;
        }
        let function = wild::generate(random.between(1, 20), random.bits());
        functions.model(&function, INPUTS, &mut random)?;
        if random.chance(30) {
            others.model(&varied_file(&function, &mut random), INPUTS, &mut random)?;
        }
    }
    let all = models.pairs.same + functions.pairs.same + others.pairs.same;
    let seconds = start.elapsed().as_secs_f64();
    let head = format!("seed: {seed}\nseconds: {seconds:.0}\npairs: {all}, a second: {:.0}\n", all as f64 / seconds);
    Ok(format!("{head}casting models\n{}wild functions\n{}varied ones\n{}", models.lines(), functions.lines(), others.lines()))
}

/// A casting model, most often a small one.
pub fn casting(random: &mut Random) -> Result<Vec<u8>, String> {
    let size = if random.chance(95) { random.between(model::LEAST, 120) } else { random.between(120, limits::STATEMENTS) };
    model::generate(size, random.bits())
}

/// The file with some of its expressions and statements varied, judged or not.
pub fn varied_file(file: &[u8], random: &mut Random) -> Vec<u8> {
    let (module, requests) = file.split_at(split(file));
    [&varied(module, &Outline::of(module), random), requests].concat()
}

impl Campaign {
    /// One model with its first request; the message of a difference has its listing.
    pub fn model(&mut self, file: &[u8], inputs: usize, random: &mut Random) -> Result<(), String> {
        let asked = Asked::of(file).ok_or_else(|| format!("no request that fits:\n{}", list(file)))?;
        self.models += 1;
        let walked = asked.of_walk()?;
        if walked.is_none() {
            self.count("walk", "request refused");
        }
        let judged = asked.is_judged();
        let mut reports: Vec<(&'static str, Report)> = walked.into_iter().map(|r| ("walk", r)).collect();
        if judged {
            reports.extend([("all marked", asked.all_marked()), ("grown", asked.grown())]);
        }
        let plan = (judged && pair::is_small(&asked)).then(|| Plan::of(&asked.module, asked.function()));
        for (author, report) in &reports {
            self.report(&asked, plan.as_ref(), (author, report), inputs, random)?;
            for _ in 0..DAMAGED {
                self.report(&asked, plan.as_ref(), ("damaged", &damaged(report, random)), inputs, random)?;
            }
        }
        Ok(())
    }

    fn count(&mut self, author: &'static str, word: &str) {
        *self.verdicts.entry((author, word.into())).or_default() += 1;
    }

    fn report(
        &mut self,
        asked: &Asked,
        plan: Option<&Plan>,
        (author, report): (&'static str, &Report),
        inputs: usize,
        random: &mut Random,
    ) -> Result<(), String> {
        let verdict = asked.judge(report).verdict;
        self.count(author, &verdict.sort());
        let Some(plan) = plan else { return Ok(()) };
        let pairing = Pairing::of(asked, plan, report);
        match verdict {
            Verdict::Clear => {
                for _ in 0..inputs {
                    self.pairs += pairing.compare(random).map_err(|reason| difference(asked, author, report, &reason))?;
                }
            }
            Verdict::Statement(_) | Verdict::Start => {
                let differs = (0..TRIES).any(|_| pairing.compare(random).is_err());
                *self.refuted.entry(author).or_default() += usize::from(differs);
            }
            Verdict::Unjudged(_) | Verdict::Refused(_) => {}
        }
        Ok(())
    }

    pub fn lines(&self) -> String {
        let mut text = format!("models: {}\n", self.models);
        for ((author, word), count) in &self.verdicts {
            writeln!(text, "{author}, {word}: {count}").expect("text");
        }
        for (author, count) in &self.refuted {
            writeln!(text, "{author}, not cleared and refuted by a pair of runs: {count}").expect("text");
        }
        let Pairs { same, skipped, apart } = self.pairs;
        text + &format!("pairs of runs: {same}, of these apart in other outputs: {apart}, a run does not end: {skipped}\n")
    }
}

fn difference(asked: &Asked, author: &str, report: &Report, reason: &str) -> String {
    format!("{author}: {reason}\n{}{}", list(&asked.bytes), report_text::show(asked, report))
}
