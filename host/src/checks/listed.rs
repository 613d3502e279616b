//! Makes the stored list of checks: cases of every answer, with the second clearance's own.
use super::{corners, fresh, Case};
use crate::assemble::assemble;
use crate::clearance::Verdict;
use crate::random::Random;
use crate::stored::{Check, Checks};
use std::collections::BTreeMap;

/// How many cases of an answer are kept of those that are drawn.
const KEPT: [(&str, usize); 16] = [
    ("clear", 70),
    ("start", 60),
    ("stmt", 60),
    ("unjudged expr", 40),
    ("unjudged stmt", 40),
    ("refused 1", 1),
    ("refused 2", 10),
    ("refused 3", 10),
    ("refused 4", 10),
    ("refused 5", 15),
    ("refused 11", 20),
    ("refused 12", 30),
    ("refused 15", 20),
    ("refused 16", 10),
    ("refused 21", 25),
    ("refused 26", 0),
];
/// Longer cases are not kept, but for a module that is too long.
const LONGEST: usize = 9_000;
const SEED: u64 = 20;

/// Our own number: the loops' needs pass the working bound, though the smallest needs would be 15.
const OWN: u32 = 26;
const LOOPS: usize = 480;

/// 01's cases A and J, as it lists their types.
const CASE_A: &str = "type Scalar\ntype Vector 3\nfn function 0 -\narg 1 -\nlocal 1\nexpr 1 FunctionArgument 0\nexpr 1 LocalVariable 0\n\
                      expr 1 Load 1\nexpr 0 AccessIndex 2 1\nblock\nstmt Store 1 0\nstmt Emit 2 3\nstmt Return 3\nrequest 0 all\n";
const CASE_J: &str = "type Scalar\nglobal 0\nfn function - -\narg 0 -\narg 0 -\narg 0 -\nexpr 0 FunctionArgument 0\n\
                      expr 0 FunctionArgument 1\nexpr 0 FunctionArgument 2\nexpr 0 GlobalVariable 0\nblock\nstmt Return -\nblock\nblock\n\
                      stmt Store 3 0\nstmt If 1 0 1\nstmt Store 3 2\nrequest 0 none 0=all\n";

pub fn list() -> Result<Vec<u8>, String> {
    let mut random = Random::new(SEED);
    let mut list = List { left: KEPT.into_iter().collect(), items: Vec::new() };
    for file in small() {
        fresh::of_file(&file, &mut random)?.into_iter().for_each(|(_, case)| list.add(&case));
    }
    while list.left.values().any(|n| *n > 0) {
        fresh::cases(&mut random)?.iter().for_each(|(_, case)| list.keep(case));
    }
    list.add_own(&mut random)?;
    let mut out = Vec::new();
    list.items.iter().for_each(|item| item.write(&mut out));
    Ok(out)
}

/// Those that are kept whole.
fn small() -> Vec<Vec<u8>> {
    let written = [CASE_A, CASE_J].map(|text| assemble(text).expect("a right listing").bytes);
    let corners = [
        corners::sum(16),
        corners::sum(17),
        corners::nested(8),
        corners::nested(9),
        corners::chosen(30, 1),
        corners::chosen(30, 2),
        corners::turns(16, false),
        corners::turns(17, false),
        corners::turns(17, true),
        corners::column(6),
        corners::column(7),
    ];
    written.into_iter().chain(corners).collect()
}

struct List {
    /// How many of each answer are still to be kept.
    left: BTreeMap<&'static str, usize>,
    items: Vec<Checks>,
}

impl List {
    /// Kept if it is not too long and there are not enough of its answer.
    fn keep(&mut self, case: &Case) {
        let answer = case.answer();
        let long = case.module.len() + case.request.len() + case.context.len() > LONGEST;
        let left = self.left.get_mut(answer.sort().as_str()).filter(|n| **n > 0);
        if let Some(left) = left.filter(|_| !long || answer == Verdict::Refused(1)) {
            *left -= 1;
            self.push(case, &answer);
        }
    }

    fn add(&mut self, case: &Case) {
        self.push(case, &case.answer());
    }

    fn push(&mut self, case: &Case, answer: &Verdict) {
        let Case { module, request, report, context } = case.clone();
        let check = Check { request, report, context, answer: answer.word() };
        match self.items.iter_mut().find(|item| item.module == module) {
            Some(item) => item.checks.push(check),
            None => self.items.push(Checks { module, checks: vec![check] }),
        }
    }

    fn add_own(&mut self, random: &mut Random) -> Result<(), String> {
        let cases = fresh::of_file(&corners::loops(LOOPS), random)?;
        let marked = cases.iter().find(|(author, _)| *author == "all marked").ok_or("the loops are not judged")?;
        self.push(&marked.1, &Verdict::Refused(OWN));
        Ok(())
    }
}
