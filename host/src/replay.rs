//! A module's requests asked of the library, one after the other over one pruner, and held against the oracle's answers: lines, marks,
//! totals, visits, the refusal and its place, and every byte of the buffers.
use crate::lent::{Lent, Served};
use crate::library::Reply;
use crate::oracle::Answer;
use crate::outline::Outline;
use crate::record::fields;
use crate::stored::Requests;

/// A message where the library answers otherwise.
pub fn replay(case: &Requests) -> Result<(), String> {
    let outline = Outline::of(&case.module);
    let mut lent = Lent::with_report(case.buffer as usize);
    let mut totals = String::new();
    for (n, (request, answer)) in case.requests.iter().enumerate() {
        let place = |reason: String| format!("request {n}: {reason}");
        let served = lent.serve(&case.module, &outline, request).map_err(place)?;
        same(&outline, request, answer, &served, &mut totals).map_err(place)?;
    }
    Ok(())
}

/// Whether an answer is the oracle's, where `totals` are those before it; then they are those after it.
pub fn same(outline: &Outline, request: &[u8], answer: &Answer, served: &Served, totals: &mut String) -> Result<(), String> {
    if !agrees(answer, served.reply) {
        let (number, visits) = (answer.refusal, answer.visits);
        return Err(format!("the oracle answers {number} at {:?} in {visits} visits, the library {:?}", answer.place, served.reply));
    }
    if let Some(written) = &served.written {
        let function = fields(&request[4..])[0] as usize;
        let marks = &written.marks[outline.stretch(function)];
        let report = written.reported.lines() + &outline.functions[function].lines(marks);
        equal_lines("the report", &answer.report, &report)?;
        equal("visits in the answer", &answer.visits, &written.reported.visits)?;
        equal("marks", &answer.marks, &written.marks)?;
        *totals = written.totals.lines(outline);
    }
    equal_lines("the totals", &answer.totals, totals)
}

fn equal<T: PartialEq + std::fmt::Debug>(what: &str, oracle: &T, library: &T) -> Result<(), String> {
    if oracle == library {
        return Ok(());
    }
    Err(format!("{what}: the oracle has {oracle:?}, the library {library:?}"))
}

/// Texts by their first lines that differ.
fn equal_lines(what: &str, oracle: &str, library: &str) -> Result<(), String> {
    let at = oracle.lines().zip(library.lines()).take_while(|(a, b)| a == b).count();
    let place = format!("line {} of {what}", at + 1);
    equal(&place, &oracle.lines().nth(at), &library.lines().nth(at))
}

/// Whether the reply is the oracle's. 17 has another place: the oracle names the innermost visit that is open, the library the one that
/// does not begin.
fn agrees(answer: &Answer, reply: Reply) -> bool {
    match (answer.refusal, reply) {
        (0, _) => reply == Reply::Visited(answer.visits),
        (17, Reply::Refused { number: 17, place }) => place.is_some(),
        (number, _) => reply == Reply::Refused { number: u32::from(number), place: answer.place },
    }
}
