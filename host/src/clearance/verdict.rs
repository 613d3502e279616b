//! What the clearance answers.
use super::function::Module;
use super::judged::{unjudged, Item};
use super::walk::Walk;
use crate::check;
use crate::context::Context;
use crate::outline::Outline;
use crate::record::{self, records, Cursor};
use crate::request::Request;
use std::fmt;

#[derive(Clone, PartialEq, Eq, Debug)]
pub enum Verdict {
    Clear,
    Statement(usize),
    Start,
    Unjudged(Item),
    Refused(u32),
}

impl fmt::Display for Verdict {
    fn fmt(&self, f: &mut fmt::Formatter) -> fmt::Result {
        match self {
            Verdict::Clear => f.write_str("clear"),
            Verdict::Statement(s) => write!(f, "stmt {s}"),
            Verdict::Start => f.write_str("start"),
            Verdict::Unjudged(Item::Expression(e)) => write!(f, "unjudged expr {e}"),
            Verdict::Unjudged(Item::Statement(s)) => write!(f, "unjudged stmt {s}"),
            Verdict::Refused(number) => write!(f, "refused {number}"),
        }
    }
}

/// Where a verdict's number says what it names, and where a refusal stands.
const STATEMENT: u64 = 2 << 16;
const UNJUDGED_EXPRESSION: u64 = 3 << 16;
const UNJUDGED_STATEMENT: u64 = 4 << 16;
const REFUSED: u64 = 1 << 32;

impl Verdict {
    /// The number that means it across the C boundary.
    pub fn word(&self) -> u64 {
        match *self {
            Verdict::Clear => 0,
            Verdict::Start => 1,
            Verdict::Statement(s) => STATEMENT + s as u64,
            Verdict::Unjudged(Item::Expression(e)) => UNJUDGED_EXPRESSION + e as u64,
            Verdict::Unjudged(Item::Statement(s)) => UNJUDGED_STATEMENT + s as u64,
            Verdict::Refused(number) => REFUSED * u64::from(number),
        }
    }

    /// What a number means, if it means a verdict.
    pub fn of_word(word: u64) -> Option<Verdict> {
        let number = (word % (1 << 16)) as usize;
        let verdict = match word - number as u64 {
            0 if word == 0 => Verdict::Clear,
            0 => Verdict::Start,
            STATEMENT => Verdict::Statement(number),
            UNJUDGED_EXPRESSION => Verdict::Unjudged(Item::Expression(number)),
            UNJUDGED_STATEMENT => Verdict::Unjudged(Item::Statement(number)),
            _ => Verdict::Refused((word / REFUSED) as u32),
        };
        (verdict.word() == word && verdict != Verdict::Refused(0)).then_some(verdict)
    }

    /// Without the number that it names; a refusal keeps its own.
    pub fn sort(&self) -> String {
        match self {
            Verdict::Statement(_) => "stmt".into(),
            Verdict::Unjudged(Item::Expression(_)) => "unjudged expr".into(),
            Verdict::Unjudged(Item::Statement(_)) => "unjudged stmt".into(),
            other => other.to_string(),
        }
    }
}

/// A verdict with all that is missing: marks, by statement ascending, then what the context lacks at the start.
#[derive(Clone, PartialEq, Eq, Debug)]
pub struct Judgement {
    pub verdict: Verdict,
    pub missing: Vec<Missing>,
}

/// A mark of a statement, or without one something at the start.
#[derive(Clone, PartialEq, Eq, Debug)]
pub struct Missing {
    pub statement: Option<usize>,
    /// What an emit is to give.
    pub expression: Option<usize>,
    pub reason: String,
}

impl From<Verdict> for Judgement {
    fn from(verdict: Verdict) -> Judgement {
        Judgement { verdict, missing: Vec::new() }
    }
}

/// Of bytes, as the library takes them: a module, a request's record, the whole report buffer, a context's record.
pub fn answer(module: &[u8], request: &[u8], report: &[u8], context: &[u8]) -> Verdict {
    let refused = |number: u16| Verdict::Refused(u32::from(number));
    let known = match check::module(module) {
        Ok(known) => known,
        Err(refusal) => return refused(refusal.number),
    };
    let asked = one_record(request).ok_or(12).and_then(|r| check::request(&r, &known).map_err(|refusal| refusal.number));
    let outline = Outline::of(module);
    let context = read_context(context);
    match (asked, &context) {
        (Err(12), _) | (_, None) => return refused(12),
        (Err(number), _) => return refused(number),
        (Ok(()), Some(_)) => {}
    }
    let request = one_record(request).and_then(|r| Request::read(&record::fields(r.body)));
    let (Some(request), Some(context)) = (request, context) else { return refused(12) };
    if !context.fits(&outline, &outline.functions[request.function as usize]) {
        return refused(11);
    }
    verdict(&outline, &Module::of(module), &request, report, &context).verdict
}

/// The record that these bytes are, and nothing else.
fn one_record(bytes: &[u8]) -> Option<record::Record<'_>> {
    let (found, rest) = records(bytes);
    let mut found = found.into_iter();
    let first = found.next()?;
    (rest.is_empty() && found.next().is_none()).then_some(first)
}

/// A context whose parts are within the limits and whose variables ascend.
fn read_context(bytes: &[u8]) -> Option<Context> {
    let fields = record::read_long(*b"CX", bytes)?;
    let mut cursor = Cursor::new(&fields);
    let context = Context::read(&mut cursor)?;
    let lists = [&context.globals, &context.arguments, &context.locals];
    let within = |parts: &&crate::part::Parts| crate::part::fits(parts, usize::MAX);
    let whole = bytes.len() == 6 + 2 * fields.len() && cursor.left() == 0;
    (whole && context.retval.fault(0, true).is_none() && lists.iter().all(within)).then_some(context)
}

/// Of a module that is read, a request and a context that fit it, and a report buffer: the marks of all functions.
pub fn verdict(outline: &Outline, module: &Module, request: &Request, report: &[u8], context: &Context) -> Judgement {
    let number = request.function as usize;
    let stretch = report.get(outline.stretch(number)).filter(|marks| marks.iter().all(|m| *m <= 1));
    let Some(marks) = stretch else { return Verdict::Refused(21).into() };
    if let Some(item) = unjudged(module, &module.functions[number]) {
        return Verdict::Unjudged(item).into();
    }
    let mut walk = Walk::new(module, request, outline.functions[number].own(marks));
    walk.rounds();
    let refusals = [(walk.found.given_up, 26), (walk.found.deep, 15), (walk.found.many, 16)];
    if let Some((_, number)) = refusals.into_iter().find(|r| r.0) {
        return Verdict::Refused(number).into();
    }
    let missing: Vec<Missing> = walk.missing_marks().chain(walk.missing_inputs(&context.globals, &context.arguments)).collect();
    let verdict = match missing.first() {
        Some(Missing { statement: Some(s), .. }) => Verdict::Statement(*s),
        Some(_) => Verdict::Start,
        None => Verdict::Clear,
    };
    Judgement { verdict, missing }
}

#[cfg(test)]
mod tests {
    use super::*;

    #[test]
    fn numbers_mean_verdicts() {
        let items = [Item::Expression(1023), Item::Statement(0)].map(Verdict::Unjudged);
        let others =
            [Verdict::Clear, Verdict::Start, Verdict::Statement(0), Verdict::Statement(1023), Verdict::Refused(1), Verdict::Refused(26)];
        for verdict in items.into_iter().chain(others) {
            assert_eq!(Verdict::of_word(verdict.word()), Some(verdict));
        }
        assert_eq!((Verdict::Statement(7).word(), Verdict::Refused(21).word()), (131_079, 21 << 32));
        for word in [2, 65_536, 131_071, 5 << 16, (1 << 32) - 1, (21 << 32) + 1] {
            assert_eq!(Verdict::of_word(word), None, "{word}");
        }
    }
}
