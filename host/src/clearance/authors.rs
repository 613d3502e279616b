//! Reports by several authors: the walk's own, all marked, marks grown from none, damaged ones.
use super::function::Module;
use super::judged::unjudged;
use super::needs::Key;
use super::verdict::{verdict, Judgement};
use super::walk::Walk;
use crate::check;
use crate::context::Context;
use crate::lent::Lent;
use crate::limits;
use crate::outline::Outline;
use crate::part::{Part, Parts};
use crate::random::Random;
use crate::record::{fields, records, split, write};
use crate::request::Request;

/// A module with a request, in every form that is needed here.
pub struct Asked {
    pub bytes: Vec<u8>,
    pub record: Vec<u8>,
    pub outline: Outline,
    pub module: Module,
    pub request: Request,
}

/// Marks and input context, from anyone.
#[derive(Clone, PartialEq, Eq, Debug)]
pub struct Report {
    /// The marks of all functions.
    pub marks: Vec<u8>,
    pub context: Context,
}

impl Asked {
    /// A file's module, which reading accepts, and its first request, which fits.
    pub fn of(file: &[u8]) -> Option<Asked> {
        let (bytes, rest) = file.split_at(split(file));
        let first = records(rest).0.into_iter().next()?;
        Asked::asking(bytes, Request::read(&fields(first.body))?).ok()
    }

    /// A module that reading accepts with a request that fits it, or why not.
    pub fn asking(bytes: &[u8], request: Request) -> Result<Asked, String> {
        let refused = |r: check::Refusal| format!("refused {}: {}", r.number, r.reason);
        let known = check::module(bytes).map_err(refused)?;
        let record = write(*b"RQ", &request.fields()).ok_or("the request is too long")?;
        check::request(&records(&record).0[0], &known).map_err(refused)?;
        Ok(Asked { bytes: bytes.to_vec(), record, outline: Outline::of(bytes), module: Module::of(bytes), request })
    }

    fn number(&self) -> usize {
        self.request.function as usize
    }

    pub fn function(&self) -> &super::function::Function {
        &self.module.functions[self.number()]
    }

    pub fn is_judged(&self) -> bool {
        unjudged(&self.module, self.function()).is_none()
    }

    pub fn judge(&self, report: &Report) -> Judgement {
        verdict(&self.outline, &self.module, &self.request, &report.marks, &report.context)
    }

    /// The asked function's marks, by statement.
    pub fn own<'a>(&self, marks: &'a [u8]) -> Vec<&'a [u8]> {
        self.outline.functions[self.number()].own(&marks[self.outline.stretch(self.number())])
    }

    /// The library's report; nothing if it refuses the request.
    pub fn of_walk(&self) -> Result<Option<Report>, String> {
        let served = Lent::with_report(limits::REPORT).serve(&self.bytes, &self.outline, &self.record)?;
        Ok(served.written.map(|w| Report { marks: w.marks, context: w.reported.context }))
    }

    /// Every statement marked, with the needs at the start as context.
    pub fn all_marked(&self) -> Report {
        let marks = vec![1; self.outline.marks()];
        let context = self.walked(&marks).1;
        Report { marks, context }
    }

    /// From none: each walk adds all marks whose lack breaks a rule, until none does.
    pub fn grown(&self) -> Report {
        let mut marks = vec![0; self.outline.marks()];
        loop {
            let (lacking, context) = self.walked(&marks);
            if lacking.is_empty() {
                return Report { marks, context };
            }
            lacking.into_iter().for_each(|m| marks[m] = 1);
        }
    }

    /// The marks that are lacking, as places in the report, and the needs at the start.
    fn walked(&self, marks: &[u8]) -> (Vec<usize>, Context) {
        let mut walk = Walk::new(&self.module, &self.request, self.own(marks));
        walk.rounds();
        let from = self.outline.stretch(self.number()).start;
        let statements = &self.outline.functions[self.number()].statements;
        let place = |s: usize, mark: usize| from + mark + statements[..s].iter().map(|s| s.marks()).sum::<usize>();
        let lacking = walk.found.lacks.iter().map(|l| place(l.statement, l.mark)).collect();
        let limited = walk.found.deep || walk.found.many;
        let parts = |of| if limited { Vec::new() } else { walk.start_parts(of) };
        let context =
            Context { retval: self.request.retval.clone(), globals: parts(global_of), arguments: parts(argument_of), locals: Vec::new() };
        (lacking, context)
    }
}

fn global_of(key: Key) -> Option<u16> {
    match key {
        Key::Global(g) => Some(g),
        _ => None,
    }
}

fn argument_of(key: Key) -> Option<u16> {
    match key {
        Key::Argument(a) => Some(a),
        _ => None,
    }
}

/// A report with a few marks turned, or parts of its context less.
pub fn damaged(report: &Report, random: &mut Random) -> Report {
    let mut copy = report.clone();
    for _ in 0..random.between(1, 3) {
        match random.below(3) {
            0 => lessen_one(&mut copy.context.globals, random),
            1 => lessen_one(&mut copy.context.arguments, random),
            _ if copy.marks.is_empty() => {}
            _ => {
                let at = random.below(copy.marks.len());
                copy.marks[at] ^= 1;
            }
        }
    }
    copy
}

fn lessen_one(parts: &mut Parts, random: &mut Random) {
    if parts.is_empty() {
        return;
    }
    let at = random.below(parts.len());
    match &mut parts[at].1 {
        Part::Entries(inner) if !inner.is_empty() && random.chance(75) => lessen_one(inner, random),
        part if random.chance(50) => *part = Part::Exist,
        _ => drop(parts.remove(at)),
    }
}
