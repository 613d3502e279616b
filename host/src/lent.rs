//! The three buffers that a request is lent, and what a call may do to them: nothing where it refuses, and else only what its records
//! and marks take from the front on.
use crate::library::{self, Reply};
use crate::limits;
use crate::outline::Outline;
use crate::record::fields;
use crate::reported::Reported;
use crate::totals::Totals;

/// Bytes on both sides of what is lent.
const GUARD: usize = 16;
/// What stands in every byte at first.
const JUNK: u8 = 0xa5;

#[derive(Clone, PartialEq, Eq)]
pub struct Buffer(Vec<u8>);

impl Buffer {
    pub fn new(length: usize) -> Buffer {
        Buffer(vec![JUNK; length + 2 * GUARD])
    }

    pub fn lent(&mut self) -> &mut [u8] {
        let end = self.0.len() - GUARD;
        &mut self.0[GUARD..end]
    }

    pub fn bytes(&self) -> &[u8] {
        &self.0[GUARD..self.0.len() - GUARD]
    }

    /// One of only so many of its bytes.
    pub fn cut(&self, length: usize) -> Buffer {
        let mut shorter = Buffer::new(length);
        shorter.lent().copy_from_slice(&self.bytes()[..length]);
        shorter
    }

    /// Whether it is what it was but for these bytes at the front.
    fn holds(&self, written: &[u8], before: &Buffer) -> bool {
        let end = GUARD + written.len();
        self.bytes().starts_with(written) && self.0[..GUARD] == before.0[..GUARD] && self.0[end..] == before.0[end..]
    }
}

#[derive(Clone, PartialEq, Eq)]
pub struct Lent {
    pub pruner: Buffer,
    pub report: Buffer,
    pub answer: Buffer,
}

/// An answer, with what was written if it was accepted.
#[derive(PartialEq, Eq)]
pub struct Served {
    pub reply: Reply,
    pub written: Option<Written>,
}

#[derive(PartialEq, Eq)]
pub struct Written {
    pub reported: Reported,
    /// The marks of all functions.
    pub marks: Vec<u8>,
    pub totals: Totals,
}

impl Lent {
    /// A fresh pruner, and buffers of these lengths. A fresh pruner's first two bytes say so; the others mean nothing.
    pub fn new(pruner: usize, report: usize, answer: usize) -> Lent {
        let mut lent = Lent { pruner: Buffer::new(pruner), report: Buffer::new(report), answer: Buffer::new(answer) };
        lent.pruner.lent().iter_mut().take(2).for_each(|b| *b = 0);
        lent
    }

    /// The least that serves every request, with a report buffer of this length.
    pub fn with_report(report: usize) -> Lent {
        Lent::new(limits::PRUNER, report, limits::ANSWER)
    }

    /// Asks the library; a message if it wrote what it may not.
    pub fn serve(&mut self, module: &[u8], outline: &Outline, request: &[u8]) -> Result<Served, String> {
        let before = self.clone();
        let reply = library::request(module, request, self.pruner.lent(), self.report.lent(), self.answer.lent());
        let written = match reply {
            Reply::Visited(_) => Some(self.written(&before, outline, request)?),
            Reply::Refused { .. } if *self != before => return Err("a refusal has changed a buffer".into()),
            Reply::Refused { .. } => None,
        };
        Ok(Served { reply, written })
    }

    fn written(&self, before: &Lent, outline: &Outline, request: &[u8]) -> Result<Written, String> {
        let function = request.get(4..).and_then(|body| fields(body).first().copied()).unwrap_or(0) as usize;
        let expressions = outline.functions.get(function).map_or(0, |f| f.expressions.len());
        let reported = Reported::read(self.answer.bytes(), expressions).ok_or("the answer is no record AN")?;
        let totals = Totals::read(outline, self.pruner.bytes()).ok_or("the pruner is no record PN")?;
        let marks = self.report.bytes()[..outline.marks()].to_vec();
        for (name, buffer, bytes, before) in [
            ("answer", &self.answer, reported.write(), &before.answer),
            ("pruner", &self.pruner, totals.write(), &before.pruner),
            ("report", &self.report, marks.clone(), &before.report),
        ] {
            if !buffer.holds(&bytes, before) {
                return Err(format!("the {name}'s buffer has other bytes than were to be written"));
            }
        }
        Ok(Written { reported, marks, totals })
    }
}
