//! The stored lists: cases with the oracle's answers, for replay without the oracle. All numbers are little-endian; a text or a byte
//! string has its length before it in 32 bits. tests/README.md says what the fields are.
use crate::oracle::{Answer, Place};

/// Bytes as a module, and reading's refusal of them (0: accepted).
#[derive(PartialEq, Eq, Debug)]
pub struct Reading {
    pub refusal: u16,
    pub module: Vec<u8>,
}

/// An input of the program `report`, and what it prints but for the line `check`.
#[derive(PartialEq, Eq, Debug)]
pub struct Report {
    pub input: Vec<u8>,
    pub output: String,
}

/// A module with requests over one pruner, the length of the report buffer that is lent, and the answers.
#[derive(PartialEq, Eq, Debug)]
pub struct Requests {
    pub buffer: u32,
    pub module: Vec<u8>,
    pub requests: Vec<(Vec<u8>, Answer)>,
}

impl Reading {
    pub fn write(&self, out: &mut Vec<u8>) {
        out.extend(self.refusal.to_le_bytes());
        string(&self.module, out);
    }

    pub fn read(source: &mut Source) -> Option<Reading> {
        Some(Reading { refusal: source.short()?, module: source.string()? })
    }
}

impl Report {
    pub fn write(&self, out: &mut Vec<u8>) {
        string(&self.input, out);
        string(self.output.as_bytes(), out);
    }

    pub fn read(source: &mut Source) -> Option<Report> {
        Some(Report { input: source.string()?, output: source.text()? })
    }
}

impl Requests {
    pub fn write(&self, out: &mut Vec<u8>) {
        out.extend(self.buffer.to_le_bytes());
        string(&self.module, out);
        out.extend((self.requests.len() as u16).to_le_bytes());
        for (request, answer) in &self.requests {
            string(request, out);
            write_answer(answer, out);
        }
    }

    pub fn read(source: &mut Source) -> Option<Requests> {
        let (buffer, module, count) = (source.long()?, source.string()?, source.short()?);
        let mut requests = Vec::new();
        for _ in 0..count {
            requests.push((source.string()?, read_answer(source)?));
        }
        Some(Requests { buffer, module, requests })
    }
}

/// A module with checks of reports: request, report and context, and the second clearance's answer by its number.
#[derive(PartialEq, Eq, Debug)]
pub struct Checks {
    pub module: Vec<u8>,
    pub checks: Vec<Check>,
}

#[derive(PartialEq, Eq, Debug)]
pub struct Check {
    pub request: Vec<u8>,
    pub report: Vec<u8>,
    pub context: Vec<u8>,
    pub answer: u64,
}

impl Checks {
    pub fn write(&self, out: &mut Vec<u8>) {
        string(&self.module, out);
        out.extend((self.checks.len() as u16).to_le_bytes());
        for check in &self.checks {
            [&check.request, &check.report, &check.context].into_iter().for_each(|bytes| string(bytes, out));
            out.extend(check.answer.to_le_bytes());
        }
    }

    pub fn read(source: &mut Source) -> Option<Checks> {
        let (module, count) = (source.string()?, source.short()?);
        let checks = (0..count).map(|_| Check::read(source)).collect::<Option<_>>()?;
        Some(Checks { module, checks })
    }
}

impl Check {
    fn read(source: &mut Source) -> Option<Check> {
        let (request, report, context) = (source.string()?, source.string()?, source.string()?);
        let answer = u64::from(source.long()?) + (u64::from(source.long()?) << 32);
        Some(Check { request, report, context, answer })
    }
}

/// A module with questions of its bindings.
#[derive(PartialEq, Eq, Debug)]
pub struct Bindings {
    pub module: Vec<u8>,
    pub asked: Vec<Binding>,
}

/// An operation on bindings, the number and the bytes that it is given, how long a slice it is lent, the number that it answers and what it
/// then has written.
#[derive(PartialEq, Eq, Debug, Clone)]
pub struct Binding {
    pub operation: Operation,
    pub number: u32,
    pub given: Vec<u8>,
    pub room: u32,
    pub answer: u64,
    pub written: Vec<u8>,
}

#[derive(PartialEq, Eq, PartialOrd, Ord, Debug, Clone, Copy)]
pub enum Operation {
    /// A function and a context.
    Input,
    /// A function and a list of bindings.
    Output,
    /// A binding and a request.
    Add,
}

impl Bindings {
    pub fn write(&self, out: &mut Vec<u8>) {
        string(&self.module, out);
        out.extend((self.asked.len() as u16).to_le_bytes());
        for case in &self.asked {
            out.extend((case.operation as u16).to_le_bytes());
            out.extend(case.number.to_le_bytes());
            string(&case.given, out);
            out.extend(case.room.to_le_bytes());
            out.extend(case.answer.to_le_bytes());
            string(&case.written, out);
        }
    }

    pub fn read(source: &mut Source) -> Option<Bindings> {
        let (module, count) = (source.string()?, source.short()?);
        let asked = (0..count).map(|_| Binding::read(source)).collect::<Option<_>>()?;
        Some(Bindings { module, asked })
    }
}

impl Binding {
    fn read(source: &mut Source) -> Option<Binding> {
        let operation = [Operation::Input, Operation::Output, Operation::Add].into_iter().nth(source.short()? as usize)?;
        let (number, given, room) = (source.long()?, source.string()?, source.long()?);
        let answer = u64::from(source.long()?) + (u64::from(source.long()?) << 32);
        Some(Binding { operation, number, given, room, answer, written: source.string()? })
    }
}

fn write_answer(a: &Answer, out: &mut Vec<u8>) {
    let place = a.place.map_or([0, 0, 0], |p| [1 + p.statement as u16, p.function, p.number]);
    for field in [a.refusal, place[0], place[1], place[2]] {
        out.extend(field.to_le_bytes());
    }
    for count in [a.visits, a.turns, a.longest, a.peak] {
        out.extend(count.to_le_bytes());
    }
    string(a.report.as_bytes(), out);
    string(&a.marks, out);
    string(a.totals.as_bytes(), out);
}

fn read_answer(source: &mut Source) -> Option<Answer> {
    let refusal = source.short()?;
    let (what, function, number) = (source.short()?, source.short()?, source.short()?);
    let place = (what != 0).then_some(Place { statement: what == 2, function, number });
    Some(Answer {
        refusal,
        place,
        visits: source.long()?,
        turns: source.long()?,
        longest: source.long()?,
        peak: source.long()?,
        report: source.text()?,
        marks: source.string()?,
        totals: source.text()?,
        panic: String::new(),
    })
}

fn string(bytes: &[u8], out: &mut Vec<u8>) {
    out.extend((bytes.len() as u32).to_le_bytes());
    out.extend(bytes);
}

/// A list that is read from its start.
pub struct Source<'a>(pub &'a [u8]);

impl Source<'_> {
    /// All items up to the end; nothing if the end is not an item's.
    pub fn all<T>(mut self, read: impl Fn(&mut Self) -> Option<T>) -> Option<Vec<T>> {
        let mut items = Vec::new();
        while !self.0.is_empty() {
            items.push(read(&mut self)?);
        }
        Some(items)
    }

    fn take(&mut self, count: usize) -> Option<&[u8]> {
        let (taken, left) = self.0.split_at_checked(count)?;
        self.0 = left;
        Some(taken)
    }

    fn short(&mut self) -> Option<u16> {
        self.take(2).map(|b| u16::from_le_bytes([b[0], b[1]]))
    }

    fn long(&mut self) -> Option<u32> {
        self.take(4).map(|b| u32::from_le_bytes([b[0], b[1], b[2], b[3]]))
    }

    fn string(&mut self) -> Option<Vec<u8>> {
        let length = self.long()? as usize;
        self.take(length).map(<[u8]>::to_vec)
    }

    fn text(&mut self) -> Option<String> {
        String::from_utf8(self.string()?).ok()
    }
}

#[cfg(test)]
mod tests {
    use super::*;

    #[test]
    fn lists_are_read_back() {
        let answer = Answer { refusal: 13, visits: 70_000, marks: vec![1, 0], totals: "global 0 all\n".into(), ..Answer::default() };
        let case = Requests { buffer: 65536, module: vec![1, 2, 3], requests: vec![(vec![4], answer), (vec![], Answer::default())] };
        let mut out = Vec::new();
        case.write(&mut out);
        case.write(&mut out);
        let read = Source(&out).all(Requests::read).unwrap();
        assert_eq!(read, [Requests::read(&mut Source(&out)).unwrap(), case]);
        assert!(Source(&out[..out.len() - 1]).all(Requests::read).is_none());
    }

    #[test]
    fn bindings_are_read_back() {
        let asked = |operation, answer| Binding { operation, number: 3, given: vec![1], room: 64, answer, written: vec![5, 9] };
        let case = Bindings { module: vec![7; 20], asked: vec![asked(Operation::Input, 2), asked(Operation::Add, 16 << 32)] };
        let mut out = Vec::new();
        case.write(&mut out);
        assert_eq!(Source(&out).all(Bindings::read), Some(vec![case]));
        assert!(Source(&out[..out.len() - 1]).all(Bindings::read).is_none());
    }

    #[test]
    fn checks_are_read_back() {
        let check = |answer| Check { request: vec![1], report: vec![], context: vec![2, 3], answer };
        let case = Checks { module: vec![9; 300], checks: vec![check(21 << 32), check(131_079)] };
        let mut out = Vec::new();
        case.write(&mut out);
        assert_eq!(Source(&out).all(Checks::read), Some(vec![case]));
        assert!(Source(&out[..out.len() - 1]).all(Checks::read).is_none());
    }
}
