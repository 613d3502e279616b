//! What a request answers beside marks and totals. Its record, a form of the library's own: AN, a 32-bit length, whether the function is
//! required, the visits in two fields, the input context, and the record of each expression of the function: a part, or none. And the
//! whole of what the program `report` prints.
use crate::clearance::authors::Asked;
use crate::context::Context;
use crate::part::Part;
use crate::record::{self, Cursor};
use crate::report_text;

#[derive(Clone, PartialEq, Eq, Debug)]
pub struct Reported {
    pub required: bool,
    pub visits: u32,
    pub context: Context,
    pub records: Vec<Part>,
}

impl Reported {
    /// The record at the start of these bytes, of a function of so many expressions.
    pub fn read(bytes: &[u8], expressions: usize) -> Option<Reported> {
        let fields = record::read_long(*b"AN", bytes)?;
        let mut cursor = Cursor::new(&fields);
        let required = flag(cursor.next()?)?;
        let visits = u32::from(cursor.next()?) + (u32::from(cursor.next()?) << 16);
        let context = Context::read(&mut cursor)?;
        let records = read_records(&mut cursor, expressions)?;
        (cursor.left() == 0).then_some(Reported { required, visits, context, records })
    }

    pub fn write(&self) -> Vec<u8> {
        let mut fields = vec![self.required as u16, self.visits as u16, (self.visits >> 16) as u16];
        self.context.write(&mut fields);
        self.records.iter().for_each(|r| r.write(&mut fields));
        record::write_long(*b"AN", &fields)
    }

    /// A report's lines up to those of statements.
    pub fn lines(&self) -> String {
        let required = if self.required { "yes" } else { "no" };
        format!("required {required}\n{}{}", self.context.lines(), record_lines(&self.records))
    }
}

/// What `report` prints for a module and a request, by the lines of the report: these, and that of the second clearance. A refusal has no other line.
pub fn printed(input: &[u8], lines: &str) -> String {
    if lines.starts_with("refused") {
        return lines.to_string();
    }
    let asked = Asked::of(input).expect("a module and its request");
    let report = report_text::parse(lines, &asked).expect("a report's lines");
    format!("{lines}check {}\n", asked.judge(&report).verdict)
}

pub fn flag(field: u16) -> Option<bool> {
    (field <= 1).then_some(field == 1)
}

pub fn read_records(fields: &mut Cursor, expressions: usize) -> Option<Vec<Part>> {
    (0..expressions).map(|_| Part::read(fields, 0)).collect()
}

/// A line for each expression that has a record.
pub fn record_lines(records: &[Part]) -> String {
    let there = records.iter().enumerate().filter(|(_, part)| **part != Part::None);
    there.map(|(n, part)| format!("expr {n} {part}\n")).collect()
}

#[cfg(test)]
mod tests {
    use super::*;

    #[test]
    fn case_a() {
        let part = |text: &str| Part::parse(text).unwrap();
        let context =
            Context { retval: part("all"), globals: vec![], arguments: vec![(0, part("{1:all}"))], locals: vec![(0, part("exist"))] };
        let reported = Reported { required: true, visits: 70_000, context, records: vec![part("exist"), Part::None] };
        let mut bytes = reported.write();
        assert_eq!(bytes[..12], [65, 78, 32, 0, 0, 0, 1, 0, 112, 17, 1, 0]);
        bytes.extend([7, 7]);
        assert_eq!(Reported::read(&bytes, 2), Some(reported.clone()));
        assert_eq!((Reported::read(&bytes, 1), Reported::read(&bytes, 3), Reported::read(&bytes[..20], 2)), (None, None, None));
        assert_eq!(reported.lines(), "required yes\nretval all\narg 0 {1:all}\nlocal 0 exist\nexpr 0 exist\n");
    }
}
