//! A pruner's totals. Their record, a form of the library's own: PN, a 32-bit length, the globals, then for each function of the module
//! 0, or 1 and its total: its marks, its context, and the record of each expression: a part, or none.
use crate::context::{self, Context};
use crate::limits;
use crate::outline::{Function, Outline};
use crate::part::{self, Part, Parts};
use crate::record::{self, Cursor};
use crate::reported::{flag, read_records, record_lines};

#[derive(Clone, PartialEq, Eq, Debug)]
pub struct Totals {
    pub globals: Parts,
    /// Of each function that was walked.
    pub functions: Vec<Option<Total>>,
}

#[derive(Clone, PartialEq, Eq, Debug)]
pub struct Total {
    pub marks: Vec<u8>,
    pub context: Context,
    pub records: Vec<Part>,
}

impl Totals {
    /// Before anything was asked of the module.
    pub fn fresh(outline: &Outline) -> Totals {
        Totals { globals: Vec::new(), functions: outline.functions.iter().map(|_| None).collect() }
    }

    /// What a pruner's buffer means to the library, or nothing (19): this program's own reading of it.
    pub fn read(outline: &Outline, bytes: &[u8]) -> Option<Totals> {
        if bytes.len() < limits::PRUNER {
            return None;
        }
        if bytes[..2] == [0, 0] {
            return Some(Totals::fresh(outline));
        }
        let fields = record::read_long(*b"PN", &bytes[..limits::PRUNER])?;
        let mut cursor = Cursor::new(&fields);
        let globals = part::read_list(&mut cursor).filter(|g| part::fits(g, outline.globals.len()))?;
        let functions = outline.functions.iter().map(|f| read_total(outline, f, &mut cursor)).collect::<Option<_>>()?;
        let totals = Totals { globals, functions };
        (cursor.left() == 0 && totals.pieces() <= limits::PIECES).then_some(totals)
    }

    pub fn write(&self) -> Vec<u8> {
        let mut fields = Vec::new();
        part::write_list(&self.globals, &mut fields);
        for total in &self.functions {
            fields.push(total.is_some() as u16);
            total.iter().for_each(|t| t.write(&mut fields));
        }
        record::write_long(*b"PN", &fields)
    }

    /// What 16 counts at a request's end.
    pub fn pieces(&self) -> usize {
        part::pieces(&self.globals) + self.functions.iter().flatten().map(Total::pieces).sum::<usize>()
    }

    /// The oracle's lines.
    pub fn lines(&self, outline: &Outline) -> String {
        let mut text = context::lines("global", &self.globals);
        for (n, (total, function)) in self.functions.iter().zip(&outline.functions).enumerate() {
            if let Some(total) = total {
                text += &format!("fn {n} {}", total.lines(function));
            }
        }
        text
    }
}

fn read_total(outline: &Outline, function: &Function, fields: &mut Cursor) -> Option<Option<Total>> {
    if !flag(fields.next()?)? {
        return Some(None);
    }
    let marks = (0..function.marks()).map(|_| flag(fields.next()?).map(u8::from)).collect::<Option<_>>()?;
    let context = Context::read(fields).filter(|c| c.fits(outline, function))?;
    let records = read_records(fields, function.expressions.len())?;
    let within = records.iter().all(|part| part.fault(0, true).is_none());
    within.then_some(Some(Total { marks, context, records }))
}

impl Total {
    fn write(&self, fields: &mut Vec<u16>) {
        fields.extend(self.marks.iter().map(|m| u16::from(*m)));
        self.context.write(fields);
        self.records.iter().for_each(|r| r.write(fields));
    }

    fn pieces(&self) -> usize {
        self.context.pieces() + self.records.iter().map(Part::record_pieces).sum::<usize>()
    }

    fn lines(&self, function: &Function) -> String {
        let required = if function.is_required(&self.marks) { "yes" } else { "no" };
        format!("required {required}\n{}{}{}", self.context.lines(), record_lines(&self.records), function.lines(&self.marks))
    }
}
