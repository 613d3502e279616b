//! A context: what is asked of a return value, of globals, of arguments and of locals. Its record, a form of the library's own: CX, a
//! 32-bit length, the return part, then the globals, the arguments and the locals, each a count and then number and part each.
use crate::outline::{Function, Outline};
use crate::part::{self, Part, Parts};
use crate::record::{self, Cursor};
use std::fmt::Write;

#[derive(Clone, PartialEq, Eq, Debug)]
pub struct Context {
    pub retval: Part,
    pub globals: Parts,
    pub arguments: Parts,
    pub locals: Parts,
}

impl Context {
    /// Whatever the fields say, within the limits or not.
    pub fn read(fields: &mut Cursor) -> Option<Context> {
        Some(Context {
            retval: Part::read(fields, 0)?,
            globals: part::read_list(fields)?,
            arguments: part::read_list(fields)?,
            locals: part::read_list(fields)?,
        })
    }

    pub fn write(&self, fields: &mut Vec<u16>) {
        self.retval.write(fields);
        part::write_list(&self.globals, fields);
        part::write_list(&self.arguments, fields);
        part::write_list(&self.locals, fields);
    }

    pub fn record(&self) -> Vec<u8> {
        let mut fields = Vec::new();
        self.write(&mut fields);
        record::write_long(*b"CX", &fields)
    }

    /// A report's lines.
    pub fn lines(&self) -> String {
        let mut text = lines("global", &self.globals);
        if self.retval != Part::None {
            writeln!(text, "retval {}", self.retval).expect("text");
        }
        text + &lines("arg", &self.arguments) + &lines("local", &self.locals)
    }

    /// What 16 counts of it.
    pub fn pieces(&self) -> usize {
        self.retval.record_pieces() + [&self.globals, &self.arguments, &self.locals].into_iter().map(part::pieces).sum::<usize>()
    }

    /// Whether its parts are within the limits, and its variables ascend and are the function's.
    pub fn fits(&self, outline: &Outline, function: &Function) -> bool {
        self.retval.fault(0, true).is_none()
            && part::fits(&self.globals, outline.globals.len())
            && part::fits(&self.arguments, function.arguments)
            && part::fits(&self.locals, function.locals)
    }
}

/// A line for each part: the name, the number, the part.
pub fn lines(name: &str, parts: &Parts) -> String {
    parts.iter().map(|(n, part)| format!("{name} {n} {part}\n")).collect()
}

/// The record of a context that asks for these parts of the arguments, ascending, and for nothing else.
pub fn of_arguments(args: &[(u16, Part)]) -> Vec<u8> {
    Context { retval: Part::None, globals: Vec::new(), arguments: args.to_vec(), locals: Vec::new() }.record()
}
