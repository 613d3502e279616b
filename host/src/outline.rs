//! What a module that is read has, by number: types, globals, functions with their statements and blocks. Requests are made and
//! answers are laid out by it.
use crate::form::{Mark, ABSENT};
use crate::record::{fields, records};
use std::fmt::Write;
use std::ops::Range;

#[derive(Default)]
pub struct Outline {
    /// The fields of each type.
    pub types: Vec<Vec<u16>>,
    /// The type of each global.
    pub globals: Vec<u16>,
    pub functions: Vec<Function>,
}

#[derive(Default)]
pub struct Function {
    pub result: Option<u16>,
    pub arguments: usize,
    pub locals: usize,
    /// The kind of each expression.
    pub expressions: Vec<u16>,
    pub statements: Vec<Statement>,
    /// The statements of each block; the last is the body.
    pub blocks: Vec<Range<usize>>,
}

pub struct Statement {
    pub kind: u16,
    pub operands: Vec<u16>,
}

impl Outline {
    /// Of a module that reading accepts.
    pub fn of(module: &[u8]) -> Outline {
        let mut outline = Outline::default();
        for record in records(module).0 {
            if let Some(mark) = Mark::of_letters(record.letters) {
                outline.add(mark, fields(record.body));
            }
        }
        outline
    }

    fn add(&mut self, mark: Mark, fields: Vec<u16>) {
        match mark {
            Mark::Type => self.types.push(fields),
            Mark::Global => self.globals.push(fields[0]),
            Mark::Function => {
                let result = Some(fields[1]).filter(|t| *t != ABSENT);
                self.functions.push(Function { result, ..Function::default() });
            }
            _ => self.functions.iter_mut().last().into_iter().for_each(|f| f.add(mark, &fields)),
        }
    }

    /// The marks of all functions.
    pub fn marks(&self) -> usize {
        self.functions.iter().map(Function::marks).sum()
    }

    /// Where the function's marks stand among those of all.
    pub fn stretch(&self, function: usize) -> Range<usize> {
        let from = self.functions[..function].iter().map(Function::marks).sum();
        from..from + self.functions[function].marks()
    }
}

impl Function {
    fn add(&mut self, mark: Mark, fields: &[u16]) {
        let end = self.statements.len();
        match mark {
            Mark::Argument => self.arguments += 1,
            Mark::Local => self.locals += 1,
            Mark::Expression => self.expressions.push(fields[1]),
            Mark::Block => self.blocks.push(end..end),
            Mark::Statement => {
                self.statements.push(Statement { kind: fields[0], operands: fields[1..].to_vec() });
                self.blocks.iter_mut().last().into_iter().for_each(|b| b.end = end + 1);
            }
            _ => {}
        }
    }

    pub fn marks(&self) -> usize {
        self.statements.iter().map(Statement::marks).sum()
    }

    /// Each statement's own marks.
    pub fn own<'a>(&self, marks: &'a [u8]) -> Vec<&'a [u8]> {
        let mut rest = marks;
        let mut found = Vec::new();
        for statement in &self.statements {
            let (own, after) = rest.split_at(statement.marks());
            found.push(own);
            rest = after;
        }
        found
    }

    /// A report's lines of statements.
    pub fn lines(&self, marks: &[u8]) -> String {
        let mut text = String::new();
        for (n, (statement, own)) in self.statements.iter().zip(self.own(marks)).enumerate() {
            write!(text, "stmt {n} {}", statement.name()).expect("text");
            own.iter().for_each(|m| text.push_str(if *m == 1 { " yes" } else { " no" }));
            text.push('\n');
        }
        text
    }

    /// Whether these marks make the body required.
    pub fn is_required(&self, marks: &[u8]) -> bool {
        self.required(self.blocks.len() - 1, &self.own(marks))
    }

    /// A kill requires its block whatever else, a barrier never does, a block by what is in it.
    fn required(&self, block: usize, own: &[&[u8]]) -> bool {
        self.blocks[block].clone().any(|s| match self.statements[s].kind {
            1 => self.required(self.statements[s].operands[0] as usize, own),
            8 => true,
            14 => own[s][0] == 1,
            _ => own[s].contains(&1),
        })
    }
}

impl Statement {
    pub fn marks(&self) -> usize {
        match self.kind {
            0 => (self.operands[1] - self.operands[0]) as usize + 1,
            1 | 8 | 9 | 10 => 0,
            14 => 2,
            _ => 1,
        }
    }

    /// StatementReq's name.
    pub fn name(&self) -> &'static str {
        const NAMES: [&str; 16] = [
            "emit",
            "blockstmt",
            "if",
            "switch",
            "loop",
            "break",
            "continue",
            "return",
            "kill",
            "barrier",
            "barrier",
            "imageatomic",
            "store",
            "atomic",
            "call",
            "imagestore",
        ];
        NAMES.get(self.kind as usize).unwrap_or(&"rayquery")
    }
}
