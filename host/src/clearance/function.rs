//! A module as the clearance looks at it: the shapes of its types, and each function's expressions and statements with their operands.
use super::shape::{Id, Shapes};
use crate::form::{Mark, ABSENT};
use crate::record::{fields, records, Cursor};

pub struct Module {
    pub shapes: Shapes,
    /// The shape of each global.
    pub globals: Vec<Id>,
    pub functions: Vec<Function>,
}

#[derive(Default)]
pub struct Function {
    pub result: Option<Id>,
    /// The shapes of arguments, locals and expressions.
    pub arguments: Vec<Id>,
    pub locals: Vec<Id>,
    pub types: Vec<Id>,
    pub expressions: Vec<Expression>,
    /// Of each expression, whether it is a path: a variable, or an index of a path.
    pub paths: Vec<bool>,
    pub statements: Vec<Statement>,
    /// The statements of each block; the last is the body.
    pub blocks: Vec<Vec<usize>>,
}

/// An expression's number.
pub type Handle = usize;

#[derive(Clone, PartialEq, Eq, Debug)]
pub enum Expression {
    Literal,
    ZeroValue,
    AccessIndex {
        base: Handle,
        index: u16,
    },
    Access {
        base: Handle,
        index: Handle,
    },
    Constant,
    Splat(Handle),
    Swizzle {
        vector: Handle,
        pattern: Vec<u16>,
    },
    Compose(Vec<Handle>),
    FunctionArgument(u16),
    GlobalVariable(u16),
    LocalVariable(u16),
    Load(Handle),
    Unary(Handle),
    Binary(Handle, Handle),
    Select {
        condition: Handle,
        accept: Handle,
        reject: Handle,
    },
    Relational(Handle),
    Math(Vec<Handle>),
    As(Handle),
    /// A kind that is not judged.
    Other,
}

#[derive(Clone, PartialEq, Eq, Debug)]
pub enum Statement {
    Emit {
        first: Handle,
        last: Handle,
    },
    Block(usize),
    If {
        condition: Handle,
        accept: usize,
        reject: usize,
    },
    /// Value and block each; the default's value is 65535.
    Switch {
        selector: Handle,
        cases: Vec<(u16, usize)>,
    },
    Loop {
        body: usize,
        continuing: usize,
        break_if: Option<Handle>,
    },
    Break,
    Continue,
    Return(Option<Handle>),
    Store {
        pointer: Handle,
        value: Handle,
    },
    /// A kind that is not judged.
    Other,
}

impl Module {
    /// Of a module that reading accepts.
    pub fn of(bytes: &[u8]) -> Module {
        let found: Vec<(Mark, Vec<u16>)> =
            records(bytes).0.iter().filter_map(|r| Some((Mark::of_letters(r.letters)?, fields(r.body)))).collect();
        let types: Vec<Vec<u16>> = found.iter().filter(|r| r.0 == Mark::Type).map(|r| r.1.clone()).collect();
        let (shapes, ids) = Shapes::of(&types);
        let mut module = Module { shapes, globals: Vec::new(), functions: Vec::new() };
        for (mark, fields) in found {
            match (mark, module.functions.last_mut()) {
                (Mark::Global, _) => module.globals.push(ids[fields[0] as usize]),
                (Mark::Function, _) => {
                    let result = ids.get(fields[1] as usize).copied();
                    module.functions.push(Function { result, ..Function::default() });
                }
                (_, Some(function)) => function.add(mark, &fields, &ids),
                _ => {}
            }
        }
        module
    }
}

impl Function {
    fn add(&mut self, mark: Mark, fields: &[u16], ids: &[Id]) {
        match mark {
            Mark::Argument => self.arguments.push(ids[fields[0] as usize]),
            Mark::Local => self.locals.push(ids[fields[0] as usize]),
            Mark::Expression => {
                let made = expression(&fields[1..]).unwrap_or(Expression::Other);
                self.types.push(ids[fields[0] as usize]);
                self.paths.push(self.is_path(&made));
                self.expressions.push(made);
            }
            Mark::Block => self.blocks.push(Vec::new()),
            Mark::Statement => {
                let number = self.statements.len();
                self.statements.push(statement(fields).unwrap_or(Statement::Other));
                self.blocks.iter_mut().last().into_iter().for_each(|b| b.push(number));
            }
            _ => {}
        }
    }

    fn is_path(&self, expression: &Expression) -> bool {
        match *expression {
            Expression::GlobalVariable(_) | Expression::LocalVariable(_) => true,
            Expression::AccessIndex { base, .. } | Expression::Access { base, .. } => self.paths[base],
            _ => false,
        }
    }

    pub fn body(&self) -> usize {
        self.blocks.len() - 1
    }
}

/// A count, then so many handles.
fn handles(fields: &mut Cursor) -> Option<Vec<Handle>> {
    let count = fields.next()? as usize;
    Some(fields.take(count)?.iter().map(|f| *f as Handle).collect())
}

fn present(field: u16) -> Option<Handle> {
    (field != ABSENT).then_some(field as Handle)
}

/// By its kind and operands.
fn expression(fields: &[u16]) -> Option<Expression> {
    let mut rest = Cursor::new(fields);
    let kind = rest.next()?;
    let mut next = || rest.next().map(|f| f as Handle);
    Some(match kind {
        0 => Expression::Literal,
        1 => Expression::ZeroValue,
        3 => Expression::AccessIndex { base: next()?, index: next()? as u16 },
        4 => Expression::Access { base: next()?, index: next()? },
        5 => Expression::Constant,
        6 => Expression::Splat(next()?),
        7 => Expression::Swizzle { vector: next()?, pattern: handles(&mut rest)?.iter().map(|l| *l as u16).collect() },
        8 => Expression::Compose(handles(&mut rest)?),
        9 => Expression::FunctionArgument(next()? as u16),
        10 => Expression::GlobalVariable(next()? as u16),
        11 => Expression::LocalVariable(next()? as u16),
        12 => Expression::Load(next()?),
        16 => Expression::Unary(next()?),
        17 => Expression::Binary(next()?, next()?),
        18 => Expression::Select { condition: next()?, accept: next()?, reject: next()? },
        20 => Expression::Relational(next()?),
        21 => Expression::Math(fields[1..].iter().filter_map(|f| present(*f)).collect()),
        22 => Expression::As(next()?),
        _ => return None,
    })
}

/// By its kind and operands.
fn statement(fields: &[u16]) -> Option<Statement> {
    Some(match *fields {
        [0, first, last] => Statement::Emit { first: first as Handle, last: last as Handle },
        [1, block] => Statement::Block(block as usize),
        [2, condition, accept, reject] => {
            Statement::If { condition: condition as Handle, accept: accept as usize, reject: reject as usize }
        }
        [3, selector, _, ref cases @ ..] => {
            let cases = cases.chunks(2).map(|c| (c[0], c[1] as usize)).collect();
            Statement::Switch { selector: selector as Handle, cases }
        }
        [4, body, continuing, break_if] => {
            Statement::Loop { body: body as usize, continuing: continuing as usize, break_if: present(break_if) }
        }
        [5] => Statement::Break,
        [6] => Statement::Continue,
        [7, value] => Statement::Return(present(value)),
        [12, pointer, value] => Statement::Store { pointer: pointer as Handle, value: value as Handle },
        _ => return None,
    })
}
