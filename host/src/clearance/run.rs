//! A run: a judged function done in a memory of numbers. Operators are fixed functions that look random.
use super::function::{Handle, Statement};
use super::layout::Span;
use super::plan::{Operator, Place, Plan};

/// Which statements a run does.
#[derive(Clone, Copy, PartialEq, Eq, Debug)]
pub enum Mode {
    Every,
    /// Unmarked stores, emits, ifs, switches and loops are passed over.
    Needed,
}

/// Which fixed functions the operators are, and what their numbers are below.
#[derive(Clone, Copy)]
pub struct Operators {
    pub seed: u64,
    pub bound: u64,
}

impl Operators {
    /// A number of this expression's own, from a place in its value and what it follows from.
    fn number(&self, e: Handle, place: usize, from: u64) -> u64 {
        below(mixed(mixed(self.seed, e as u64), mixed(place as u64, from)), self.bound)
    }
}

/// A number that looks random, from two.
pub fn mixed(a: u64, b: u64) -> u64 {
    let product = u128::from(a ^ 0x9e37_79b9_7f4a_7c15) * u128::from(b.rotate_left(32) ^ 0xbf58_476d_1ce4_e5b9);
    (product >> 64) as u64 ^ product as u64
}

/// From 64 bits that look random, a number below the bound.
pub fn below(bits: u64, bound: u64) -> u64 {
    ((u128::from(bits) * u128::from(bound)) >> 64) as u64
}

pub struct Run<'a> {
    pub plan: &'a Plan<'a>,
    /// The function's statements' own.
    pub marks: &'a [&'a [u8]],
    pub mode: Mode,
    pub operators: Operators,
    /// Globals, locals and arguments as they are at the start, fixed values, and zero in evaluated expressions and the result.
    pub memory: &'a mut [u64],
    /// Statements and turns that may still be done.
    pub left: usize,
}

/// What a statement ends.
enum Flow {
    Next,
    Break,
    Continue,
    Return,
    /// The run is given up.
    TooLong,
}

/// A memory before the inputs are put into it.
pub fn fresh(plan: &Plan, operators: Operators) -> Vec<u64> {
    let mut memory = vec![0; plan.layout.length];
    for e in &plan.fixed {
        let span = plan.layout.values[*e].clone();
        memory[span].iter_mut().enumerate().for_each(|(j, n)| *n = operators.number(*e, j, 3));
    }
    memory
}

impl Run<'_> {
    /// Whether it ends soon enough; then its outputs stand in memory.
    pub fn ends(mut self) -> bool {
        let body = self.plan.function.body();
        !matches!(self.block(body), Flow::TooLong)
    }

    fn block(&mut self, block: usize) -> Flow {
        let function = self.plan.function;
        for s in &function.blocks[block] {
            match self.statement(*s) {
                Flow::Next => {}
                other => return other,
            }
        }
        Flow::Next
    }

    fn passes(&self, s: usize, mark: usize) -> bool {
        self.mode == Mode::Needed && self.marks[s][mark] == 0
    }

    fn statement(&mut self, s: usize) -> Flow {
        if self.left == 0 {
            return Flow::TooLong;
        }
        self.left -= 1;
        let function = self.plan.function;
        match function.statements[s] {
            Statement::Emit { first, last } => self.emit(s, first, last),
            Statement::Block(block) => return self.block(block),
            Statement::Break => return Flow::Break,
            Statement::Continue => return Flow::Continue,
            Statement::Return(value) => return self.returned(value),
            _ if self.passes(s, 0) => {}
            Statement::Store { pointer, value } => self.store(pointer, value),
            Statement::If { condition, accept, reject } => {
                return self.block(if self.is_zero(condition) { reject } else { accept });
            }
            Statement::Switch { selector, ref cases } => return self.switch(selector, cases),
            Statement::Loop { body, continuing, break_if } => return self.looped(body, continuing, break_if),
            Statement::Other => unreachable!("not judged"),
        }
        Flow::Next
    }

    fn span(&self, e: Handle) -> Span {
        self.plan.layout.values[e].clone()
    }

    /// Zero exactly when all its numbers are.
    fn is_zero(&self, e: Handle) -> bool {
        self.memory[self.span(e)].iter().all(|n| *n == 0)
    }

    fn returned(&mut self, value: Option<Handle>) -> Flow {
        if let Some(v) = value {
            self.memory.copy_within(self.span(v), self.plan.layout.result.start);
        }
        Flow::Return
    }

    /// Evaluates its range upwards.
    fn emit(&mut self, s: usize, first: Handle, last: Handle) {
        for e in first..=last {
            if !self.passes(s, e - first) {
                self.evaluate(e);
            }
        }
    }

    fn evaluate(&mut self, e: Handle) {
        let (plan, own) = (self.plan, self.span(e));
        match plan.operators[e] {
            Operator::Exempt => {}
            Operator::Copied(ref spans) => {
                let mut at = own.start;
                for span in spans {
                    self.memory.copy_within(span.clone(), at);
                    at += span.len();
                }
            }
            Operator::Read(ref place) => match self.follow(place) {
                Some(at) => self.memory.copy_within(at..at + own.len(), own.start),
                None => self.memory[own].fill(0),
            },
            Operator::ByPart { ref operands, ref condition } => {
                let more = condition.as_ref().map_or(1, |c| self.digest(2, c));
                for j in 0..own.len() {
                    let from = operands.iter().fold(more, |d, at| mixed(d, self.memory[at + j]));
                    self.memory[own.start + j] = self.operators.number(e, j, from);
                }
            }
            Operator::Whole(ref spans) => {
                let from = spans.iter().fold(3, |d, span| self.digest(d, span));
                for j in 0..own.len() {
                    self.memory[own.start + j] = self.operators.number(e, j, from);
                }
            }
        }
    }

    /// One number from all of these and the one before.
    fn digest(&self, before: u64, span: &Span) -> u64 {
        self.memory[span.clone()].iter().fold(before, |d, n| mixed(d, *n))
    }

    /// Where a place is now, if it is in range.
    fn follow(&self, place: &Place) -> Option<usize> {
        place.steps.iter().try_fold(place.at, |at, step| {
            let index = self.memory[step.number?];
            (index < step.count).then(|| at + index as usize * step.stride)
        })
    }

    /// Out of range it does nothing.
    fn store(&mut self, pointer: Handle, value: Handle) {
        let plan = self.plan;
        let place = plan.places[pointer].as_ref().expect("a path");
        if let Some(at) = self.follow(place) {
            self.memory.copy_within(self.span(value), at);
        }
    }

    /// The equal case, or else the default; a selector that is no scalar equals none.
    fn switch(&mut self, selector: Handle, cases: &[(u16, usize)]) -> Flow {
        const DEFAULT: u16 = crate::form::ABSENT;
        let number = self.plan.numbers[selector].map(|at| self.memory[at]);
        let equal = cases.iter().find(|c| c.0 != DEFAULT && number == Some(u64::from(c.0)));
        let chosen = equal.or_else(|| cases.iter().find(|c| c.0 == DEFAULT)).expect("a default");
        match self.block(chosen.1) {
            Flow::Break => Flow::Next,
            other => other,
        }
    }

    fn looped(&mut self, body: usize, continuing: usize, break_if: Option<Handle>) -> Flow {
        loop {
            if self.left == 0 {
                return Flow::TooLong;
            }
            self.left -= 1;
            match self.block(body) {
                Flow::Next | Flow::Continue => {}
                Flow::Break => return Flow::Next,
                other => return other,
            }
            if let Flow::TooLong = self.block(continuing) {
                return Flow::TooLong;
            }
            if break_if.is_some_and(|c| !self.is_zero(c)) {
                return Flow::Next;
            }
        }
    }
}
