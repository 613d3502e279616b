//! A path: a pointer's variable, and the indexes from it on.
use super::function::{Expression, Function, Handle};
use super::needs::Key;

#[derive(Clone, Copy, PartialEq, Eq, Debug)]
pub enum Step {
    Index(u16),
    Dynamic(Handle),
}

#[derive(PartialEq, Eq, Debug)]
pub struct Path {
    pub variable: Key,
    pub steps: Vec<Step>,
}

impl Path {
    /// Of a pointer in a judged function.
    pub fn of(function: &Function, pointer: Handle) -> Path {
        let (mut at, mut steps) = (pointer, Vec::new());
        let variable = loop {
            match function.expressions[at] {
                Expression::GlobalVariable(g) => break Key::Global(g),
                Expression::LocalVariable(l) => break Key::Local(l),
                Expression::AccessIndex { base, index } => (at, _) = (base, steps.push(Step::Index(index))),
                Expression::Access { base, index } => (at, _) = (base, steps.push(Step::Dynamic(index))),
                _ => unreachable!("a path ends in a variable"),
            }
        };
        steps.reverse();
        Path { variable, steps }
    }

    /// The constant indexes before the first dynamic one.
    pub fn prefix(&self) -> Vec<u16> {
        let constant = |s: &Step| match s {
            Step::Index(index) => Some(*index),
            Step::Dynamic(_) => None,
        };
        self.steps.iter().map_while(constant).collect()
    }

    /// The expressions of its dynamic indexes.
    pub fn dynamic(&self) -> Vec<Handle> {
        let dynamic = |s: &Step| match s {
            Step::Index(_) => None,
            Step::Dynamic(e) => Some(*e),
        };
        self.steps.iter().filter_map(dynamic).collect()
    }
}
