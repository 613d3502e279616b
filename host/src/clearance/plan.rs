//! A function as a run does it: each operator with the places of its operands, worked out once for many runs.
use super::function::{Expression, Function, Handle, Module};
use super::layout::{Layout, Span};
use super::needs::Key;
use super::operands::{is_by_part, is_exempt};
use super::path::{Path, Step};
use super::shape::Shape;

pub struct Plan<'a> {
    pub function: &'a Function,
    pub layout: Layout,
    /// What an emit of each expression does.
    pub operators: Vec<Operator>,
    /// Of each path, where it leads.
    pub places: Vec<Option<Place>>,
    /// Where the number of each scalar stands; what is no scalar has none.
    pub numbers: Vec<Option<usize>>,
    /// Literals and constants, whose values are fixed before a run.
    pub fixed: Vec<Handle>,
}

/// Index, Swizzle and Compose as WGSL has them; every other operator is a fixed function, the expression's own.
pub enum Operator {
    /// It needs no emit, and one changes nothing.
    Exempt,
    /// Numbers of its operands, side by side.
    Copied(Vec<Span>),
    /// What stands at a place now; zero out of range.
    Read(Place),
    /// Each number from those at its own place in these, which have the result's shape, and from the condition.
    ByPart { operands: Vec<usize>, condition: Option<Span> },
    /// Each number from all of these.
    Whole(Vec<Span>),
}

/// A place behind dynamic indexes; constant ones are added up.
#[derive(Clone)]
pub struct Place {
    pub at: usize,
    pub steps: Vec<Dynamic>,
}

#[derive(Clone)]
pub struct Dynamic {
    /// Where the index stands; one that is no scalar is out of range.
    pub number: Option<usize>,
    pub count: u64,
    pub stride: usize,
}

impl<'a> Plan<'a> {
    /// Of a judged function.
    pub fn of(module: &Module, function: &'a Function) -> Plan<'a> {
        let layout = Layout::of(module, function);
        let handles = 0..function.expressions.len();
        let maker = Maker { module, function, layout: &layout };
        let numbers = handles.clone().map(|e| maker.number(e)).collect();
        let places = handles.clone().map(|e| function.paths[e].then(|| maker.place(e))).collect();
        let operators = handles.clone().map(|e| maker.operator(e)).collect();
        let fixed = handles.filter(|e| matches!(function.expressions[*e], Expression::Literal | Expression::Constant)).collect();
        Plan { function, operators, places, numbers, fixed, layout }
    }
}

struct Maker<'a> {
    module: &'a Module,
    function: &'a Function,
    layout: &'a Layout,
}

impl Maker<'_> {
    fn span(&self, e: Handle) -> Span {
        self.layout.values[e].clone()
    }

    fn spans(&self, operands: &[Handle]) -> Vec<Span> {
        operands.iter().map(|o| self.span(*o)).collect()
    }

    fn number(&self, e: Handle) -> Option<usize> {
        let scalar = *self.module.shapes.get(self.function.types[e]) == Shape::Scalar;
        (scalar && !self.function.paths[e]).then(|| self.layout.values[e].start)
    }

    fn operator(&self, e: Handle) -> Operator {
        if is_exempt(self.function, e) {
            return Operator::Exempt;
        }
        match self.function.expressions[e] {
            Expression::AccessIndex { base, index } => Operator::Copied(vec![self.member(base, index)]),
            Expression::Access { base, index } => {
                Operator::Read(self.further(self.span(base).start, self.function.types[base], &[Step::Dynamic(index)]))
            }
            Expression::Load(pointer) => Operator::Read(self.place(pointer)),
            Expression::Swizzle { vector, ref pattern } => Operator::Copied(pattern.iter().map(|l| self.member(vector, *l)).collect()),
            Expression::Compose(ref components) => Operator::Copied(self.spans(components)),
            Expression::Unary(operand) | Expression::As(operand) => self.by_part(&[operand], None),
            Expression::Select { condition, accept, reject } => self.by_part(&[accept, reject], Some(condition)),
            Expression::Binary(left, right) if is_by_part(self.module, self.function, e, left, right) => self.by_part(&[left, right], None),
            Expression::Binary(left, right) => Operator::Whole(self.spans(&[left, right])),
            Expression::Splat(operand) | Expression::Relational(operand) => Operator::Whole(self.spans(&[operand])),
            Expression::Math(ref arguments) => Operator::Whole(self.spans(arguments)),
            ref other => unreachable!("{other:?} is not evaluated"),
        }
    }

    fn by_part(&self, operands: &[Handle], condition: Option<Handle>) -> Operator {
        let operands = operands.iter().map(|o| self.span(*o).start).collect();
        Operator::ByPart { operands, condition: condition.map(|c| self.span(c)) }
    }

    /// A member of a value.
    fn member(&self, base: Handle, index: u16) -> Span {
        let (shapes, shape) = (&self.module.shapes, self.function.types[base]);
        let start = self.span(base).start + shapes.offset(shape, index);
        start..start + shapes.size(shapes.member(shape, index).expect("a member")) as usize
    }

    /// Where a pointer leads.
    fn place(&self, pointer: Handle) -> Place {
        let path = Path::of(self.function, pointer);
        let (start, shape) = match path.variable {
            Key::Global(g) => (self.layout.globals[g as usize].start, self.module.globals[g as usize]),
            Key::Local(l) => (self.layout.locals[l as usize].start, self.function.locals[l as usize]),
            _ => unreachable!("a path ends in a variable"),
        };
        self.further(start, shape, &path.steps)
    }

    /// Steps from a value of this shape that starts here.
    fn further(&self, start: usize, mut shape: usize, steps: &[Step]) -> Place {
        let shapes = &self.module.shapes;
        let mut place = Place { at: start, steps: Vec::new() };
        for step in steps {
            match *step {
                Step::Index(index) => {
                    place.at += shapes.offset(shape, index);
                    shape = shapes.member(shape, index).expect("a member");
                }
                Step::Dynamic(e) => {
                    let count = shapes.splits(shape).or_else(|| shapes.elements(shape)).expect("elements");
                    shape = shapes.element(shape).expect("an element");
                    place.steps.push(Dynamic { number: self.number(e), count: u64::from(count), stride: shapes.size(shape) as usize });
                }
            }
        }
        place
    }
}
