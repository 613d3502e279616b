//! Which functions are judged: by the kinds that occur, by shapes, by what pointers serve for, and by what leaves what.
use super::function::{Expression, Function, Handle, Module, Statement};
use super::shape::{self, Id, Shape, Shapes};

#[derive(Clone, Copy, PartialEq, Eq, PartialOrd, Ord, Debug)]
pub enum Item {
    Expression(usize),
    Statement(usize),
}

/// The lowest expression, else statement, for which the function is not judged.
pub fn unjudged(module: &Module, function: &Function) -> Option<Item> {
    let judge = Judge { module, shapes: &module.shapes, function };
    let expression = (0..function.expressions.len()).find(|e| !judge.expression(*e)).map(Item::Expression);
    expression.or_else(|| {
        let mut wrong = Vec::new();
        judge.block(function.body(), Stays::default(), &mut wrong);
        wrong.into_iter().min().map(Item::Statement)
    })
}

struct Judge<'a> {
    module: &'a Module,
    shapes: &'a Shapes,
    function: &'a Function,
}

/// What a statement can end from where it stands.
#[derive(Clone, Copy, Default)]
struct Stays {
    breaks: bool,
    continues: bool,
    /// Inside a continuing block: nothing may leave it.
    continuing: bool,
}

impl Judge<'_> {
    fn shape(&self, e: Handle) -> Id {
        self.function.types[e]
    }

    fn is_pointer(&self, e: Handle) -> bool {
        self.shapes.pointee(self.shape(e)).is_some()
    }

    /// What serves as a value: neither a path nor a pointer.
    fn is_value(&self, e: Handle) -> bool {
        !self.function.paths[e] && !self.is_pointer(e)
    }

    /// What a path leads to. Its expression has that type ("as declared") or a pointer to it.
    fn led_to(&self, e: Handle) -> Id {
        self.shapes.led_to(self.shape(e))
    }

    /// Whether this is a path to something of this shape.
    fn leads_to(&self, path: Handle, shape: Id) -> bool {
        self.function.paths[path] && self.led_to(path) == shape
    }

    fn expression(&self, e: Handle) -> bool {
        let shape = self.shape(e);
        if self.shapes.is_unsized(shape) || self.shapes.is_unsized(self.led_to(e)) {
            return false;
        }
        match self.function.expressions[e] {
            Expression::AccessIndex { base, index } => self.is_member(base, |s| self.shapes.member(s, index), e),
            Expression::Access { base, index } => self.is_value(index) && self.is_member(base, |s| self.shapes.element(s), e),
            Expression::GlobalVariable(g) => self.is_variable(self.module.globals[g as usize], e),
            Expression::LocalVariable(l) => self.is_variable(self.function.locals[l as usize], e),
            _ => !self.is_pointer(e) && self.value(e, shape),
        }
    }

    /// As declared, which is no pointer.
    fn is_variable(&self, declared: Id, e: Handle) -> bool {
        self.led_to(e) == declared && self.shapes.pointee(declared).is_none()
    }

    /// A path's member is what the path leads to further, a value's member a value.
    fn is_member(&self, base: Handle, member: impl Fn(Id) -> Option<Id>, e: Handle) -> bool {
        if self.function.paths[base] {
            return member(self.led_to(base)) == Some(self.led_to(e));
        }
        self.is_value(base) && self.is_value(e) && member(self.shape(base)) == Some(self.shape(e))
    }

    /// Expressions that give values, this one of no pointer's shape.
    fn value(&self, e: Handle, shape: Id) -> bool {
        let same = |o: Handle| self.is_value(o) && self.shape(o) == shape;
        match self.function.expressions[e] {
            Expression::Literal | Expression::ZeroValue | Expression::Constant => true,
            Expression::Splat(value) => {
                matches!(self.shapes.get(shape), Shape::Vector(_)) && self.is_value(value) && self.shape(value) == shape::SCALAR
            }
            Expression::Swizzle { vector, ref pattern } => self.is_value(vector) && self.is_swizzle(vector, pattern, shape),
            Expression::Compose(ref components) => components.iter().all(|c| self.is_value(*c)) && self.is_compose(components, shape),
            Expression::FunctionArgument(a) => self.function.arguments[a as usize] == shape,
            Expression::Load(pointer) => self.leads_to(pointer, shape),
            Expression::Unary(operand) | Expression::As(operand) => same(operand),
            Expression::Select { condition, accept, reject } => self.is_value(condition) && same(accept) && same(reject),
            Expression::Binary(left, right) => self.is_value(left) && self.is_value(right),
            Expression::Relational(argument) => self.is_value(argument),
            Expression::Math(ref arguments) => arguments.iter().all(|a| self.is_value(*a)),
            _ => false,
        }
    }

    fn is_swizzle(&self, vector: Handle, pattern: &[u16], shape: Id) -> bool {
        let Shape::Vector(size) = *self.shapes.get(self.shape(vector)) else { return false };
        *self.shapes.get(shape) == Shape::Vector(pattern.len() as u16) && pattern.iter().all(|letter| *letter < size)
    }

    fn is_compose(&self, components: &[Handle], shape: Id) -> bool {
        let all = |count: u16, of: Id| components.len() == count as usize && components.iter().all(|c| self.shape(*c) == of);
        match *self.shapes.get(shape) {
            Shape::Vector(size) => {
                let width = |c: &Handle| match *self.shapes.get(self.shape(*c)) {
                    Shape::Scalar => Some(1),
                    Shape::Vector(size) => Some(size),
                    _ => None,
                };
                components.iter().map(width).sum::<Option<u16>>() == Some(size)
            }
            Shape::Matrix { columns, rows } => all(columns, shape::vector(rows)),
            Shape::Array { base, count } => all(count, base),
            Shape::Struct(ref members) => components.iter().map(|c| self.shape(*c)).eq(members.iter().copied()),
            _ => false,
        }
    }

    /// The statements of a block, and of those inside it, that are not judged.
    fn block(&self, block: usize, stays: Stays, wrong: &mut Vec<usize>) {
        for s in &self.function.blocks[block] {
            if !self.statement(*s, stays) {
                wrong.push(*s);
            }
            match self.function.statements[*s] {
                Statement::Block(inner) => self.block(inner, stays, wrong),
                Statement::If { accept, reject, .. } => [accept, reject].into_iter().for_each(|b| self.block(b, stays, wrong)),
                Statement::Switch { ref cases, .. } => {
                    cases.iter().for_each(|c| self.block(c.1, Stays { breaks: true, ..stays }, wrong));
                }
                Statement::Loop { body, continuing, .. } => {
                    self.block(body, Stays { breaks: true, continues: true, ..stays }, wrong);
                    self.block(continuing, Stays { breaks: false, continues: false, continuing: true }, wrong);
                }
                _ => {}
            }
        }
    }

    /// The statement by itself.
    fn statement(&self, s: usize, stays: Stays) -> bool {
        match self.function.statements[s] {
            Statement::Emit { .. } | Statement::Block(_) => true,
            Statement::If { condition, .. } => self.is_value(condition),
            Statement::Switch { selector, .. } => self.is_value(selector),
            Statement::Loop { break_if, .. } => break_if.is_none_or(|c| self.is_value(c)),
            Statement::Break => stays.breaks,
            Statement::Continue => stays.continues,
            Statement::Return(value) => {
                !stays.continuing && value.is_none_or(|v| self.is_value(v) && self.function.result == Some(self.shape(v)))
            }
            Statement::Store { pointer, value } => self.is_value(value) && self.leads_to(pointer, self.shape(value)),
            Statement::Other => false,
        }
    }
}
