//! How an expression's need moves to its operands.
use super::function::{Expression, Function, Handle, Module};
use super::need::{Need, ALL};
use super::needs::{add, Key, Needs};
use super::path::Path;
use super::shape::Shape;
use super::walk::Walk;

/// Whether an emit of it changes nothing: literals, zero values, constants, arguments and variable paths.
pub fn is_exempt(function: &Function, e: Handle) -> bool {
    let fixed = matches!(
        function.expressions[e],
        Expression::Literal | Expression::ZeroValue | Expression::Constant | Expression::FunctionArgument(_)
    );
    fixed || function.paths[e]
}

/// Whether a Binary is by part: the result is a scalar or a vector, and both operands have its shape.
pub fn is_by_part(module: &Module, function: &Function, e: Handle, left: Handle, right: Handle) -> bool {
    let shape = function.types[e];
    let plain = matches!(module.shapes.get(shape), Shape::Scalar | Shape::Vector(_));
    plain && function.types[left] == shape && function.types[right] == shape
}

/// Whether a Compose is a vector built from vectors.
pub fn is_of_vectors(module: &Module, function: &Function, e: Handle, components: &[Handle]) -> bool {
    let is_vector = |o: Handle| matches!(module.shapes.get(function.types[o]), Shape::Vector(_));
    is_vector(e) && components.iter().any(|c| is_vector(*c))
}

impl Walk<'_> {
    /// A need of an expression's value, where it is used.
    pub(super) fn need(&mut self, needs: &mut Needs, e: Handle, need: Need) {
        match self.function.expressions[e] {
            Expression::Literal | Expression::ZeroValue | Expression::Constant => {}
            Expression::FunctionArgument(a) => add(&mut self.pieces, needs, Key::Argument(a), need),
            _ => add(&mut self.pieces, needs, Key::Expression(e), need),
        }
    }

    pub(super) fn need_whole(&mut self, needs: &mut Needs, operands: &[Handle]) {
        operands.iter().for_each(|o| self.need(needs, *o, ALL));
    }

    /// The need of an evaluated expression moves to its operands.
    pub(super) fn spread(&mut self, needs: &mut Needs, e: Handle, need: Need) {
        match self.function.expressions[e].clone() {
            Expression::AccessIndex { base, index } => {
                let part = self.pieces.under(index, need);
                self.need(needs, base, part);
            }
            Expression::Access { base, index } => self.need_whole(needs, &[base, index]),
            Expression::Load(pointer) => self.spread_load(needs, pointer, need),
            Expression::Swizzle { vector, pattern } => self.spread_swizzle(needs, vector, &pattern, need),
            Expression::Compose(components) => self.spread_compose(needs, e, &components, need),
            Expression::Unary(operand) | Expression::As(operand) => self.need(needs, operand, need),
            Expression::Select { condition, accept, reject } => {
                self.need(needs, condition, ALL);
                self.need(needs, accept, need);
                self.need(needs, reject, need);
            }
            Expression::Binary(left, right) => {
                let part = if is_by_part(self.module, self.function, e, left, right) { need } else { ALL };
                self.need(needs, left, part);
                self.need(needs, right, part);
            }
            Expression::Splat(operand) | Expression::Relational(operand) => self.need(needs, operand, ALL),
            Expression::Math(arguments) => self.need_whole(needs, &arguments),
            other => unreachable!("{other:?} has no need of its own"),
        }
    }

    /// The variable's part at the path, whole from the first dynamic index on, with those indexes whole.
    fn spread_load(&mut self, needs: &mut Needs, pointer: Handle, need: Need) {
        let path = Path::of(self.function, pointer);
        let dynamic = path.dynamic();
        let end = if dynamic.is_empty() { need } else { ALL };
        let part = self.pieces.at(&path.prefix(), end);
        add(&mut self.pieces, needs, path.variable, part);
        self.need_whole(needs, &dynamic);
    }

    /// The components that the pattern picks.
    fn spread_swizzle(&mut self, needs: &mut Needs, vector: Handle, pattern: &[u16], need: Need) {
        for (i, letter) in pattern.iter().enumerate() {
            if let Some(inner) = self.pieces.member(need, i as u16) {
                let part = self.pieces.under(*letter, inner);
                self.need(needs, vector, part);
            }
        }
    }

    fn spread_compose(&mut self, needs: &mut Needs, e: Handle, components: &[Handle], need: Need) {
        if is_of_vectors(self.module, self.function, e, components) {
            return self.need_whole(needs, components);
        }
        for (i, component) in components.iter().enumerate() {
            if let Some(inner) = self.pieces.member(need, i as u16) {
                self.need(needs, *component, inner);
            }
        }
    }
}
