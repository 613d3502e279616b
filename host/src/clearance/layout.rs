//! Where a run's values stand in its memory: each value is its numbers side by side, members in order at every depth.
use super::function::{Expression, Function, Module};
use super::shape::{Id, Shapes};
use crate::part::Part;
use std::ops::Range;

/// So many numbers from here on.
pub type Span = Range<usize>;

pub struct Layout {
    /// Outputs first: the globals, and the value that is returned.
    pub globals: Vec<Span>,
    pub result: Span,
    pub locals: Vec<Span>,
    pub arguments: Vec<Span>,
    /// What an operand's value is read from: its own place, or of an argument's expression the argument's.
    pub values: Vec<Span>,
    pub length: usize,
}

impl Layout {
    pub fn of(module: &Module, function: &Function) -> Layout {
        let mut end = 0;
        let mut place = |shape: Option<Id>| {
            let start = end;
            end += shape.map_or(0, |s| module.shapes.size(s) as usize);
            start..end
        };
        let globals = module.globals.iter().map(|g| place(Some(*g))).collect();
        let result = place(function.result);
        let locals = function.locals.iter().map(|l| place(Some(*l))).collect();
        let arguments: Vec<Span> = function.arguments.iter().map(|a| place(Some(*a))).collect();
        let value = |(e, shape): (&Expression, &Id)| match *e {
            Expression::FunctionArgument(a) => arguments[a as usize].clone(),
            _ => place(Some(*shape)),
        };
        let values = function.expressions.iter().zip(&function.types).map(value).collect();
        Layout { globals, result, locals, arguments, values, length: end }
    }

    pub fn outputs(&self) -> Span {
        0..self.result.end
    }
}

/// How many members a value of the shape has side by side; nothing if it is a number. Run-sized and binding arrays, which nothing looks
/// into, are a number.
fn members(shapes: &Shapes, shape: Id) -> Option<u16> {
    shapes.splits(shape).or_else(|| shapes.elements(shape))
}

/// What a part asks of a value of this shape that starts here: the numbers where all stands.
pub fn asked(shapes: &Shapes, shape: Id, part: &Part, at: usize, found: &mut Vec<Span>) {
    match part {
        Part::All => found.push(at..at + shapes.size(shape) as usize),
        Part::Exist | Part::None => {}
        Part::Entries(entries) => {
            let count = members(shapes, shape).unwrap_or(0);
            for (index, inner) in entries.iter().filter(|e| e.0 < count) {
                let member = shapes.member(shape, *index).expect("a member");
                asked(shapes, member, inner, at + shapes.offset(shape, *index), found);
            }
        }
    }
}

/// The numbers of a value of this shape that starts here for which a context has no all at, above or below.
pub fn unneeded(shapes: &Shapes, shape: Id, part: Option<&Part>, at: usize, found: &mut Vec<usize>) {
    let entries = match part {
        Some(Part::All) => return,
        Some(Part::Entries(entries)) => &entries[..],
        _ => &[],
    };
    let Some(count) = members(shapes, shape) else {
        if !entries.iter().any(|e| has_all(&e.1)) {
            found.push(at);
        }
        return;
    };
    for index in 0..count {
        let entry = entries.iter().find(|e| e.0 == index).map(|e| &e.1);
        let member = shapes.member(shape, index).expect("a member");
        unneeded(shapes, member, entry, at + shapes.offset(shape, index), found);
    }
}

/// Whether all stands somewhere in it.
fn has_all(part: &Part) -> bool {
    match part {
        Part::All => true,
        Part::Entries(entries) => entries.iter().any(|e| has_all(&e.1)),
        Part::Exist | Part::None => false,
    }
}

#[cfg(test)]
mod tests {
    use super::*;

    /// A number, a pair of numbers: which inputs two runs may differ in (reading 39), and what is asked.
    #[test]
    fn parts_as_places() {
        let (shapes, ids) = Shapes::of(&[vec![0], vec![1, 2], vec![6, 2, 0, 65535, 1, 65535]]);
        let free = |part: &str| {
            let mut found = Vec::new();
            unneeded(&shapes, ids[2], Some(&Part::parse(part).unwrap()), 5, &mut found);
            found
        };
        assert_eq!(free("all"), [0; 0]);
        assert_eq!((free("exist"), free("{}"), free("{0:{3:exist},1:exist}")), (vec![5, 6, 7], vec![5, 6, 7], vec![5, 6, 7]));
        assert_eq!((free("{1:all}"), free("{1:{0:all}}"), free("{0:{3:all}}")), (vec![5], vec![5, 7], vec![6, 7]));
        let wanted = |part: &str| {
            let mut found = Vec::new();
            asked(&shapes, ids[2], &Part::parse(part).unwrap(), 5, &mut found);
            found
        };
        assert_eq!((wanted("all"), wanted("exist")), (vec![5..8], vec![]));
        assert_eq!(wanted("{0:all,1:{1:all,2:all},2:all}"), [5..6, 7..8]);
    }
}
