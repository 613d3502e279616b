//! Types by shape: two types that WGSL would build alike have one number here. Bindings are no part of a shape.
use std::collections::BTreeMap;

/// A shape's number.
pub type Id = usize;

#[derive(Clone, PartialEq, Eq, PartialOrd, Ord, Debug)]
pub enum Shape {
    Scalar,
    Vector(u16),
    Matrix { columns: u16, rows: u16 },
    Atomic,
    Pointer(Id),
    Array { base: Id, count: u16 },
    Struct(Vec<Id>),
    BindingArray(Id),
    Opaque,
}

pub const SCALAR: Id = 0;

/// Scalars and vectors have their numbers from the start, whether the module has them or not.
pub fn vector(size: u16) -> Id {
    size as Id - 1
}

pub struct Shapes {
    list: Vec<Shape>,
    numbers: BTreeMap<Shape, Id>,
    /// Whether it holds a run-sized array or a binding array.
    unsized_: Vec<bool>,
    /// How many numbers a value of it has.
    sizes: Vec<u64>,
}

impl Shapes {
    fn new() -> Shapes {
        let mut shapes = Shapes { list: Vec::new(), numbers: BTreeMap::new(), unsized_: Vec::new(), sizes: Vec::new() };
        for shape in [Shape::Scalar, Shape::Vector(2), Shape::Vector(3), Shape::Vector(4)] {
            shapes.intern(shape);
        }
        shapes
    }

    /// The shapes of these types' fields, and the shape of each type.
    pub fn of(types: &[Vec<u16>]) -> (Shapes, Vec<Id>) {
        let mut shapes = Shapes::new();
        let mut ids: Vec<Id> = Vec::new();
        for fields in types {
            let id = |t: u16| ids[t as usize];
            let shape = match *fields.as_slice() {
                [0] => Shape::Scalar,
                [1, size] => Shape::Vector(size),
                [2, columns, rows] => Shape::Matrix { columns, rows },
                [3] => Shape::Atomic,
                [4, base] => Shape::Pointer(id(base)),
                [5, base, count] => Shape::Array { base: id(base), count },
                [6, _, ref members @ ..] => Shape::Struct(members.chunks(2).map(|m| id(m[0])).collect()),
                [7, base] => Shape::BindingArray(id(base)),
                _ => Shape::Opaque,
            };
            let number = shapes.intern(shape);
            ids.push(number);
        }
        (shapes, ids)
    }

    fn intern(&mut self, shape: Shape) -> Id {
        if let Some(found) = self.numbers.get(&shape) {
            return *found;
        }
        let number = self.list.len();
        self.unsized_.push(self.has_unsized(&shape));
        self.sizes.push(self.size_of(&shape));
        self.numbers.insert(shape.clone(), number);
        self.list.push(shape);
        number
    }

    fn has_unsized(&self, shape: &Shape) -> bool {
        match shape {
            Shape::BindingArray(_) => true,
            Shape::Array { base, count } => *count == 0 || self.unsized_[*base],
            Shape::Struct(members) => members.iter().any(|m| self.unsized_[*m]),
            _ => false,
        }
    }

    fn size_of(&self, shape: &Shape) -> u64 {
        match shape {
            Shape::Vector(size) => u64::from(*size),
            Shape::Matrix { columns, rows } => u64::from(*columns) * u64::from(*rows),
            Shape::Array { count: 0, .. } => 1,
            Shape::Array { base, count } => self.sizes[*base].saturating_mul(u64::from(*count)),
            Shape::Struct(members) => members.iter().fold(0, |n: u64, m| n.saturating_add(self.sizes[*m])),
            _ => 1,
        }
    }

    pub fn get(&self, id: Id) -> &Shape {
        &self.list[id]
    }

    pub fn is_unsized(&self, id: Id) -> bool {
        self.unsized_[id]
    }

    pub fn size(&self, id: Id) -> u64 {
        self.sizes[id]
    }

    pub fn pointee(&self, id: Id) -> Option<Id> {
        match self.list[id] {
            Shape::Pointer(base) => Some(base),
            _ => None,
        }
    }

    /// What a path of this type leads to: what it points to, or the type itself where it is no pointer.
    pub fn led_to(&self, id: Id) -> Id {
        self.pointee(id).unwrap_or(id)
    }

    /// What stands under an index, if it is within the type. No index is outside a run-sized or binding array.
    pub fn member(&self, id: Id, index: u16) -> Option<Id> {
        match self.list[id] {
            Shape::Vector(size) if index < size => Some(SCALAR),
            Shape::Matrix { columns, rows } if index < columns => Some(vector(rows)),
            Shape::Array { base, count } if count == 0 || index < count => Some(base),
            Shape::Struct(ref members) => members.get(index as usize).copied(),
            Shape::BindingArray(base) => Some(base),
            _ => None,
        }
    }

    /// What stands under a dynamic index.
    pub fn element(&self, id: Id) -> Option<Id> {
        match self.list[id] {
            Shape::Struct(_) => None,
            _ => self.member(id, 0),
        }
    }

    /// How many elements an array has that is not run-sized.
    pub fn elements(&self, id: Id) -> Option<u16> {
        match self.list[id] {
            Shape::Array { count, .. } if count > 0 => Some(count),
            _ => None,
        }
    }

    /// How many numbers of a value stand before those of this member.
    pub fn offset(&self, id: Id, index: u16) -> usize {
        let before = match self.list[id] {
            Shape::Matrix { rows, .. } => u64::from(index) * u64::from(rows),
            Shape::Array { base, .. } => u64::from(index) * self.sizes[base],
            Shape::Struct(ref members) => members[..index as usize].iter().map(|m| self.sizes[*m]).sum(),
            _ => u64::from(index),
        };
        before as usize
    }

    /// How many members taking out splits it into; nothing if it is not split.
    pub fn splits(&self, id: Id) -> Option<u16> {
        match self.list[id] {
            Shape::Vector(size) => Some(size),
            Shape::Matrix { columns, .. } => Some(columns),
            Shape::Struct(ref members) => Some(members.len() as u16),
            _ => None,
        }
    }
}

#[cfg(test)]
mod tests {
    use super::*;

    #[test]
    fn equal_shapes_have_one_number() {
        let types = [vec![0], vec![1, 3], vec![6, 2, 0, 65535, 1, 4], vec![6, 2, 0, 7, 1, 5], vec![2, 2, 3], vec![5, 2, 0], vec![5, 3, 4]];
        let (shapes, ids) = Shapes::of(&types);
        assert_eq!(ids[2], ids[3]);
        assert_eq!((shapes.member(ids[4], 1), shapes.member(ids[4], 2)), (Some(ids[1]), None));
        assert_eq!((shapes.member(ids[5], 65534), shapes.member(ids[6], 4)), (Some(ids[2]), None));
        assert_eq!((shapes.is_unsized(ids[5]), shapes.is_unsized(ids[6]), shapes.size(ids[6])), (true, false, 16));
    }
}
