//! The expressions of a model.
use super::world::{width, ALLOY, ALLOY_MATRIX, MATRIX3, MATRIX4, MOULD, MOULD_MATRIX, SCALAR, SHELLS, STRUCTS, VECTOR3, VECTOR4};
use super::{Expression, Model, Place, Type};
use crate::form::ABSENT;
use crate::limits;

const LITERAL: u16 = 0;
const ZERO: u16 = 1;
const INDEX: u16 = 3;
const ACCESS: u16 = 4;
const SPLAT: u16 = 6;
const SWIZZLE: u16 = 7;
const COMPOSE: u16 = 8;
const ARGUMENT: u16 = 9;
const GLOBAL: u16 = 10;
const LOCAL: u16 = 11;
const LOAD: u16 = 12;
const UNARY: u16 = 16;
const BINARY: u16 = 17;
const SELECT: u16 = 18;
const RELATIONAL: u16 = 20;
const MATH: u16 = 21;
const AS: u16 = 22;

impl Model {
    /// An expression of these fields (kind first) over these operands.
    pub(super) fn add(&mut self, kind: Type, fields: Vec<u16>, over: &[usize]) -> usize {
        let reads = over.iter().fold(0, |r, e| r | self.expressions[*e].reads);
        let cost = 1 + over.iter().map(|e| self.expressions[*e].cost).sum::<usize>();
        self.expressions.push(Expression { kind, fields, reads, cost });
        self.expressions.len() - 1
    }

    /// The first expressions: arguments, globals, locals, a literal, zeros of a scalar and of the vectors.
    pub(super) fn first_expressions(&mut self) {
        for (n, argument) in self.world.arguments.clone().iter().enumerate() {
            self.add(argument[0], vec![ARGUMENT, n as u16], &[]);
        }
        for (n, kind) in self.world.globals.clone().into_iter().enumerate() {
            let pointer = self.world.pointer(kind);
            self.add(pointer, vec![GLOBAL, n as u16], &[]);
        }
        for (n, kind) in self.world.locals.clone().into_iter().enumerate() {
            let pointer = self.world.pointer(kind);
            let e = self.add(pointer, vec![LOCAL, n as u16], &[]);
            self.expressions[e].reads = 1 << n;
        }
        self.add(SCALAR, vec![LITERAL], &[]);
        for kind in SCALAR..=VECTOR4 {
            self.add(kind, vec![ZERO], &[]);
        }
        self.emitted = self.expressions.len();
    }

    pub(super) fn global(&self, number: usize) -> usize {
        self.world.arguments.len() + number
    }

    pub(super) fn local(&self, number: usize) -> usize {
        self.global(self.world.globals.len()) + number
    }

    pub(super) fn literal(&self) -> usize {
        self.local(self.world.locals.len())
    }

    pub(super) fn zero(&self, kind: Type) -> usize {
        self.literal() + 1 + kind as usize
    }

    /// What a pointer points to.
    fn pointee(&self, pointer: usize) -> Type {
        self.world.types[self.expressions[pointer].kind as usize][1]
    }

    /// The pointer to a member; made once, since a path needs no emit.
    fn member(&mut self, pointer: usize, index: u16) -> usize {
        if let Some(found) = self.members.get(&(pointer, index)) {
            return *found;
        }
        let kind = self.world.member(self.pointee(pointer), index);
        let kind = self.world.pointer(kind);
        let made = self.add(kind, vec![INDEX, pointer as u16, index], &[pointer]);
        self.members.insert((pointer, index), made);
        made
    }

    pub(super) fn pointer(&mut self, place: &Place) -> usize {
        place.path.iter().fold(place.variable, |pointer, index| self.member(pointer, *index))
    }

    fn load(&mut self, pointer: usize) -> usize {
        let kind = self.pointee(pointer);
        self.add(kind, vec![LOAD, pointer as u16], &[pointer])
    }

    pub(super) fn load_place(&mut self, place: &Place) -> usize {
        let pointer = self.pointer(place);
        self.load(pointer)
    }

    pub(super) fn load_local(&mut self, number: usize) -> usize {
        self.load(self.local(number))
    }

    pub(super) fn binary(&mut self, kind: Type, a: usize, b: usize) -> usize {
        self.add(kind, vec![BINARY, a as u16, b as u16], &[a, b])
    }

    pub(super) fn select(&mut self, kind: Type, condition: usize, a: usize, b: usize) -> usize {
        self.add(kind, vec![SELECT, condition as u16, a as u16, b as u16], &[condition, a, b])
    }

    pub(super) fn compose(&mut self, kind: Type, components: &[usize]) -> usize {
        let list = components.iter().map(|c| *c as u16);
        self.add(kind, [COMPOSE, components.len() as u16].into_iter().chain(list).collect(), components)
    }

    /// Expressions that may still be made, the ones of the return value kept back.
    pub(super) fn room(&self) -> usize {
        let outputs: usize = self.world.outputs.iter().map(|o| self.world.types[*o as usize][1] as usize).sum();
        (limits::EXPRESSIONS - 2 * outputs - 8).saturating_sub(self.expressions.len())
    }

    /// A value of this type: one that is there, a new one over operands of at most this depth, or an input.
    pub(super) fn value(&mut self, kind: Type, depth: usize) -> usize {
        let ready: Vec<usize> = self.values.iter().rev().take(60).copied().filter(|e| self.usable(*e, kind)).collect();
        if self.room() < 40 || (!ready.is_empty() && self.random.chance(30)) {
            return if ready.is_empty() { self.zero(kind) } else { *self.random.pick(&ready) };
        }
        let made = if depth == 0 || self.random.chance(30) { self.leaf(kind) } else { self.node(kind, depth - 1) };
        self.values.push(made);
        made
    }

    fn usable(&self, e: usize, kind: Type) -> bool {
        let e = &self.expressions[e];
        e.kind == kind && e.reads & self.barred == 0 && e.cost <= 12
    }

    /// A variable's value, or an input's.
    fn leaf(&mut self, kind: Type) -> usize {
        let barred = self.barred;
        let free = |l: usize| barred >> l & 1 == 0;
        let mut found: Vec<Place> = self.places.iter().filter(|p| p.kind == kind && p.local.is_some_and(free)).cloned().collect();
        for l in self.readable.iter().filter(|l| free(**l) && self.world.locals[**l] == kind) {
            found.push(Place { variable: self.local(*l), local: Some(*l), path: vec![], kind });
        }
        match self.random.below(100) {
            0..=54 if !found.is_empty() => {
                let place = self.random.pick(&found).clone();
                self.load_place(&place)
            }
            80..=84 => self.zero(kind),
            _ => self.input(kind),
        }
    }

    /// A member of a shell that a counter picks, an argument of this type, or a member of one of the structs.
    fn input(&mut self, kind: Type) -> usize {
        let of_shell = self.world.members_of(self.world.shell, kind);
        let counters: Vec<usize> = self.readable.iter().copied().filter(|l| self.world.counters.contains(l)).collect();
        if !of_shell.is_empty() && !counters.is_empty() && self.random.chance(40) {
            let (counter, member) = (*self.random.pick(&counters), *self.random.pick(&of_shell));
            return self.of_shell(counter, member);
        }
        let whole = self.single_arguments(kind);
        if !whole.is_empty() && self.random.chance(30) {
            return *self.random.pick(&whole);
        }
        let argument = self.random.below(STRUCTS);
        let members = self.world.members_of(self.world.arguments[argument][0], kind);
        let member = *self.random.pick(&members);
        self.add(kind, vec![INDEX, argument as u16, member], &[argument])
    }

    /// The arguments of a type, as expressions.
    pub(super) fn single_arguments(&self, kind: Type) -> Vec<usize> {
        (STRUCTS..self.world.arguments.len()).filter(|n| self.world.arguments[*n][0] == kind).collect()
    }

    fn of_shell(&mut self, counter: usize, member: u16) -> usize {
        let shells = self.global(SHELLS);
        let index = self.load_local(counter);
        let kind = self.world.pointer(self.world.shell);
        let shell = self.add(kind, vec![ACCESS, shells as u16, index as u16], &[shells, index]);
        let pointer = self.member(shell, member);
        self.load(pointer)
    }

    /// A new value over others.
    fn node(&mut self, kind: Type, depth: usize) -> usize {
        match self.random.below(100) {
            0..=41 => {
                let (a, b) = (self.value(kind, depth), self.value(kind, depth));
                self.binary(kind, a, b)
            }
            42..=49 => {
                let a = self.value(kind, depth);
                let code = *self.random.pick(&[UNARY, AS]);
                self.add(kind, vec![code, a as u16], &[a])
            }
            50..=55 => {
                let (c, a, b) = (self.value(SCALAR, depth), self.value(kind, depth), self.value(kind, depth));
                self.select(kind, c, a, b)
            }
            56..=69 => self.math(kind, depth),
            _ if kind == SCALAR => self.part_of_vector(depth),
            70..=79 => self.swizzle(kind, depth),
            80..=87 => {
                let a = self.value(SCALAR, depth);
                self.add(kind, vec![SPLAT, a as u16], &[a])
            }
            88..=93 if kind >= VECTOR3 => self.product(kind, depth),
            _ => {
                let components: Vec<usize> = (0..width(kind)).map(|_| self.value(SCALAR, depth)).collect();
                self.compose(kind, &components)
            }
        }
    }

    fn math(&mut self, kind: Type, depth: usize) -> usize {
        let count = *self.random.pick(&[1, 2, 2, 3]);
        let over: Vec<usize> = (0..count).map(|_| self.value(kind, depth)).collect();
        let mut fields = vec![MATH, ABSENT, ABSENT, ABSENT, ABSENT];
        for (n, e) in over.iter().enumerate() {
            fields[1 + n] = *e as u16;
        }
        self.add(kind, fields, &over)
    }

    fn part_of_vector(&mut self, depth: usize) -> usize {
        let kind = *self.random.pick(&[1, VECTOR3, VECTOR4]);
        let a = self.value(kind, depth);
        if self.random.chance(25) {
            return self.add(SCALAR, vec![RELATIONAL, a as u16], &[a]);
        }
        let index = self.random.below(width(kind) as usize) as u16;
        self.add(SCALAR, vec![INDEX, a as u16, index], &[a])
    }

    fn swizzle(&mut self, kind: Type, depth: usize) -> usize {
        let from = self.random.between(kind as usize, VECTOR4 as usize) as Type;
        let a = self.value(from, depth);
        let mut fields = vec![SWIZZLE, a as u16, width(kind)];
        for _ in 0..width(kind) {
            fields.push(self.random.below(width(from) as usize) as u16);
        }
        self.add(kind, fields, &[a])
    }

    /// A matrix times a vector.
    fn product(&mut self, kind: Type, depth: usize) -> usize {
        let (argument, member, matrix) = if kind == VECTOR4 { (MOULD, MOULD_MATRIX, MATRIX4) } else { (ALLOY, ALLOY_MATRIX, MATRIX3) };
        let m = self.add(matrix, vec![INDEX, argument as u16, member], &[argument]);
        let a = self.value(kind, depth);
        self.binary(kind, m, a)
    }
}
