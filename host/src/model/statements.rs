//! The statements of a model.
use super::world::{PROBE, SCALAR};
use super::{Model, Place, Statement, Type};
use crate::form::ABSENT;

const EMIT: u16 = 0;
const IF: u16 = 2;
const SWITCH: u16 = 3;
const LOOP: u16 = 4;
const BREAK: u16 = 5;
const CONTINUE: u16 = 6;
const RETURN: u16 = 7;
const STORE: u16 = 12;

/// A loop's own statements: emit, if and break of its guard, emit and store of its continuing, and itself.
const OF_LOOP: usize = 6;
/// What may be left for a statement with blocks to begin.
const FOR_BLOCKS: usize = 16;

impl Model {
    pub(super) fn start(&mut self) {
        self.first_expressions();
        for l in self.world.variables.clone() {
            let kind = self.world.locals[l];
            let whole = Place { variable: self.local(l), local: Some(l), path: vec![], kind };
            match self.world.types[kind as usize][0] {
                6 => self.add_members(whole),
                1 if self.random.chance(40) => {
                    self.add_members(whole.clone());
                    self.places.push(whole);
                }
                _ => self.places.push(whole),
            }
        }
        let inner = self.world.counters.iter().chain(self.world.temporaries.iter().flatten());
        self.barred = inner.fold(0, |b, l| b | 1 << l);
    }

    /// The members of a struct, the components of a vector.
    fn add_members(&mut self, place: Place) {
        let count = self.world.types[place.kind as usize][1];
        for index in 0..count {
            let kind = self.world.member(place.kind, index);
            let path = [&place.path[..], &[index]].concat();
            self.places.push(Place { path, kind, ..place.clone() });
        }
    }

    /// The whole body: variables are set, then what there is room for, then the return.
    pub(super) fn body(&mut self) {
        let mut out = Vec::new();
        let places = self.places.clone();
        for place in places.iter().filter(|p| p.path.is_empty()) {
            if self.left() > 2 * FOR_BLOCKS {
                let v = self.value(place.kind, 1);
                self.store(&mut out, place, v);
            }
        }
        while self.left() > 0 {
            self.statement(&mut out, self.world.depth);
        }
        self.finish(&mut out);
        self.blocks.push(out);
    }

    /// Statements that may still be added; the last emit and the return are kept back.
    fn left(&self) -> usize {
        (self.target - 2).saturating_sub(self.count + self.owed)
    }

    fn put(&mut self, out: &mut Vec<Statement>, fields: &[u16]) {
        self.count += 1;
        out.push(fields.to_vec());
    }

    /// A statement that was owed.
    fn put_owed(&mut self, out: &mut Vec<Statement>, fields: &[u16]) {
        self.owed -= 1;
        self.put(out, fields);
    }

    fn emit(&mut self, out: &mut Vec<Statement>) {
        let end = self.expressions.len();
        if self.emitted < end {
            self.put(out, &[EMIT, self.emitted as u16, end as u16 - 1]);
            self.emitted = end;
        }
    }

    fn store(&mut self, out: &mut Vec<Statement>, place: &Place, value: usize) {
        let pointer = self.pointer(place);
        self.emit(out);
        self.put(out, &[STORE, pointer as u16, value as u16]);
    }

    /// A block of at most so many statements, held by the next one; values made in it are not known after it.
    fn block(&mut self, depth: usize, statements: usize) -> u16 {
        let mut out = Vec::new();
        let known = self.values.len();
        for _ in 0..statements {
            if self.left() > 0 {
                self.statement(&mut out, depth);
            }
        }
        self.values.truncate(known);
        self.close(out)
    }

    fn close(&mut self, block: Vec<Statement>) -> u16 {
        self.blocks.push(block);
        self.blocks.len() as u16 - 1
    }

    fn statement(&mut self, out: &mut Vec<Statement>, depth: usize) {
        let deep = depth > 0 && self.left() > FOR_BLOCKS;
        match self.random.below(100) {
            72..=85 if deep => self.branch(out, depth),
            86..=89 if deep => self.switch(out, depth),
            90.. if deep && depth > 1 && self.room() > 60 => self.looping(out, depth),
            _ => self.assign(out),
        }
    }

    /// A store; the last one that there is room for has no emit.
    fn assign(&mut self, out: &mut Vec<Statement>) {
        if self.left() < 2 {
            return self.assign_nothing(out);
        }
        match self.looping.clone() {
            Some(own) if self.room() > 0 => self.assign_in_loop(out, &own),
            Some(_) => self.assign_nothing(out),
            None if self.random.chance(4) => self.assign_probe(out),
            None => {
                let place = self.random.pick(&self.places).clone();
                let deep = self.deep();
                let v = self.value(place.kind, deep);
                self.store(out, &place, v);
            }
        }
    }

    /// A store to a temporary that nothing reads.
    fn assign_nothing(&mut self, out: &mut Vec<Statement>) {
        let unread = self.local(self.world.temporaries[0][0]);
        self.put(out, &[STORE, unread as u16, self.literal() as u16]);
    }

    /// How deep a new value may be, by the expressions that are left for each statement.
    fn deep(&mut self) -> usize {
        let most = (2 * self.room() / (self.left() + 1)).clamp(1, 4);
        self.random.below(most)
    }

    /// A variable of the loop, from itself.
    fn assign_in_loop(&mut self, out: &mut Vec<Statement>, own: &[Place]) {
        let place = self.random.pick(own).clone();
        let deep = self.deep();
        let change = self.value(place.kind, deep);
        let before = self.load_place(&place); // not kept: it may be read here alone
        let v = match self.random.below(5) {
            0 => {
                let c = self.value(SCALAR, 0);
                self.select(place.kind, c, before, change)
            }
            _ => self.binary(place.kind, before, change),
        };
        self.store(out, &place, v);
    }

    fn assign_probe(&mut self, out: &mut Vec<Statement>) {
        let index = self.random.below(3) as u16;
        let kind = self.world.member(self.world.globals[PROBE], index);
        let v = self.value(kind, 1);
        let place = Place { variable: self.global(PROBE), local: None, path: vec![index], kind };
        self.store(out, &place, v);
    }

    fn condition(&mut self, out: &mut Vec<Statement>, depth: usize) -> u16 {
        let c = self.value(SCALAR, depth);
        self.emit(out);
        c as u16
    }

    fn branch(&mut self, out: &mut Vec<Statement>, depth: usize) {
        let c = self.condition(out, 2);
        self.owed += 1;
        let (most, other) = (self.random.between(2, 6), self.random.between(1, 4));
        let accept = self.block(depth - 1, most);
        let reject = if self.random.chance(60) { self.block(depth - 1, other) } else { self.close(vec![]) };
        self.put_owed(out, &[IF, c, accept, reject]);
    }

    fn switch(&mut self, out: &mut Vec<Statement>, depth: usize) {
        let selector = *self.random.pick(&self.single_arguments(SCALAR)) as u16;
        self.owed += 1;
        let cases = self.random.between(2, 4) as u16;
        let mut fields = vec![SWITCH, selector, cases];
        for n in 0..cases {
            let most = self.random.between(1, 3);
            let block = self.block(depth - 1, most);
            fields.extend([if n + 1 < cases { n } else { ABSENT }, block]);
        }
        self.put_owed(out, &fields);
    }

    fn looping(&mut self, out: &mut Vec<Statement>, depth: usize) {
        let counter = self.world.counters[depth - 1];
        let known = (self.values.len(), self.readable.len(), self.barred, self.looping.clone());
        if self.looping.is_none() {
            self.choose_own();
        }
        let end = self.value(SCALAR, 1);
        self.emit(out);
        self.put(out, &[STORE, self.local(counter) as u16, self.zero(SCALAR) as u16]);
        self.owed += OF_LOOP;
        let body = self.loop_body(counter, end, depth);
        let mut continuing = Vec::new();
        let now = self.load_local(counter);
        let next = self.binary(SCALAR, now, self.literal());
        self.owed -= 1;
        self.emit(&mut continuing);
        self.put_owed(&mut continuing, &[STORE, self.local(counter) as u16, next as u16]);
        let continuing = self.close(continuing);
        self.values.truncate(known.0);
        self.readable.truncate(known.1);
        (self.barred, self.looping) = (known.2, known.3);
        self.put_owed(out, &[LOOP, body, continuing, ABSENT]);
    }

    /// The places that an outermost loop sets, one for each variable; nothing else in it may read them.
    fn choose_own(&mut self) {
        let mut own: Vec<Place> = Vec::new();
        for _ in 0..9 {
            let place = self.random.pick(&self.places).clone();
            if own.iter().all(|p| p.local != place.local) {
                own.push(place);
            }
        }
        self.barred |= own.iter().filter_map(|p| p.local).fold(0, |b, l| b | 1 << l);
        self.looping = Some(own);
    }

    fn loop_body(&mut self, counter: usize, end: usize, depth: usize) -> u16 {
        let mut body = Vec::new();
        let now = self.load_local(counter);
        let guard = self.binary(SCALAR, now, end);
        self.owed -= 1;
        self.emit(&mut body);
        let (go_on, mut stop) = (self.close(vec![]), Vec::new());
        self.put_owed(&mut stop, &[BREAK]);
        let stop = self.close(stop);
        self.put_owed(&mut body, &[IF, guard as u16, go_on, stop]);
        self.barred &= !(1 << counter);
        self.readable.push(counter);
        self.set_temporaries(&mut body, depth);
        if self.left() > 4 && self.random.chance(20) {
            self.skip(&mut body);
        }
        for _ in 0..self.random.between(3, 8) {
            if self.left() > 0 {
                self.statement(&mut body, depth - 1);
            }
        }
        self.close(body)
    }

    /// Temporaries that are set anew in each turn may be read after that.
    fn set_temporaries(&mut self, body: &mut Vec<Statement>, depth: usize) {
        for l in self.world.temporaries[depth - 1].clone() {
            if self.left() > 4 && self.random.chance(50) {
                let kind = self.world.locals[l];
                let v = self.value(kind, 1);
                let place = Place { variable: self.local(l), local: Some(l), path: vec![], kind };
                self.store(body, &place, v);
                self.barred &= !(1 << l);
                self.readable.push(l);
            }
        }
    }

    /// An if that goes on to the next turn.
    fn skip(&mut self, body: &mut Vec<Statement>) {
        let c = self.condition(body, 1);
        let mut block = Vec::new();
        self.put(&mut block, &[CONTINUE]);
        let (accept, reject) = (self.close(block), self.close(vec![]));
        self.put(body, &[IF, c, accept, reject]);
    }

    /// The fields are loaded from variables of their types, composed and returned.
    fn finish(&mut self, out: &mut Vec<Statement>) {
        let mut structs = Vec::new();
        for output in self.world.outputs.clone() {
            let members: Vec<Type> = self.world.types[output as usize][2..].chunks(2).map(|m| m[0]).collect();
            let fields: Vec<usize> = members.iter().map(|kind| self.field(*kind)).collect();
            structs.push(self.compose(output, &fields));
        }
        let value = self.compose(self.world.result, &structs);
        self.emit(out);
        self.put(out, &[RETURN, value as u16]);
    }

    fn field(&mut self, kind: Type) -> usize {
        let found: Vec<Place> = self.places.iter().filter(|p| p.kind == kind).cloned().collect();
        if found.is_empty() {
            return self.zero(kind);
        }
        let place = self.random.pick(&found).clone();
        self.load_place(&place)
    }
}
