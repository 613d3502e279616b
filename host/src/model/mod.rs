//! Casting models of any size, for examples and measurements: one entry function with struct, vector and scalar arguments, up to
//! 40 output fields, ifs, switches and loops in each other. Types fit, only kinds that the clearance judges occur, and loops
//! settle: inside a loop a variable is set from itself, from what the loop does not set, from counters, or from a temporary set
//! before in the same turn, so that what a loop needs is all found in its first pass.
mod statements;
mod values;
mod world;

use crate::draft::Draft;
use crate::form::{Mark, ABSENT};
use crate::limits;
use crate::random::Random;
use crate::request::Request;
use std::collections::HashMap;
use world::World;

/// Fewer statements than this make no such model.
pub const LEAST: usize = 40;

pub type Statement = Vec<u16>;

struct Expression {
    kind: Type,
    fields: Vec<u16>,
    /// The locals that it reads, a bit each.
    reads: u64,
    /// Visits that asking for it takes.
    cost: usize,
}

/// A type's number.
type Type = u16;

/// What may be set: a variable's expression, its local (none of a global), the members on the way, the type.
#[derive(Clone)]
struct Place {
    variable: usize,
    local: Option<usize>,
    path: Vec<u16>,
    kind: Type,
}

pub struct Model {
    random: Random,
    world: World,
    expressions: Vec<Expression>,
    /// The member of a pointer, once it is there.
    members: HashMap<(usize, u16), usize>,
    /// Values that may be used again here.
    values: Vec<usize>,
    places: Vec<Place>,
    /// The places that the open loops set, if one is open.
    looping: Option<Vec<Place>>,
    /// Locals that may not be read here, a bit each.
    barred: u64,
    /// Counters and temporaries that may be read here.
    readable: Vec<usize>,
    /// Expressions up to here are in emits, or need none.
    emitted: usize,
    blocks: Vec<Vec<Statement>>,
    /// Statements so far, those that open ones still add, and how many there are to be.
    count: usize,
    owed: usize,
    target: usize,
}

/// A model of exactly so many statements, with one request.
pub fn generate(statements: usize, seed: u64) -> Result<Vec<u8>, String> {
    if !(LEAST..=limits::STATEMENTS).contains(&statements) {
        return Err(format!("a model has {LEAST} to {} statements", limits::STATEMENTS));
    }
    let mut model = Model::new(statements, seed);
    model.body();
    Ok(model.file())
}

impl Model {
    fn new(statements: usize, seed: u64) -> Model {
        let mut random = Random::new(seed);
        let world = World::new(statements, &mut random);
        let mut model = Model {
            random,
            world,
            expressions: Vec::new(),
            members: HashMap::new(),
            values: Vec::new(),
            places: Vec::new(),
            looping: None,
            barred: 0,
            readable: Vec::new(),
            emitted: 0,
            blocks: Vec::new(),
            count: 0,
            owed: 0,
            target: statements,
        };
        model.start();
        model
    }

    fn file(self) -> Vec<u8> {
        let world = &self.world;
        let mut draft = Draft::default();
        for fields in &world.types {
            draft.put(Mark::Type, fields);
        }
        for global in &world.globals {
            draft.put(Mark::Global, &[*global]);
        }
        draft.put(Mark::Function, &[1, world.result, ABSENT]);
        for argument in &world.arguments {
            draft.put(Mark::Argument, argument);
        }
        for local in &world.locals {
            draft.put(Mark::Local, &[*local]);
        }
        for e in &self.expressions {
            draft.put(Mark::Expression, &[&[e.kind], &e.fields[..]].concat());
        }
        for block in &self.blocks {
            draft.put(Mark::Block, &[]);
            for statement in block {
                draft.put(Mark::Statement, statement);
            }
        }
        let request = Request { function: 0, retval: self.world.asked.clone(), globals: Vec::new() };
        draft.put(Mark::Request, &request.fields());
        draft.0
    }
}
