//! What a model has before its first statement: types, globals, arguments, locals, and what is asked.
use super::Type;
use crate::form::ABSENT;
use crate::part::Part;
use crate::random::Random;

pub const SCALAR: Type = 0;
pub const VECTOR3: Type = 2;
pub const VECTOR4: Type = 3;
pub const MATRIX3: Type = 4;
pub const MATRIX4: Type = 5;

/// The components of a scalar or a vector.
pub fn width(kind: Type) -> u16 {
    kind + 1
}

pub struct World {
    pub types: Vec<Vec<u16>>,
    /// The mould's shells, and a probe that is written.
    pub globals: Vec<Type>,
    /// Type and binding: three structs (cell, mould, alloy), then vectors and scalars.
    pub arguments: Vec<[u16; 2]>,
    pub locals: Vec<Type>,
    pub result: Type,
    /// The structs of output fields.
    pub outputs: Vec<Type>,
    pub asked: Part,
    pub shell: Type,
    /// Locals by use: a loop's counter and temporaries, by depth; then variables.
    pub counters: Vec<usize>,
    pub temporaries: Vec<Vec<usize>>,
    pub variables: Vec<usize>,
    /// How deeply statements nest.
    pub depth: usize,
}

/// Arguments.
pub const STRUCTS: usize = 3;
pub const MOULD: usize = 1;
pub const ALLOY: usize = 2;
/// Globals.
pub const SHELLS: usize = 0;
pub const PROBE: usize = 1;
/// The mould's and the alloy's member that is a matrix.
pub const MOULD_MATRIX: u16 = 0;
pub const ALLOY_MATRIX: u16 = 5;
const SHELL_COUNT: u16 = 8;

impl World {
    pub fn new(statements: usize, random: &mut Random) -> World {
        let types = vec![vec![0], vec![1, 2], vec![1, 3], vec![1, 4], vec![2, 3, 3], vec![2, 4, 4]];
        let mut world = World {
            types,
            globals: Vec::new(),
            arguments: Vec::new(),
            locals: Vec::new(),
            result: 0,
            outputs: Vec::new(),
            asked: Part::All,
            shell: 0,
            counters: Vec::new(),
            temporaries: Vec::new(),
            variables: Vec::new(),
            depth: if statements < 200 { 2 } else { 4 },
        };
        world.inputs();
        world.add_outputs((statements / 15).clamp(2, 40), random);
        world.add_locals((statements / 20).clamp(4, 30));
        world
    }

    fn add(&mut self, fields: Vec<u16>) -> Type {
        self.types.push(fields);
        self.types.len() as Type - 1
    }

    /// Members: type and binding.
    fn structure(&mut self, members: &[(Type, u16)]) -> Type {
        let fields = members.iter().flat_map(|m| [m.0, m.1]);
        self.add([6, members.len() as u16].into_iter().chain(fields).collect())
    }

    fn plain(&mut self, members: &[Type]) -> Type {
        let members: Vec<(Type, u16)> = members.iter().map(|t| (*t, ABSENT)).collect();
        self.structure(&members)
    }

    /// The pointer to a type.
    pub fn pointer(&mut self, to: Type) -> Type {
        let fields = vec![4, to];
        match self.types.iter().position(|t| *t == fields) {
            Some(found) => found as Type,
            None => self.add(fields),
        }
    }

    /// The type of a member, a column, a component or an element.
    pub fn member(&self, kind: Type, index: u16) -> Type {
        match self.types[kind as usize][..] {
            [2, _, rows] => rows - 1,
            [5, base, _] => base,
            [6, _, ref members @ ..] => members[2 * index as usize],
            _ => SCALAR,
        }
    }

    /// The members of a struct that have this type.
    pub fn members_of(&self, structure: Type, kind: Type) -> Vec<u16> {
        let members = self.types[structure as usize][2..].chunks(2).enumerate();
        members.filter(|(_, m)| m[0] == kind).map(|(i, _)| i as u16).collect()
    }

    fn inputs(&mut self) {
        let (s, v2, v3, v4) = (SCALAR, 1, VECTOR3, VECTOR4);
        let cell = self.structure(&[(v4, 32), (v3, 0), (v4, 1), (v2, 2), (s, 3), (v3, 4)]);
        let mould = self.plain(&[MATRIX4, v3, v4, s, v2]);
        let alloy = self.plain(&[v4, v3, s, s, v2, MATRIX3]);
        self.shell = self.plain(&[v3, s, v4, s]);
        let shells = self.add(vec![5, self.shell, SHELL_COUNT]);
        let probe = self.plain(&[s, v3, v4]);
        self.globals = vec![shells, probe];
        let single = [[v4, 33], [v3, 5], [v2, 6], [s, 34], [s, 7]];
        self.arguments = [cell, mould, alloy].map(|t| [t, ABSENT]).into_iter().chain(single).collect();
    }

    /// Fields in structs of at most 16, which the result holds; about half of them are asked.
    fn add_outputs(&mut self, fields: usize, random: &mut Random) {
        let mut entries = Vec::new();
        for first in (0..fields).step_by(16) {
            let count = (fields - first).min(16);
            let binding = |i: usize| if first + i < 32 { (first + i) as u16 } else { ABSENT };
            let kinds = [SCALAR, SCALAR, 1, VECTOR3, VECTOR3, VECTOR4];
            let members: Vec<(Type, u16)> = (0..count).map(|i| (*random.pick(&kinds), binding(i))).collect();
            let chosen: Vec<(u16, Part)> = (0..count as u16).filter(|i| *i == 0 || random.chance(50)).map(|i| (i, Part::All)).collect();
            entries.push((self.outputs.len() as u16, Part::Entries(chosen)));
            let output = self.structure(&members);
            self.outputs.push(output);
        }
        self.result = self.plain(&self.outputs.clone());
        self.asked = Part::Entries(entries);
    }

    fn local(&mut self, kind: Type) -> usize {
        self.locals.push(kind);
        self.locals.len() - 1
    }

    fn add_locals(&mut self, variables: usize) {
        for _ in 0..self.depth {
            let counter = self.local(SCALAR);
            self.counters.push(counter);
            let temporaries = vec![self.local(SCALAR), self.local(VECTOR3)];
            self.temporaries.push(temporaries);
        }
        let surface = self.plain(&[VECTOR3, VECTOR4, SCALAR, 1]);
        for n in 0..variables {
            let kind = [SCALAR, VECTOR3, VECTOR4, 1, SCALAR, VECTOR3, surface][n % 7];
            let variable = self.local(kind);
            self.variables.push(variable);
        }
    }
}
