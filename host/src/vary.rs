//! Other modules from one: expressions, and statements that hold no block, get other operands or another kind, such as reading accepts.
use crate::form::{Kind, Mark, Shape, ABSENT, EXPRESSIONS, LEVELS, MODES, STATEMENTS};
use crate::limits;
use crate::outline::Outline;
use crate::random::Random;
use crate::record::{fields, records, write};

/// The expression kind and the statement kind that the Rust leaves to do: everything else is worth more tries.
const TODO: [u16; 2] = [31, 11];
/// Statements from here on hold no block; an emit's expressions are in no other.
const PLAIN: u16 = 5;
/// Indexes into vectors, structs and arrays, and past them.
const INDEXES: [u16; 12] = [0, 0, 0, 1, 1, 1, 2, 2, 3, 5, 17, 300];

/// What an operand can name where it stands.
struct Scope<'a> {
    outline: &'a Outline,
    function: usize,
    /// The expressions below this number.
    expressions: usize,
}

pub fn varied(module: &[u8], outline: &Outline, random: &mut Random) -> Vec<u8> {
    let places = places(module);
    let mut parts: Vec<Vec<u8>> = records(module).0.iter().map(|r| module[r.at..r.at + 4 + r.body.len()].to_vec()).collect();
    for _ in 0..random.between(1, 4).min(places.len()) {
        let (at, function, number) = *random.pick(&places);
        let count = number.unwrap_or(outline.functions[function].expressions.len());
        let scope = Scope { outline, function, expressions: count };
        if let Some(record) = changed(&parts[at], number.is_some(), &scope, random) {
            parts[at] = record;
        }
    }
    parts.concat()
}

/// The records that may change: which it is, its function, and the number of an expression.
fn places(module: &[u8]) -> Vec<(usize, usize, Option<usize>)> {
    let mut found = Vec::new();
    let (mut functions, mut expressions) = (0, 0);
    for (at, record) in records(module).0.iter().enumerate() {
        match Mark::of_letters(record.letters) {
            Some(Mark::Function) => (functions, expressions) = (functions + 1, 0),
            Some(Mark::Expression) => {
                found.push((at, functions - 1, Some(expressions)));
                expressions += 1;
            }
            Some(Mark::Statement) if fields(record.body)[0] >= PLAIN => found.push((at, functions - 1, None)),
            _ => {}
        }
    }
    found
}

fn changed(record: &[u8], expression: bool, scope: &Scope, random: &mut Random) -> Option<Vec<u8>> {
    let old = fields(&record[4..]);
    let (mut new, kinds): (Vec<u16>, &[Kind]) = if expression { (vec![old[0]], &EXPRESSIONS) } else { (vec![], &STATEMENTS) };
    let least = if expression { 0 } else { PLAIN };
    let mut kind = old[new.len()];
    if random.chance(50) {
        kind = random.between(least as usize, kinds.len() - 1) as u16;
    }
    if TODO[usize::from(!expression)] == kind && random.chance(90) {
        return None;
    }
    new.push(kind);
    for (_, shape) in kinds[kind as usize].operands {
        scope.operand(*shape, random, &mut new)?;
    }
    write([record[0], record[1]], &new)
}

impl Scope<'_> {
    fn operand(&self, shape: Shape, random: &mut Random, fields: &mut Vec<u16>) -> Option<()> {
        let function = &self.outline.functions[self.function];
        match shape {
            Shape::Expression => fields.push(self.expression(random)?),
            Shape::Optional if random.chance(50) => fields.push(ABSENT),
            Shape::Optional => fields.push(self.expression(random)?),
            Shape::Expressions => {
                let count = random.below(limits::ITEMS + 1).min(random.below(limits::ITEMS + 1));
                self.expressions(Some(count as u16), count, random, fields)?;
            }
            Shape::Number => fields.push(*random.pick(&INDEXES)),
            Shape::Pattern => {
                let count = random.between(2, 4);
                fields.push(count as u16);
                fields.extend((0..count).map(|_| random.below(4) as u16));
            }
            Shape::Argument => fields.push(below(function.arguments, random)?),
            Shape::Global => fields.push(below(self.outline.globals.len(), random)?),
            Shape::Local => fields.push(below(function.locals, random)?),
            Shape::Function => fields.push(below(self.function, random)?),
            Shape::Level => self.coded(&LEVELS, random, fields)?,
            Shape::Mode => self.coded(&MODES, random, fields)?,
            _ => return None,
        }
        Some(())
    }

    /// Often one of the last, so that much depends on it.
    fn expression(&self, random: &mut Random) -> Option<u16> {
        let any = below(self.expressions, random)?;
        Some(if random.chance(50) { any.max(below(self.expressions, random)?) } else { any })
    }

    fn expressions(&self, head: Option<u16>, count: usize, random: &mut Random, fields: &mut Vec<u16>) -> Option<()> {
        fields.extend(head);
        for _ in 0..count {
            fields.push(self.expression(random)?);
        }
        Some(())
    }

    fn coded(&self, codes: &[(&str, usize)], random: &mut Random, fields: &mut Vec<u16>) -> Option<()> {
        let code = random.below(codes.len());
        self.expressions(Some(code as u16), codes[code].1, random, fields)
    }
}

fn below(count: usize, random: &mut Random) -> Option<u16> {
    (count > 0).then(|| random.below(count) as u16)
}
