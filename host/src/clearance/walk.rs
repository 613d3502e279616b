//! The walk backward through a function. Each loop keeps its re-entry needs, none at first; a round walks the body once with them and
//! joins in what stands before each loop's body; the last round changes nothing.
use super::function::{Function, Handle, Module, Statement};
use super::inside::Inside;
use super::need::{Pieces, ALL};
use super::needs::{self, join, name, Key, Needs};
use super::operands::is_exempt;
use super::path::Path;
use super::verdict::Missing;
use crate::limits;
use crate::part::Part;
use crate::request::Request;
use std::collections::BTreeMap;

/// A mark whose lack breaks a rule.
#[derive(Clone, PartialEq, Eq, Debug)]
pub struct Lack {
    pub statement: usize,
    /// Its place among the statement's own marks.
    pub mark: usize,
    pub reason: String,
}

/// Where a break and a continue lead.
#[derive(Clone, Default)]
struct Targets {
    on_break: Needs,
    on_continue: Needs,
}

pub struct Walk<'a> {
    pub(super) module: &'a Module,
    pub(super) function: &'a Function,
    /// Each statement's own marks.
    marks: Vec<&'a [u8]>,
    retval: &'a Part,
    /// The asked globals.
    end: Needs,
    pub(super) pieces: Pieces,
    reentry: BTreeMap<usize, Needs>,
    /// Whether this round has changed the needs of a loop.
    changed: bool,
    pub found: Found,
}

/// What the last round has found.
#[derive(Default)]
pub struct Found {
    pub lacks: Vec<Lack>,
    /// The needs at the start.
    pub start: Needs,
    /// Whether the needs at some point pass the limits of 15, of 16.
    pub deep: bool,
    pub many: bool,
    pub rounds: usize,
    /// Given up: our own number 26.
    pub given_up: bool,
}

/// More rounds or needs than this, and the walk gives up.
const ROUNDS: usize = 65_536;
const KEPT: usize = 1 << 22;

impl<'a> Walk<'a> {
    /// Of the function that the request asks, which is judged; `marks` are its statements' own.
    pub fn new(module: &'a Module, request: &'a Request, marks: Vec<&'a [u8]>) -> Walk<'a> {
        let mut pieces = Pieces::default();
        let mut end = Needs::new();
        for (g, part) in &request.globals {
            if let Some(need) = pieces.trimmed(&module.shapes, module.globals[*g as usize], part) {
                end.insert(Key::Global(*g), need);
            }
        }
        let function = &module.functions[request.function as usize];
        let (reentry, found) = (BTreeMap::new(), Found::default());
        Walk { module, function, marks, retval: &request.retval, end, pieces, reentry, changed: false, found }
    }

    /// Rounds until one changes nothing.
    pub fn rounds(&mut self) {
        for round in 1.. {
            self.changed = false;
            self.found = Found { rounds: round, ..Found::default() };
            self.found.start = self.block(self.function.body(), self.end.clone(), &Targets::default());
            self.found.given_up = round > ROUNDS || self.pieces.kept() > KEPT;
            if !self.changed || self.found.given_up {
                break;
            }
        }
        self.found.lacks.sort_by_key(|lack| (lack.statement, lack.mark));
    }

    /// The needs at the start or at the end of a statement or of an expression of an emit.
    fn point(&mut self, needs: &Needs) {
        self.found.deep |= needs.values().any(|need| self.pieces.is_deep(*need));
        self.found.many |= needs::count(&self.pieces, needs) > limits::PIECES as u64;
    }

    fn lack(&mut self, statement: usize, mark: usize, reason: String) {
        self.found.lacks.push(Lack { statement, mark, reason });
    }

    fn block(&mut self, block: usize, after: Needs, targets: &Targets) -> Needs {
        let mut needs = after;
        self.point(&needs);
        let function = self.function;
        for s in function.blocks[block].iter().rev() {
            needs = self.statement(*s, needs, targets);
            self.point(&needs);
        }
        needs
    }

    fn statement(&mut self, s: usize, after: Needs, targets: &Targets) -> Needs {
        match self.function.statements[s] {
            Statement::Emit { first, last } => self.emit(s, first, last, after),
            Statement::Block(block) => self.block(block, after, targets),
            Statement::Break => targets.on_break.clone(),
            Statement::Continue => targets.on_continue.clone(),
            Statement::Return(value) => self.returned(value),
            Statement::Store { pointer, value } => self.store(s, pointer, value, after),
            _ => self.compound(s, after, targets),
        }
    }

    /// Last expression first: one with a need must be marked, and its need moves to its operands.
    fn emit(&mut self, s: usize, first: Handle, last: Handle, after: Needs) -> Needs {
        let mut needs = after;
        for e in (first..=last).rev() {
            if is_exempt(self.function, e) {
                continue;
            }
            let Some(need) = needs.remove(&Key::Expression(e)) else { continue };
            if self.marks[s][e - first] == 0 {
                self.lack(s, e - first, "it is needed after the emit, and not marked".into());
            }
            self.spread(&mut needs, e, need);
            self.point(&needs);
        }
        needs
    }

    /// The end's needs, and the asked part of the value.
    fn returned(&mut self, value: Option<Handle>) -> Needs {
        let mut needs = self.end.clone();
        if let (Some(value), Some(result)) = (value, self.function.result) {
            if let Some(need) = self.pieces.trimmed(&self.module.shapes, result, self.retval) {
                self.need(&mut needs, value, need);
            }
        }
        needs
    }

    fn store(&mut self, s: usize, pointer: Handle, value: Handle, after: Needs) -> Needs {
        let path = Path::of(self.function, pointer);
        let (prefix, dynamic) = (path.prefix(), path.dynamic());
        let whole = after.get(&path.variable).copied();
        let Some((whole, overlap)) = whole.and_then(|w| Some((w, self.pieces.overlap(w, &prefix)?))) else { return after };
        if self.marks[s][0] == 0 {
            self.lack(s, 0, format!("it stores to {}, which is needed after it, and is not marked", name(path.variable)));
        }
        let mut needs = after;
        if !dynamic.is_empty() {
            self.need(&mut needs, value, ALL);
            self.need_whole(&mut needs, &dynamic);
            return needs;
        }
        match self.pieces.take_out(&self.module.shapes, self.shape_of(path.variable), whole, &prefix) {
            Some(left) => needs.insert(path.variable, left),
            None => needs.remove(&path.variable),
        };
        self.need(&mut needs, value, overlap);
        needs
    }

    fn shape_of(&self, variable: Key) -> usize {
        match variable {
            Key::Global(g) => self.module.globals[g as usize],
            Key::Local(l) => self.function.locals[l as usize],
            _ => unreachable!("a path ends in a variable"),
        }
    }

    /// An if, switch or loop. Unmarked, needs pass it; where they may not, it is walked as if marked and keeps them as well.
    fn compound(&mut self, s: usize, after: Needs, targets: &Targets) -> Needs {
        if self.marks[s][0] == 1 {
            return self.entered(s, after, targets);
        }
        let inside = Inside { function: self.function, pieces: &self.pieces, after: &after };
        let Some(reason) = inside.fault(s) else { return after };
        self.lack(s, 0, format!("it is not marked, but {reason}"));
        let before = self.entered(s, after.clone(), targets);
        join(&mut self.pieces, before, &after)
    }

    fn entered(&mut self, s: usize, after: Needs, targets: &Targets) -> Needs {
        match self.function.statements[s].clone() {
            Statement::If { condition, accept, reject } => self.branches(condition, &[accept, reject], after, targets),
            Statement::Switch { selector, cases } => {
                let inner = Targets { on_break: after.clone(), on_continue: targets.on_continue.clone() };
                let blocks: Vec<usize> = cases.iter().map(|c| c.1).collect();
                self.branches(selector, &blocks, after, &inner)
            }
            Statement::Loop { body, continuing, break_if } => self.looped(s, body, continuing, break_if, after),
            other => unreachable!("{other:?} is not judged"),
        }
    }

    /// The union over the branches, and the condition whole.
    fn branches(&mut self, condition: Handle, blocks: &[usize], after: Needs, targets: &Targets) -> Needs {
        let mut before = Needs::new();
        for block in blocks {
            let branch = self.block(*block, after.clone(), targets);
            before = join(&mut self.pieces, before, &branch);
        }
        self.need(&mut before, condition, ALL);
        before
    }

    fn looped(&mut self, s: usize, body: usize, continuing: usize, break_if: Option<Handle>, after: Needs) -> Needs {
        let reentry = self.reentry.get(&s).cloned().unwrap_or_default();
        let mut end = reentry.clone();
        if let Some(condition) = break_if {
            end = join(&mut self.pieces, end, &after);
            self.need(&mut end, condition, ALL);
        }
        let on_continue = self.block(continuing, end, &Targets::default());
        let inner = Targets { on_break: after, on_continue: on_continue.clone() };
        let before = self.block(body, on_continue, &inner);
        let joined = join(&mut self.pieces, reentry.clone(), &before);
        if joined != reentry {
            self.changed = true;
            self.reentry.insert(s, joined);
        }
        before
    }

    /// The marks whose lack breaks a rule, by statement ascending.
    pub fn missing_marks(&self) -> impl Iterator<Item = Missing> + '_ {
        self.found.lacks.iter().map(|lack| {
            let expression = match self.function.statements[lack.statement] {
                Statement::Emit { first, .. } => Some(first + lack.mark),
                _ => None,
            };
            Missing { statement: Some(lack.statement), expression, reason: lack.reason.clone() }
        })
    }

    /// The needs at the start of globals and arguments that are not in the context; evaluated expressions may have none.
    pub fn missing_inputs<'b>(&'b self, globals: &'b [(u16, Part)], arguments: &'b [(u16, Part)]) -> impl Iterator<Item = Missing> + 'b {
        let given = |parts: &'b [(u16, Part)], n: u16| parts.iter().find(|p| p.0 == n).map(|p| &p.1);
        self.found.start.iter().filter_map(move |(key, need)| {
            let context = match *key {
                Key::Global(g) => given(globals, g),
                Key::Argument(a) => given(arguments, a),
                Key::Local(_) => return None,
                Key::Expression(e) => {
                    let reason = "it is needed at the start: no emit gives it before its use".into();
                    return Some(Missing { statement: None, expression: Some(e), reason });
                }
            };
            if context.is_some_and(|part| self.pieces.is_contained(*need, part)) {
                return None;
            }
            let has = context.map_or("nothing of it".into(), |part| part.to_string());
            let reason = format!("{} {} is needed at the start, and the context has {has}", name(*key), self.pieces.part(*need));
            Some(Missing { statement: None, expression: None, reason })
        })
    }

    /// The needs of globals, or of arguments, at the start, as parts.
    pub fn start_parts(&self, of: fn(Key) -> Option<u16>) -> Vec<(u16, Part)> {
        self.found.start.iter().filter_map(|(key, need)| Some((of(*key)?, self.pieces.part(*need)))).collect()
    }
}
