//! Pairs of runs whose inputs differ only in unneeded parts.
use super::authors::{Asked, Report};
use super::layout::{asked as asked_in, unneeded, Span};
use super::plan::Plan;
use super::run::{below, fresh, Mode, Operators, Run};
use crate::part::{Part, Parts};
use crate::random::Random;

/// What became of pairs of runs.
#[derive(Clone, Copy, Default, PartialEq, Eq, Debug)]
pub struct Pairs {
    /// Both runs ended, with the same required outputs.
    pub same: usize,
    /// A run did not end.
    pub skipped: usize,
    /// Of the same: some output that is not required differs.
    pub apart: usize,
}

impl std::ops::AddAssign for Pairs {
    fn add_assign(&mut self, more: Pairs) {
        self.same += more.same;
        self.skipped += more.skipped;
        self.apart += more.apart;
    }
}

/// Values with more numbers than this are not run.
const NUMBERS: u64 = 20_000;

/// Whether the values are small enough to be run.
pub fn is_small(asked: &Asked) -> bool {
    let (shapes, f) = (&asked.module.shapes, asked.function());
    let all = asked.module.globals.iter().chain(&f.arguments).chain(&f.locals).chain(&f.types).chain(&f.result);
    all.fold(0, |n: u64, t| n.saturating_add(shapes.size(*t))) <= NUMBERS
}

/// A report of a function, ready for many pairs.
pub struct Pairing<'a> {
    plan: &'a Plan<'a>,
    marks: Vec<&'a [u8]>,
    /// The numbers of globals and arguments that are unneeded.
    free: Vec<usize>,
    required: Vec<Span>,
    /// Statements and turns that a run may do.
    left: usize,
}

/// The part of a variable in a context.
fn part_of(parts: &Parts, n: usize) -> Option<&Part> {
    parts.iter().find(|p| p.0 as usize == n).map(|p| &p.1)
}

/// What each run ends in: which it is, and its memory.
type Ended = [(Mode, Option<Vec<u64>>); 2];

impl<'a> Pairing<'a> {
    pub fn of(asked: &Asked, plan: &'a Plan<'a>, report: &'a Report) -> Pairing<'a> {
        let (module, layout, function) = (&asked.module, &plan.layout, plan.function);
        let mut free = Vec::new();
        for (n, (shape, span)) in module.globals.iter().zip(&layout.globals).enumerate() {
            unneeded(&module.shapes, *shape, part_of(&report.context.globals, n), span.start, &mut free);
        }
        for (n, (shape, span)) in function.arguments.iter().zip(&layout.arguments).enumerate() {
            unneeded(&module.shapes, *shape, part_of(&report.context.arguments, n), span.start, &mut free);
        }
        let mut required = Vec::new();
        for (g, part) in &asked.request.globals {
            let (shape, span) = (module.globals[*g as usize], &layout.globals[*g as usize]);
            asked_in(&module.shapes, shape, part, span.start, &mut required);
        }
        if let Some(shape) = function.result {
            asked_in(&module.shapes, shape, &asked.request.retval, layout.result.start, &mut required);
        }
        Pairing { plan, marks: asked.own(&report.marks), free, required, left: 200 + 4 * function.statements.len() }
    }

    /// Two inputs run in both modes each, and compared in the four pairs of modes; a message where required outputs differ.
    pub fn compare(&self, random: &mut Random) -> Result<Pairs, String> {
        let bound = *random.pick(&[2, 3, 5, 1 << 20]);
        let operators = Operators { seed: random.bits(), bound };
        let mut start = fresh(self.plan, operators);
        self.fill(&mut start, random, bound);
        let ones = self.run(&start, operators);
        for at in &self.free {
            if random.chance(80) {
                start[*at] = below(random.bits(), bound);
            }
        }
        let twos = self.run(&start, operators);
        self.count(&ones, &twos).map_err(|modes| format!("outputs differ: {modes}, numbers below {bound}"))
    }

    /// Any inputs.
    fn fill(&self, memory: &mut [u64], random: &mut Random, bound: u64) {
        let layout = &self.plan.layout;
        for span in layout.globals.iter().chain(&layout.locals).chain(&layout.arguments) {
            memory[span.clone()].iter_mut().for_each(|n| *n = below(random.bits(), bound));
        }
    }

    fn run(&self, start: &[u64], operators: Operators) -> Ended {
        [Mode::Every, Mode::Needed].map(|mode| {
            let mut memory = start.to_vec();
            let run = Run { plan: self.plan, marks: &self.marks, mode, operators, memory: &mut memory, left: self.left };
            let ends = run.ends();
            (mode, ends.then_some(memory))
        })
    }

    fn count(&self, ones: &Ended, twos: &Ended) -> Result<Pairs, String> {
        let mut pairs = Pairs::default();
        for (one, a) in ones {
            for (two, b) in twos {
                let (Some(a), Some(b)) = (a, b) else {
                    pairs.skipped += 1;
                    continue;
                };
                if self.required.iter().any(|span| a[span.clone()] != b[span.clone()]) {
                    return Err(format!("{one:?} and {two:?}"));
                }
                pairs.same += 1;
                pairs.apart += usize::from(a[self.plan.layout.outputs()] != b[self.plan.layout.outputs()]);
            }
        }
        Ok(pairs)
    }
}
