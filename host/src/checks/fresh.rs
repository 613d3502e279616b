//! Cases made anew: a model with reports and contexts by several authors, and damaged copies of them.
use super::spoil::spoiled;
use super::{corners, Case};
use crate::clearance::authors::{damaged, Asked, Report};
use crate::clearance::campaign::{casting, varied_file};
use crate::clearance::wild;
use crate::context::Context;
use crate::draft::Draft;
use crate::form::{Mark, ABSENT};
use crate::model;
use crate::part::{Part, Parts};
use crate::random::Random;
use crate::record::{fields, records, split, write};

/// Cases of one model, each with its author.
pub fn cases(random: &mut Random) -> Result<Vec<(&'static str, Case)>, String> {
    of_file(&framed(&drawn(random)?, random), random)
}

/// Cases of a file's module and first request.
pub fn of_file(file: &[u8], random: &mut Random) -> Result<Vec<(&'static str, Case)>, String> {
    let asked = Asked::of(file).ok_or("a model has no request that fits")?;
    let stretch = asked.outline.stretch(asked.request.function as usize);
    let mut found = Vec::new();
    for (author, report) in reports(&asked, random)? {
        let mut case = Case::of(&asked, &report);
        lengthen(&mut case.report, &asked, random);
        if random.chance(35) {
            found.push(("spoiled", spoiled(&case, stretch.clone(), random)));
        }
        found.push((author, case));
    }
    Ok(found)
}

fn drawn(random: &mut Random) -> Result<Vec<u8>, String> {
    let small = |random: &mut Random| wild::generate(random.between(1, 20), random.bits());
    Ok(match random.below(100) {
        0..=54 => small(random),
        55..=69 => varied_file(&small(random), random),
        70..=84 => model::generate(random.between(model::LEAST, 90), random.bits())?,
        85..=86 => casting(random)?,
        87..=92 => varied_file(&model::generate(random.between(model::LEAST, 60), random.bits())?, random),
        _ => corners::any(random),
    })
}

/// Often with other functions before and after its own, so that its marks stand in the midst of a report.
fn framed(file: &[u8], random: &mut Random) -> Vec<u8> {
    let (module, rest) = file.split_at(split(file));
    let has_type = records(module).0.first().is_some_and(|r| r.letters == *b"TY");
    if !has_type || random.chance(50) {
        return file.to_vec();
    }
    let (before, after) = (random.below(3), random.below(2));
    let at = records(module).0.iter().find(|r| r.letters == *b"FN").map_or(module.len(), |r| r.at);
    let mut draft = Draft(module[..at].to_vec());
    (0..before).for_each(|_| other(&mut draft, random));
    draft.0.extend(&module[at..]);
    (0..after).for_each(|_| other(&mut draft, random));
    for request in records(rest).0 {
        let mut values = fields(request.body);
        values[0] += before as u16;
        draft.0.extend(write(request.letters, &values).expect("as long as it was"));
    }
    draft.0
}

/// A function of a few literals and statements.
fn other(draft: &mut Draft, random: &mut Random) {
    let count = random.between(1, 6) as u16;
    draft.put(Mark::Function, &[0, ABSENT, ABSENT]).repeat(count as usize, Mark::Expression, &[0, 0]);
    draft.put(Mark::Block, &[]).put(Mark::Statement, &[0, 0, count - 1]);
    if random.chance(50) {
        draft.put(Mark::Statement, &[7, ABSENT]);
    }
}

/// Reports of every author on the model, each followed by a copy with other marks or parts.
fn reports(asked: &Asked, random: &mut Random) -> Result<Vec<(&'static str, Report)>, String> {
    let mut found: Vec<(&'static str, Report)> = asked.of_walk()?.into_iter().map(|r| ("walk", r)).collect();
    if asked.is_judged() {
        found.extend([("all marked", asked.all_marked()), ("grown", asked.grown())]);
    }
    let often = *random.pick(&[0, 20, 50, 90]);
    let marks = (0..asked.outline.marks()).map(|_| u8::from(random.chance(often))).collect();
    found.push(("any marks", Report { marks, context: any_context(asked, random) }));
    let changed: Vec<_> = found.iter().map(|(_, report)| ("changed", damaged(report, random))).collect();
    found.extend(changed);
    for (_, report) in &mut found {
        if random.chance(10) {
            report.context = any_context(asked, random);
        }
    }
    Ok(found)
}

/// A context of any size: of all, of nothing, or of parts that may have nothing to do with the types.
fn any_context(asked: &Asked, random: &mut Random) -> Context {
    let function = &asked.outline.functions[asked.request.function as usize];
    let often = *random.pick(&[0, 50, 100, 100]);
    let great = random.chance(8);
    let mut parts = |count: usize| -> Parts {
        let chosen: Vec<usize> = (0..count).filter(|_| random.chance(often)).collect();
        chosen.into_iter().map(|n| (n as u16, any_part(great, random))).collect()
    };
    let (globals, arguments, locals) = (parts(asked.outline.globals.len()), parts(function.arguments), parts(function.locals));
    Context { retval: asked.request.retval.clone(), globals, arguments, locals }
}

fn any_part(great: bool, random: &mut Random) -> Part {
    match random.below(10) {
        _ if great => wide(*random.pick(&[1, 2, 3]), 16, random),
        0..=5 => Part::All,
        6 => Part::Exist,
        _ => wide(random.between(1, 8), random.below(3), random),
    }
}

/// So many entries at each depth.
fn wide(depth: usize, count: usize, random: &mut Random) -> Part {
    if depth == 0 {
        return if random.chance(90) { Part::All } else { Part::Exist };
    }
    Part::Entries((0..count).map(|i| (i as u16, wide(depth - 1, count, random))).collect())
}

/// What stands in the report beside the function's marks is not looked at.
fn lengthen(report: &mut Vec<u8>, asked: &Asked, random: &mut Random) {
    if random.chance(30) {
        let stretch = asked.outline.stretch(asked.request.function as usize);
        let beside = (0..report.len()).filter(|at| !stretch.contains(at)).collect::<Vec<_>>();
        beside.into_iter().for_each(|at| report[at] = random.bits() as u8);
        let more = *random.pick(&[0, 1, 5, 100]);
        report.extend((0..more).map(|_| random.bits() as u8));
    }
}
