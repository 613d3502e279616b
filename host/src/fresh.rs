//! Requests made anew for a module, and cases of them: the sources' modules, varied, damaged and generated ones, each with one to four
//! requests over one pruner.
use crate::compare::longest;
use crate::damage::damaged;
use crate::limits;
use crate::outline::Outline;
use crate::part::{Part, Parts};
use crate::random::Random;
use crate::record::{records, split, write};
use crate::request::Request;
use crate::vary::varied;
use crate::{check, model};

/// How deep a part of a usual request goes.
const DEPTH: usize = 5;

/// A module with requests; its outline, if reading accepts it.
pub struct Case {
    /// The source's number, if it stands here as it is.
    pub source: Option<usize>,
    pub module: Vec<u8>,
    pub outline: Option<Outline>,
    pub requests: Vec<Vec<u8>>,
}

impl Case {
    /// Of this module, without a request.
    pub fn of(module: Vec<u8>) -> Case {
        let outline = check::module(&module).is_ok().then(|| Outline::of(&module));
        Case { source: None, module, outline, requests: Vec::new() }
    }
}

/// Files to make cases from, and the numbers of those whose own requests take few visits: the others are drawn seldom.
pub struct Sources<'a> {
    pub files: &'a [Vec<u8>],
    pub light: Vec<usize>,
}

impl Sources<'_> {
    fn draw(&self, random: &mut Random) -> &[u8] {
        let any = self.light.is_empty() || random.below(2000) == 0;
        let n = if any { random.below(self.files.len()) } else { *random.pick(&self.light) };
        &self.files[n]
    }
}

/// Case n: the sources as they are first, then others.
pub fn case(sources: &Sources, n: usize, random: &mut Random) -> Case {
    let source = sources.files.get(n).map_or_else(|| sources.draw(random), Vec::as_slice);
    let (module, rest) = source.split_at(split(source));
    let own: Vec<Vec<u8>> = records(rest).0.iter().map(|r| rest[r.at..r.at + 4 + r.body.len()].to_vec()).take(4).collect();
    if n < sources.files.len() && !own.is_empty() {
        return Case { source: Some(n), requests: own, ..Case::of(module.to_vec()) };
    }
    let mut case = Case::of(module.to_vec());
    match (random.below(100), &case.outline) {
        (0..=34, Some(outline)) => case = Case::of(varied(module, outline, random)),
        (35, _) => case = Case::of(longest(module, random)),
        (36..=49, _) => case = Case::of(damaged(module, random)),
        (50..=54, _) => case = Case::of(generated(random)),
        _ => {}
    }
    case.requests = (0..random.between(1, 4)).map(|n| request(case.outline.as_ref(), own.get(n), random)).collect();
    case
}

/// A model, most often a small one.
fn generated(random: &mut Random) -> Vec<u8> {
    let size = if random.chance(90) { random.between(model::LEAST, 120) } else { random.between(120, limits::STATEMENTS) };
    let file = model::generate(size, random.bits()).expect("a model of such a size");
    file[..split(&file)].to_vec()
}

/// A source's own request now and then, or a new one; a few are damaged.
fn request(outline: Option<&Outline>, own: Option<&Vec<u8>>, random: &mut Random) -> Vec<u8> {
    let bytes = match (outline, own) {
        (_, Some(own)) if random.chance(20) => own.clone(),
        (Some(outline), _) if !outline.functions.is_empty() => asked(outline, random),
        _ => write(*b"RQ", &[0, 0, 0]).expect("a short request"),
    };
    if random.chance(6) {
        damaged(&bytes, random)
    } else {
        bytes
    }
}

/// Parts of what the module has, most often of its last function.
fn asked(outline: &Outline, random: &mut Random) -> Vec<u8> {
    let last = outline.functions.len() - 1;
    let function = if random.chance(60) { last } else { random.below(last + 1) };
    let retval = match outline.functions[function].result {
        Some(result) if random.chance(80) => part(outline, Some(result), DEPTH, random),
        None if random.chance(10) => part(outline, None, DEPTH, random),
        _ => Part::None,
    };
    let often = *random.pick(&[0, 20, 50, 80]);
    let globals = (0..outline.globals.len()).filter(|_| random.chance(often)).collect::<Vec<_>>();
    let globals = globals.into_iter().map(|g| (g as u16, part(outline, Some(outline.globals[g]), DEPTH, random))).collect();
    let request = Request { function: function as u16, retval, globals };
    write(*b"RQ", &request.fields()).unwrap_or_else(|| asked(outline, random))
}

/// A part of a type, as far as it has members; now and then one that has nothing to do with it, a deep or a wide one.
fn part(outline: &Outline, kind: Option<u16>, depth: usize, random: &mut Random) -> Part {
    match random.below(100) {
        0..=29 => return Part::All,
        30..=39 => return Part::Exist,
        40 => return nested(random.between(1, limits::DEPTH + 1), random),
        41 => return wide(random.between(0, limits::ENTRIES + 1), depth, random),
        _ if depth == 0 => return Part::All,
        _ => {}
    }
    let members = kind.map_or(Vec::new(), |t| members(&outline.types[t as usize], random));
    if members.is_empty() {
        return Part::All;
    }
    let entries: Parts = members
        .into_iter()
        .filter(|_| random.chance(60))
        .collect::<Vec<_>>()
        .into_iter()
        .map(|(i, t)| (i, part(outline, t, depth - 1, random)))
        .collect();
    Part::Entries(entries)
}

fn nested(depth: usize, random: &mut Random) -> Part {
    let leaf = if random.chance(80) { Part::All } else { Part::Exist };
    (0..depth).fold(leaf, |inner, _| Part::Entries(vec![(random.below(4) as u16, inner)]))
}

/// So many entries, most of them all; one level more where there is depth left.
fn wide(count: usize, depth: usize, random: &mut Random) -> Part {
    let inner = if depth > 1 && random.chance(30) { wide(count, 1, random) } else { Part::All };
    Part::Entries((0..count as u16).map(|i| (i, if random.chance(90) { inner.clone() } else { Part::Exist })).collect())
}

/// Indexes into a type, ascending, each with its type where there is a number for it; now and then one that a struct does not have.
fn members(fields: &[u16], random: &mut Random) -> Vec<(u16, Option<u16>)> {
    let element = |kind: u16, random: &mut Random| {
        let first = random.below(4) as u16;
        vec![(first, Some(kind)), (first + 1 + random.below(20) as u16, Some(kind))]
    };
    match *fields {
        [1 | 2, size, ..] => (0..size).map(|i| (i, None)).collect(),
        [5 | 7, base, ..] => element(base, random),
        [6, count, ref members @ ..] => {
            let past = random.chance(10).then(|| (*random.pick(&[count, count + 1, 17, 300]), None));
            members.chunks(2).enumerate().map(|(i, m)| (i as u16, Some(m[0]))).chain(past).collect()
        }
        _ => Vec::new(),
    }
}
