//! Compares the library's operations on bindings with the oracle's, on cases that are made anew.
use crate::form::Mark;
use crate::library::{self, Answer};
use crate::part::Part;
use crate::random::Random;
use crate::record::{self, fields, records, split};
use crate::request::Request;
use crate::{context, limits, list};
use std::collections::BTreeMap;
use std::process::Command;

/// How often each operation came to each sort of answer.
pub type Reached = BTreeMap<String, usize>;

/// The functions of a module, by the number of arguments of each.
pub fn functions(module: &[u8]) -> Vec<usize> {
    let mut found = Vec::new();
    for record in records(module).0 {
        match Mark::of_letters(record.letters) {
            Some(Mark::Function) => found.push(0),
            Some(Mark::Argument) => found.last_mut().into_iter().for_each(|n| *n += 1),
            _ => {}
        }
    }
    found
}

/// The last fields of results and arguments, and a type's, which have all bindings among them.
pub fn likely_bindings(module: &[u8]) -> Vec<u16> {
    let mut found = Vec::new();
    for record in records(module).0 {
        let fields = fields(record.body);
        match Mark::of_letters(record.letters) {
            Some(Mark::Function | Mark::Argument) => found.extend(fields.last()),
            Some(Mark::Type) if fields.len() > 3 => found.extend(&fields[2..]),
            _ => {}
        }
    }
    found.retain(|b| *b <= limits::BINDING);
    found
}

pub fn part(random: &mut Random, depth: usize) -> Part {
    if depth == 0 || random.chance(50) {
        return if random.chance(70) { Part::All } else { Part::Exist };
    }
    let mut indexes: Vec<u16> = (0..random.between(1, 3)).map(|_| random.below(5) as u16).collect();
    indexes.sort_unstable();
    indexes.dedup();
    Part::Entries(indexes.into_iter().map(|i| (i, part(random, depth - 1))).collect())
}

/// One question: the oracle's words and the library's answer, in the oracle's text. The oracle takes a list in any order, where 01 says 12.
struct Case {
    words: Vec<String>,
    answer: String,
    malformed: bool,
}

fn refusal(answer: &Answer) -> Option<String> {
    match answer {
        Answer::Refused(n) => Some(format!("refused {n}")),
        Answer::Asserts(_) => Some("refused 13".into()),
        Answer::Written(_) => None,
    }
}

/// A request as the oracle shows one: by its return part.
fn shown(answer: &Answer) -> String {
    let Answer::Written(bytes) = answer else { return refusal(answer).unwrap_or_default() };
    match Request::read(&fields(&bytes[4..])) {
        Some(request) => format!("retval {}", request.retval),
        None => "no request".into(),
    }
}

fn binding(random: &mut Random, named: &[u16]) -> u16 {
    match random.below(20) {
        0 => 64 + random.below(100) as u16,
        1..=14 if !named.is_empty() => *random.pick(named),
        _ => random.below(64) as u16,
    }
}

fn input(module: &[u8], f: usize, args: usize, random: &mut Random) -> Case {
    let numbers: Vec<u16> = (0..args as u16).filter(|_| random.chance(60)).collect();
    let asked: Vec<(u16, Part)> = numbers.into_iter().map(|n| (n, part_or_all(random))).collect();
    let mut out = [0; limits::BINDING as usize + 1];
    let answer = library::input_to_bindings(module, f as u32, &context::of_arguments(&asked), &mut out);
    let text = match &answer {
        Answer::Written(list) => format!("{} {}", list.len(), list.iter().map(u8::to_string).collect::<Vec<_>>().join(" ")),
        _ => refusal(&answer).unwrap_or_default(),
    };
    let mut words = vec!["in".to_string(), String::new(), f.to_string()];
    words.extend(asked.iter().map(|(n, part)| format!("{n}={part}")));
    Case { words, answer: text, malformed: false }
}

/// Most often all: a part of an argument that has a binding is an assertion.
fn part_or_all(random: &mut Random) -> Part {
    if random.chance(70) {
        Part::All
    } else {
        part(random, 2)
    }
}

fn output(module: &[u8], f: usize, named: &[u16], random: &mut Random) -> Case {
    let mut list: Vec<u16> = (0..random.below(6)).map(|_| binding(random, named)).collect();
    if random.chance(80) {
        list.sort_unstable();
        list.dedup();
    }
    let malformed = list.windows(2).any(|w| w[0] >= w[1]);
    let bytes: Vec<u8> = list.iter().map(|b| *b as u8).collect();
    let mut out = vec![0; limits::REPORT];
    let answer = shown(&library::output_from_bindings(module, f as u32, &bytes, &mut out));
    let mut words = vec!["out".to_string(), String::new(), f.to_string()];
    words.extend(list.iter().map(u16::to_string));
    Case { words, answer, malformed }
}

fn add(module: &[u8], f: usize, named: &[u16], random: &mut Random) -> Case {
    let b = binding(random, named);
    let retval = if random.chance(30) { Part::None } else { part(random, 3) };
    let words = vec!["add".to_string(), String::new(), f.to_string(), b.to_string(), retval.to_string()];
    let request = Request { function: f as u16, retval, globals: Vec::new() };
    let bytes = record::write(*b"RQ", &request.fields()).expect("a short request");
    let mut out = vec![0; limits::REPORT];
    let answer = shown(&library::add_binding(module, &bytes, u32::from(b), &mut out));
    Case { words, answer, malformed: false }
}

/// What the oracle says. It is exponential in the depth of types: the sources have shallow ones.
fn asked(program: &str, file: &str, case: &Case) -> Result<String, String> {
    if case.malformed {
        return Ok("refused 12".into());
    }
    ask(program, file, &case.words)
}

/// The first line of the oracle's answer; the file's name goes in the place of the second word.
pub fn ask(program: &str, file: &str, words: &[String]) -> Result<String, String> {
    let mut words = words.to_vec();
    words[1] = file.to_string();
    let done = Command::new(program).arg("--bindings").args(words).output().map_err(|e| format!("{program}: {e}"))?;
    let text = String::from_utf8(done.stdout).map_err(|e| format!("{program}: {e}"))?;
    Ok(text.lines().next().unwrap_or_default().to_string())
}

/// The sort of an answer: a refusal, a return part by its first level, or whether there are bindings.
fn sort(operation: &str, answer: &str) -> String {
    let sort = match answer.strip_prefix("retval ") {
        Some(part) if part.starts_with('{') => "retval with entries",
        Some(_) => answer,
        None if answer.starts_with("refused") => answer,
        None if answer.starts_with("0") => "no binding",
        None => "bindings",
    };
    format!("{operation} {sort}")
}

/// Asks `count` times of the sources' modules.
pub fn compare(program: &str, seed: u64, count: usize, sources: &[Vec<u8>]) -> Result<Reached, String> {
    let mut random = Random::new(seed);
    let file = std::env::temp_dir().join(format!("host-bindings-{}", std::process::id()));
    let name = file.to_string_lossy().into_owned();
    let mut reached = Reached::new();
    let mut done = 0;
    while done < count {
        let source = random.pick(sources);
        let module = &source[..split(source)];
        let (found, named) = (functions(module), likely_bindings(module));
        if found.is_empty() || library::read(module) != 0 {
            return Err(format!("a source that is no module with a function:\n{}", list::list(module)));
        }
        std::fs::write(&file, module).map_err(|e| format!("{name}: {e}"))?;
        for _ in 0..6.min(count - done) {
            let past = usize::from(random.chance(5));
            let f = random.below(found.len() + past);
            let case = match random.below(3) {
                0 => input(module, f, found.get(f).copied().unwrap_or(0), &mut random),
                1 => output(module, f, &named, &mut random),
                _ => add(module, f, &named, &mut random),
            };
            let oracle = asked(program, &name, &case)?;
            if oracle.trim_end() != case.answer.trim_end() {
                return Err(format!(
                    "{:?}: the oracle says '{oracle}', the library '{}':\n{}",
                    case.words,
                    case.answer,
                    list::list(module)
                ));
            }
            *reached.entry(sort(&case.words[0], &case.answer)).or_default() += 1;
            done += 1;
        }
    }
    std::fs::remove_file(&file).map_err(|e| format!("{name}: {e}"))?;
    Ok(reached)
}
