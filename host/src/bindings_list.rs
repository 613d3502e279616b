//! The stored list of the operations on bindings: cases on the sources' modules, and pairs at each limit on a module of our own. The oracle
//! answers what it can be asked: arguments' parts, lists that ascend, return parts. What it cannot be asked has its answer by rule (01).
use crate::assemble::assemble;
use crate::bindings::{ask, functions, likely_bindings, part};
use crate::context::Context;
use crate::form::{Mark, ABSENT};
use crate::part::{Part, Parts};
use crate::random::Random;
use crate::record::{self, fields, records, split};
use crate::request::Request;
use crate::stored::{Binding, Bindings, Operation};
use crate::{check, limits};

/// The slices that are just long enough.
const LIST: u32 = limits::BINDING as u32 + 1;
const REQUEST: u32 = limits::REPORT as u32;

/// A question, and how its answer is come by.
struct Question {
    operation: Operation,
    number: u32,
    given: Vec<u8>,
    room: u32,
    answer: By,
}

enum By {
    Rule(u32),
    /// Its words; of a request, with the globals that stand in it.
    Oracle(Vec<String>, Parts),
}

impl Question {
    fn rule(self, number: u32) -> Question {
        Question { answer: By::Rule(number), ..self }
    }

    fn lent(self, room: u32) -> Question {
        Question { room, ..self }
    }
}

fn words(operation: &str, f: u16, more: impl Iterator<Item = String>) -> Vec<String> {
    [operation.to_string(), String::new(), f.to_string()].into_iter().chain(more).collect()
}

/// The oracle is asked for the arguments alone: nothing else of a context has bindings.
fn input(f: u16, context: &Context) -> Question {
    let parts = context.arguments.iter().map(|(n, part)| format!("{n}={part}"));
    let answer = By::Oracle(words("in", f, parts), Parts::new());
    Question { operation: Operation::Input, number: f.into(), given: context.record(), room: LIST, answer }
}

fn output(f: u16, list: &[u8]) -> Question {
    let answer = By::Oracle(words("out", f, list.iter().map(u8::to_string)), Parts::new());
    Question { operation: Operation::Output, number: f.into(), given: list.to_vec(), room: REQUEST, answer }
}

fn add(b: u16, request: &Request) -> Question {
    let more = [b.to_string(), request.retval.to_string()];
    let answer = By::Oracle(words("add", request.function, more.into_iter()), request.globals.clone());
    let given = record::write(*b"RQ", &request.fields()).expect("a short request");
    Question { operation: Operation::Add, number: b.into(), given, room: REQUEST, answer }
}

fn of_arguments(arguments: Parts) -> Context {
    Context { retval: Part::None, globals: Parts::new(), arguments, locals: Parts::new() }
}

fn of_return(retval: Part) -> Request {
    Request { function: 0, retval, globals: Parts::new() }
}

/// A part of n entries, as few deep as may be; `leaf` stands in those that have none.
fn tree(n: usize, leaf: &Part) -> Part {
    if n == 0 {
        return leaf.clone();
    }
    let (count, mut left) = (n.min(limits::ENTRIES), n.saturating_sub(limits::ENTRIES));
    let mut room = 0;
    while limits::ENTRIES * room < left {
        room = limits::ENTRIES * (1 + room);
    }
    let mut entries = Parts::new();
    for i in 0..count {
        let share = left.min(room);
        left -= share;
        entries.push((i as u16, tree(share, leaf)));
    }
    Part::Entries(entries)
}

fn nested(depth: usize) -> Part {
    (0..depth).fold(Part::All, |part, _| Part::Entries(vec![(0, part)]))
}

fn wide(count: u16) -> Part {
    Part::Entries((0..count).map(|i| (i, Part::All)).collect())
}

/// Types 4 and 5 have 8,191 and 8,192 entries below them, 13 and 14 are 8 and 9 deep. Each function takes the same: a struct with bindings, an
/// array of it, a bound scalar, a struct that holds the first in a bound member, a pointer.
fn model() -> Vec<u8> {
    let times = |member: &str, count: usize| vec![member; count].join(" ");
    let mut text = format!("type Scalar\ntype Struct [{}]\ntype Struct [{}]\n", times("0:5", 16), times("1:-", 16));
    text += &format!("type Struct [{}]\ntype Struct [3:- {}]\n", times("2:-", 16), times("2:-", 14));
    text += &format!("type Struct [3:- {} 0:7]\ntype Struct [0:9]\n", times("2:-", 14));
    (6..14).for_each(|t| text += &format!("type Struct [{t}:-]\n"));
    text += "type Struct [0:0 0:33]\ntype Array 15 4\ntype Struct [15:8 0:-]\ntype Pointer 15\nglobal 0\n";
    for result in RESULTS {
        text += &format!("fn function {result}\narg 15 -\narg 16 -\narg 0 5\narg 17 -\narg 18 -\nlocal 0\nblock\n");
    }
    assemble(&text).expect("a right listing").bytes
}

const RESULTS: [&str; 8] = ["4 -", "5 -", "13 -", "14 -", "0 3", "- -", "1 -", "15 -"];

/// Contexts: every answer, pairs of pieces in each of its lists, of entries and of depth; what comes before what.
fn inputs() -> Vec<Question> {
    let first = |part: Part| of_arguments(vec![(0, part)]);
    let empty = Part::Entries(Parts::new());
    let many = tree(limits::PIECES, &Part::All);
    let mut found: Vec<Question> = [Part::All, Part::Exist, empty.clone(), wide(1), wide(2), wide(16), nested(1), nested(8)]
        .iter()
        .flat_map(|part| (0..5).map(|n| input(0, &of_arguments(vec![(n, part.clone())]))))
        .collect();
    found.push(input(5, &of_arguments((0..5).map(|n| (n, Part::All)).collect())));
    for leaf in [Part::All, Part::Exist, empty.clone()] {
        found.push(input(0, &first(tree(limits::PIECES - 1, &leaf))));
        found.push(input(0, &first(tree(limits::PIECES, &leaf))).rule(16));
    }
    for n in [limits::PIECES - 2, limits::PIECES - 1] {
        let mut lists = [Context { retval: tree(n, &Part::All), ..first(Part::All) }, first(Part::All), first(Part::All)];
        lists[1].globals = vec![(0, tree(n, &Part::All))];
        lists[2].locals = vec![(0, tree(n, &Part::All))];
        let asked = lists.iter().map(|context| input(1, context));
        found.extend(asked.map(|q| if n + 2 > limits::PIECES { q.rule(16) } else { q }));
    }
    found.push(input(0, &of_arguments(vec![(0, Part::All), (2, many.clone())])));
    found.push(input(0, &first(tree(20_000, &empty))).rule(16));
    for context in [first(wide(17)), first(nested(9)), of_arguments(vec![(1, Part::All), (0, Part::All)]), first(Part::None)] {
        found.push(input(0, &context).rule(12));
    }
    found.extend(unknown(&many));
    found.extend(cut(input(0, &first(wide(2)))));
    found.extend(short_lists(&many));
    found
}

/// 11, and 12 before it.
fn unknown(many: &Part) -> Vec<Question> {
    let all = |n: u16| vec![(n, Part::All)];
    let long = Context { globals: all(1), ..of_arguments(vec![(0, many.clone())]) };
    let local = Context { locals: all(1), ..of_arguments(all(0)) };
    let mut found: Vec<Question> = [long, local, of_arguments(all(5))].iter().map(|c| input(0, c).rule(11)).collect();
    found.push(input(RESULTS.len() as u16, &of_arguments(Parts::new())).rule(11));
    found.push(input(RESULTS.len() as u16, &of_arguments(vec![(0, wide(17))])).rule(12));
    found
}

/// A slice of fewer than 64 bytes: 20, after 12 and 11 and before 13 and 16.
fn short_lists(many: &Part) -> Vec<Question> {
    let of = |n: u16, part: &Part| of_arguments(vec![(n, part.clone())]);
    let lent = |context: &Context, rule: u32| input(0, context).rule(rule).lent(LIST - 1);
    let mut found = vec![lent(&of(0, &wide(17)), 12), lent(&of(5, &Part::All), 11)];
    found.extend([of(0, &Part::All), of(2, &wide(1)), of(0, many)].iter().map(|context| lent(context, 20)));
    found.push(input(0, &of(0, &Part::All)).lent(0).rule(20));
    found.push(input(0, &of(0, &Part::All)).lent(LIST + 1));
    found
}

/// Every beginning of what is given, and one byte and one field more: 12.
fn cut(whole: Question) -> Vec<Question> {
    let (operation, number, room) = (whole.operation, whole.number, whole.room);
    let given = |bytes: Vec<u8>| Question { operation, number, given: bytes, room, answer: By::Rule(12) };
    let beginnings = (0..whole.given.len()).map(|n| given(whole.given[..n].to_vec()));
    let longer = (1..3).map(|n| given([&whole.given[..], &vec![0; n]].concat()));
    beginnings.chain(longer).collect()
}

/// Lists of bindings: ascending, falling, with one twice, above 63; pairs of pieces and of depth.
fn outputs() -> Vec<Question> {
    let every: Vec<u8> = (0..=limits::BINDING as u8).collect();
    let lists: [&[u8]; 9] = [&[], &[0], &[3], &[5], &[7], &[9], &[5, 7], &[0, 5, 33, 63], &every];
    let functions = 0..RESULTS.len() as u16;
    let mut found: Vec<Question> = functions.flat_map(|f| lists.iter().map(move |list| output(f, list))).collect();
    let malformed: [&[u8]; 8] = [&[9, 7], &[7, 7], &[5, 7, 7], &[0, 33, 5], &[64], &[5, 64], &[64, 5], &[255]];
    found.extend(malformed.iter().flat_map(|list| [0, 5, 8].map(|f| output(f, list).rule(12))));
    found.push(output(RESULTS.len() as u16, &[5]).rule(11));
    found.push(output(RESULTS.len() as u16, &[5]).rule(11).lent(0));
    found.push(output(0, &[7, 5]).rule(12).lent(0));
    found.extend([0, 1, 3].map(|f| output(f, &[5, 7, 9]).rule(20).lent(REQUEST - 1)));
    found.push(output(0, &[5]).lent(REQUEST + 1));
    found
}

/// Requests: every answer, pairs of pieces, of entries and of depth.
fn adds() -> Vec<Question> {
    let functions = 0..RESULTS.len() as u16;
    let of = |f: u16, retval: &Part| Request { function: f, ..of_return(retval.clone()) };
    let mut found: Vec<Question> = [Part::None, Part::All, Part::Exist, wide(2), wide(16), nested(8)]
        .iter()
        .flat_map(|part| functions.clone().map(move |f| (f, part.clone())))
        .flat_map(|(f, part)| [0, 5, 9].map(|b| add(b, &of(f, &part))))
        .collect();
    let from = |first: u16, count: u16| Part::Entries((first..first + count).map(|i| (i, Part::All)).collect());
    found.extend([13, 14, 15, 16].map(|n| add(0, &of(7, &from(1, n)))));
    found.extend([1, 16].map(|n| add(5, &of(6, &from(15, n)))));
    for n in [limits::PIECES - 3, limits::PIECES - 2] {
        let asked = add(0, &Request { globals: vec![(0, tree(n, &Part::All))], ..of(7, &Part::None) });
        found.push(if n + 3 > limits::PIECES { asked.rule(16) } else { asked });
    }
    found.extend([8190, 8191].map(|n| add(33, &of(7, &Part::Entries(vec![(0, tree(n - 1, &Part::All))])))));
    found.extend([64, 65535].map(|b| add(b, &of(0, &Part::All)).rule(12)));
    found.extend([wide(17), nested(9)].map(|part| add(0, &of(0, &part)).rule(12)));
    found.push(add(0, &of(ABSENT, &Part::All)).rule(12));
    found.push(add(0, &of(8, &Part::All)).rule(11));
    found.push(add(0, &Request { globals: vec![(1, Part::All)], ..of(0, &Part::All) }).rule(11).lent(0));
    found.extend([7, 3].map(|f| add(9, &of(f, &Part::None)).rule(20).lent(REQUEST - 1)));
    found.extend(cut(add(0, &of(7, &wide(1)))));
    found
}

/// Some of each operation on a source's module.
fn of_source(module: &[u8], random: &mut Random) -> Vec<Question> {
    let (found, named) = (functions(module), likely_bindings(module));
    let mut asked = Vec::new();
    for _ in 0..3 {
        let f = random.below(found.len());
        let numbers: Vec<u16> = (0..found[f] as u16).filter(|_| random.chance(60)).collect();
        let parts = numbers.into_iter().map(|n| (n, part(random, 2))).collect();
        asked.push(input(f as u16, &of_arguments(parts)));
        let mut list: Vec<u8> = named.iter().filter(|_| random.chance(50)).map(|b| *b as u8).collect();
        list.sort_unstable();
        list.dedup();
        asked.push(output(f as u16, &list));
        let b = if named.is_empty() { 0 } else { *random.pick(&named) };
        asked.push(add(b, &Request { function: f as u16, ..of_return(part(random, 2)) }));
    }
    asked
}

/// The argument at which the Rust asserts: the first that has a binding and is asked for in part.
fn asserts(module: &[u8], f: u32, context: &[u8]) -> Option<u64> {
    let mut bound = Vec::new();
    for record in records(module).0 {
        match Mark::of_letters(record.letters) {
            Some(Mark::Function) => bound.push(Vec::new()),
            Some(Mark::Argument) => bound.last_mut()?.push(fields(record.body)[1] != ABSENT),
            _ => {}
        }
    }
    let given = Context::read(&mut record::Cursor::new(&fields(&context[6..])))?;
    let asked = given.arguments.iter().filter(|(n, _)| bound[f as usize][*n as usize]);
    let mut parts = asked.filter(|(_, part)| matches!(part, Part::Entries(_)));
    parts.next().map(|(n, _)| u64::from(*n))
}

/// The number and the bytes that the oracle's line means.
fn meant(module: &[u8], question: &Question, globals: &Parts, line: &str) -> Option<(u64, Vec<u8>)> {
    if let Some(number) = line.strip_prefix("refused ") {
        let number: u64 = number.trim().parse().ok()?;
        let argument = if number == 13 { asserts(module, question.number, &question.given)? } else { 0 };
        return Some(((number << 32) + argument, Vec::new()));
    }
    let bytes = match line.strip_prefix("retval ") {
        Some(part) => {
            let function = if question.operation == Operation::Add { fields(&question.given[4..])[0] } else { question.number as u16 };
            let request = Request { function, retval: Part::parse(part.trim()).ok()?, globals: globals.clone() };
            record::write(*b"RQ", &request.fields())?
        }
        None => line.split_whitespace().skip(1).map(|b| b.parse().ok()).collect::<Option<_>>()?,
    };
    Some((bytes.len() as u64, bytes))
}

fn answered(program: &str, file: &str, module: &[u8], question: Question) -> Result<Binding, String> {
    let (answer, written) = match &question.answer {
        By::Rule(number) => (u64::from(*number) << 32, Vec::new()),
        By::Oracle(words, globals) => {
            let line = ask(program, file, words)?;
            meant(module, &question, globals, &line).ok_or_else(|| format!("the oracle says '{line}'"))?
        }
    };
    let Question { operation, number, given, room, .. } = question;
    Ok(Binding { operation, number, given, room, answer, written })
}

pub fn list(program: &str, sources: &[Vec<u8>]) -> Result<Vec<u8>, String> {
    let mut random = Random::new(27);
    let file = std::env::temp_dir().join(format!("host-bindings-list-{}", std::process::id()));
    let name = file.to_string_lossy().into_owned();
    let own = [inputs(), outputs(), adds()].into_iter().map(|asked| (model(), asked));
    let modules = sources.iter().map(|source| source[..split(source)].to_vec());
    let fit = modules.filter(|m| check::module(m).is_ok() && !functions(m).is_empty());
    let asked: Vec<(Vec<u8>, Vec<Question>)> = own.chain(fit.map(|m| (m.clone(), of_source(&m, &mut random)))).collect();
    let mut out = Vec::new();
    for (module, questions) in asked {
        std::fs::write(&file, &module).map_err(|e| format!("{name}: {e}"))?;
        let asked = questions.into_iter().map(|q| answered(program, &name, &module, q)).collect::<Result<_, _>>()?;
        Bindings { module, asked }.write(&mut out);
    }
    std::fs::remove_file(&file).map_err(|e| format!("{name}: {e}"))?;
    Ok(out)
}
