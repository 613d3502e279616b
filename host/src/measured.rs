//! The files that are measured by themselves: models of several sizes, sums in sums of a given number of visits, and a model that is called
//! again and again.
use crate::assemble::assemble;
use crate::draft::Draft;
use crate::form::{Mark, ABSENT};
use crate::limits;
use crate::model;
use crate::outline::Outline;
use crate::pairs::walks::doubling;
use crate::part::Part;
use crate::record::{records, split};
use crate::request::Request;

pub struct File {
    pub name: String,
    pub bytes: Vec<u8>,
}

const MODELS: [usize; 4] = [40, 200, 600, 1024];
const SUMS: [usize; 4] = [1_000, 10_000, 100_000, 1_000_000];
const CALLS: [usize; 3] = [1, 10, 100];
/// The model that is called.
const CALLED: usize = 600;

pub fn files() -> Result<Vec<File>, String> {
    let mut found = Vec::new();
    for size in MODELS {
        found.push(File { name: format!("model of {size} statements"), bytes: model::generate(size, 1)? });
    }
    for visits in SUMS {
        let made = assemble(&doubling(visits, "")).map_err(|f| f.reason)?;
        found.push(File { name: format!("sums of {visits} visits"), bytes: made.bytes });
    }
    for calls in CALLS {
        let bytes = calling(&model::generate(CALLED, 1)?, calls);
        found.push(File { name: format!("model of {CALLED} statements, called {calls} times"), bytes });
    }
    Ok(found)
}

/// The model's entry as a function, and one that calls it so many times with its own arguments and needs every result.
fn calling(file: &[u8], calls: usize) -> Vec<u8> {
    let module = &file[..split(file)];
    let arguments = Outline::of(module).functions[0].arguments;
    let at = records(module).0.iter().find(|r| r.letters == *b"FN").map_or(0, |r| r.at);
    let mut draft = Draft(module.to_vec());
    draft.0[at + 4] = 0;
    draft.put(Mark::Function, &[0, 0, ABSENT]).repeat(arguments, Mark::Argument, &[0, ABSENT]);
    for n in 0..arguments {
        draft.put(Mark::Expression, &[0, 9, n as u16]);
    }
    draft.repeat(calls, Mark::Expression, &[0, 23]);
    let results: Vec<u16> = (arguments..arguments + calls).map(|e| e as u16).collect();
    let last = composed(results, &mut draft);
    draft.put(Mark::Block, &[]);
    let given: Vec<u16> = (0..arguments as u16).collect();
    for n in 0..calls {
        draft.put(Mark::Statement, &[&[14, 0, arguments as u16], &given[..], &[(arguments + n) as u16]].concat());
    }
    draft.put(Mark::Statement, &[7, last]);
    let request = Request { function: 1, retval: Part::All, globals: Vec::new() };
    draft.put(Mark::Request, &request.fields());
    draft.0
}

/// One expression of all these, which end at the last that there is: lists of lists.
fn composed(mut values: Vec<u16>, draft: &mut Draft) -> u16 {
    let mut next = values.last().map_or(0, |e| e + 1);
    while values.len() > 1 {
        let lists: Vec<Vec<u16>> = values.chunks(limits::ITEMS).map(<[u16]>::to_vec).collect();
        values = (next..next + lists.len() as u16).collect();
        next += lists.len() as u16;
        for list in lists {
            draft.put(Mark::Expression, &[&[0, 8, list.len() as u16], &list[..]].concat());
        }
    }
    values[0]
}
