//! A case brought to the limit of pieces: globals and a function more, of which an earlier request leaves a total that makes up the rest.
use crate::draft::Draft;
use crate::form::{Mark, ABSENT};
use crate::fresh::Case;
use crate::limits;
use crate::outline::Outline;
use crate::pairs::asked;
use crate::record::{records, write};
use crate::request::Request;

/// Enough globals for a total of all pieces.
const GLOBALS: usize = 31;

/// The module and these requests, after one whose total has so many pieces; nothing where the module has no room for that.
pub fn raised(module: &[u8], outline: &Outline, requests: &[Vec<u8>], pieces: usize) -> Option<Case> {
    let (globals, functions) = (outline.globals.len(), outline.functions.len());
    if outline.types.is_empty() || globals + GLOBALS > limits::GLOBALS || functions == limits::FUNCTIONS {
        return None;
    }
    let at = records(module).0.iter().find(|r| r.letters == *b"FN").map_or(module.len(), |r| r.at);
    let mut draft = Draft(module[..at].to_vec());
    draft.repeat(GLOBALS, Mark::Global, &[0]);
    draft.0.extend(&module[at..]);
    draft.put(Mark::Function, &[0, ABSENT, ABSENT]).put(Mark::Block, &[]);
    let first = Request::parse(&format!("{functions} none{}", asked(globals, pieces))).ok()?;
    let first = write(*b"RQ", &first.fields())?;
    let case = Case::of(draft.0);
    case.outline.is_some().then(|| Case { requests: [&[first], requests].concat(), ..case })
}
