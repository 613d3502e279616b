//! Cases for the check of a report: module, request, report buffer and context as bytes, from several authors, whole and damaged.
pub mod compare;
pub mod corners;
pub mod fresh;
pub mod listed;
pub mod spoil;
pub mod tally;
pub mod timed;
pub mod worst;

use crate::clearance::authors::{Asked, Report};
use crate::clearance::{self, Verdict};
use crate::library;

#[derive(Clone, PartialEq, Eq, Debug)]
pub struct Case {
    pub module: Vec<u8>,
    pub request: Vec<u8>,
    pub report: Vec<u8>,
    pub context: Vec<u8>,
}

impl Case {
    pub fn of(asked: &Asked, report: &Report) -> Case {
        let (module, request) = (asked.bytes.clone(), asked.record.clone());
        Case { module, request, report: report.marks.clone(), context: report.context.record() }
    }

    /// By the second clearance.
    pub fn answer(&self) -> Verdict {
        clearance::answer(&self.module, &self.request, &self.report, &self.context)
    }

    /// By the library, which may write nothing.
    pub fn check(&self) -> Result<u64, String> {
        let lent = self.clone();
        let word = library::check(&lent.module, &lent.request, &lent.report, &lent.context);
        if lent == *self {
            Ok(word)
        } else {
            Err("the check has changed a buffer".into())
        }
    }
}
