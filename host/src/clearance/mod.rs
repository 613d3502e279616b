//! The clearance of document 01, a second time: written from its words alone, to be compared with the library's. It judges marks and input
//! context from anyone, by a walk backward; and it does runs, on which a cleared report is to hold.
pub mod authors;
pub mod campaign;
pub mod function;
pub mod inside;
pub mod judged;
pub mod layout;
pub mod need;
pub mod needs;
pub mod operands;
pub mod pair;
pub mod path;
pub mod plan;
pub mod run;
pub mod shape;
pub mod show;
pub mod verdict;
pub mod walk;
pub mod wild;

pub use verdict::{answer, verdict, Verdict};
