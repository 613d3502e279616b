//! Visits (17), turns (14) and the report's buffer (18) at their limits, and walks as deep as a file's length allows.
use super::Pair;
use crate::asks::{chain, groups, Asked, BUFFER};
use crate::assemble::assemble;
use crate::limits;

pub const VISITS: usize = 1_000_000;

pub fn all() -> Vec<Pair> {
    let mut found = vec![
        Pair::new("visits: an expression", (0, 17), &doubling(VISITS, ""), &doubling(VISITS + 1, "")),
        Pair::new("visits: a statement", (0, 17), &doubling(VISITS, "stmt Kill\n"), &doubling(VISITS + 1, "stmt Kill\n")),
        Pair::new("turns", (0, 14), &turning(63), &turning(64)),
    ];
    let mut buffer = Pair::new("the report's buffer", (0, 18), &doubling(1000, ""), &doubling(1000, ""));
    buffer.past.buffer = BUFFER - 1;
    found.push(buffer);
    found
}

/// A loop that settles in its turn after so many calls.
fn turning(calls: usize) -> String {
    let listing = chain(calls);
    listing[..listing.rfind("request").unwrap_or(listing.len())].to_string()
}

/// A function of sums in sums that takes exactly so many visits, the first statements before its return among them: at least eight, at most some two
/// millions.
pub fn doubling(visits: usize, first: &str) -> String {
    // the sum n takes twice the visits of the one before it, and its own
    let cost = |n: usize| (2 << n) - 1;
    let mut left = visits - 2 - first.lines().count();
    let mut parts = Vec::new();
    for n in (0..20).rev() {
        while left >= cost(n) {
            parts.push(n);
            left -= cost(n);
        }
    }
    let last = parts.first().copied().unwrap_or(0);
    let sums: String = (0..last).map(|n| format!("expr 0 Binary {n} {n}\n")).collect();
    let list = parts.iter().map(usize::to_string).collect::<Vec<_>>().join(" ");
    format!(
        "type Scalar\nfn function 0 -\narg 0 -\nexpr 0 FunctionArgument 0\n{sums}expr 0 Compose [{list}]\nblock\n{first}stmt Return {}\nrequest 0 all\n",
        last + 1
    )
}

/// A statement that holds a block: the blocks before that one's holder, itself (`X` for that block, `Y` for the other), and the bytes of a level.
struct Level {
    others: &'static str,
    statement: &'static str,
    bytes: usize,
    /// What the innermost block does.
    last: &'static str,
}

const LEVELS: [Level; 4] = [
    Level { others: "", statement: "Block X", bytes: 12, last: "Kill" },
    Level { others: "block\n", statement: "If 0 X Y", bytes: 20, last: "Kill" },
    Level { others: "", statement: "Switch 0 [default:X]", bytes: 18, last: "Kill" },
    // a loop that is required walks its body twice: so many in each other would not end
    Level { others: "block\n", statement: "Loop X Y -", bytes: 20, last: "ControlBarrier" },
];

/// Functions that call each other, enough for the blocks of a file under the limit of statements.
const FUNCTIONS: usize = 6;
/// A function's other records.
const AROUND: usize = 56;
/// Expressions in each other at the innermost place, and the bytes of each.
const OPERANDS: usize = limits::EXPRESSIONS - 1;
const OPERAND: usize = 10;

/// Blocks in each other as deep as a file's length allows, with operands in each other at the end.
pub fn deepest() -> Vec<Asked> {
    [(0, 0), (0, OPERANDS), (1, OPERANDS), (2, OPERANDS), (3, 0)].map(|(level, operands)| deep(&LEVELS[level], operands)).into()
}

fn deep(level: &Level, operands: usize) -> Asked {
    let room = limits::BYTES - OPERAND * operands - FUNCTIONS * AROUND;
    let each = room / FUNCTIONS / level.bytes;
    let mut text = String::from("type Scalar\n");
    for f in 0..FUNCTIONS {
        text += "fn function - -\nexpr 0 Literal\n";
        let own = if f == 0 { operands } else { 0 };
        (0..own).for_each(|n| text += &format!("expr 0 Unary {n}\n"));
        let last = if f == 0 { level.last.into() } else { format!("Call {} [] -", f - 1) };
        text += &format!("block\nstmt {last}\nblock\nblock\nstmt If {own} 0 1\n");
        let step = 1 + level.others.lines().count();
        for n in 0..each {
            let (block, other) = (2 + step * n, 3 + step * n);
            let statement = level.statement.replace('Y', &other.to_string()).replace('X', &block.to_string());
            text += &format!("{}block\nstmt {statement}\n", level.others);
        }
    }
    let made = assemble(&format!("{text}request {} none\n", FUNCTIONS - 1)).unwrap_or_else(|f| panic!("line {}: {}", f.line, f.reason));
    groups(&made.bytes).remove(0)
}
