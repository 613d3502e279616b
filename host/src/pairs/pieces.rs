//! Pieces (16): 8,192 and 8,193 of them as a visit begins and as it ends, with each sort of context held. Blocks in each other hold the
//! same context again and again, and a total that an earlier request has left makes up the rest.
use super::Pair;

/// The entries of the global that most pieces come from, and the most that one can be asked for.
const LOAD: usize = 40;
const MOST: usize = 272;

/// A statement whose blocks are to be walked at the limit.
struct Holder {
    name: &'static str,
    /// The blocks that it holds, and itself.
    blocks: &'static str,
    statement: &'static str,
    /// How many blocks are around it, and the pieces of the earlier total with which the most at once is 8,192.
    nest: usize,
    total: usize,
    /// How many pieces more bring the refusal to an earlier visit.
    turns: &'static [usize],
}

const HOLDERS: [Holder; 7] = [
    Holder { name: "a block", blocks: "block\nstmt Kill\n", statement: "Block 0", nest: 91, total: 8, turns: &[1, 89] },
    Holder {
        name: "the reject block of an if",
        blocks: "block\nstmt Store 0 2\nstmt Store 1 3\nblock\nstmt Store 0 4\n",
        statement: "If 2 0 1",
        nest: 90,
        total: 42,
        turns: &[1, 3, 47, 49, 51, 53, 55],
    },
    Holder {
        name: "the cases of a switch",
        blocks: "block\nstmt Store 0 4\nblock\nstmt Store 0 2\nstmt Store 1 3\n",
        statement: "Switch 2 [0:0 default:1]",
        nest: 90,
        total: 42,
        turns: &[1, 3, 5, 7, 9, 11],
    },
    Holder {
        name: "a loop's continuing block and its turns",
        blocks: "block\nstmt Store 0 2\nstmt Store 1 3\nblock\nstmt Store 0 4\n",
        statement: "Loop 0 1 -",
        nest: 89,
        total: 77,
        turns: &[1, 48, 54, 56, 100],
    },
    Holder {
        name: "a loop's condition",
        blocks: "block\nstmt Store 0 2\nstmt Store 1 3\nblock\n",
        statement: "Loop 0 1 4",
        nest: 90,
        total: 38,
        turns: &[1, 49, 51, 59],
    },
    Holder {
        name: "a call",
        blocks: "block\nstmt Call 0 [2] 5\nstmt Store 0 5\n",
        statement: "Block 0",
        nest: 89,
        total: 85,
        turns: &[1, 2, 3, 5, 7, 97, 98, 100],
    },
    Holder {
        name: "what taking out leaves",
        blocks: "block\nstmt Store 7 2\n",
        statement: "Block 0",
        nest: 90,
        total: 80,
        turns: &[1, 17, 105],
    },
];

/// Globals 0 and 1 are scalars, 2 is the load, 3 a matrix.
const HEAD: &str = "
type Scalar
type Array 0 20
type Matrix 4 4
global 0
global 0
global 1
global 2
fn function 0 -
arg 0 -
expr 0 FunctionArgument 0
expr 0 GlobalVariable 1
expr 0 Load 1
expr 0 Binary 0 2
block
stmt Emit 2 3
stmt Return 3
fn function - -
arg 0 -
arg 0 -
arg 0 -
local 0
expr 0 GlobalVariable 0
expr 0 GlobalVariable 1
expr 0 FunctionArgument 0
expr 0 FunctionArgument 1
expr 0 FunctionArgument 2
expr 0 CallResult
expr 2 GlobalVariable 3
expr 0 AccessIndex 6 0
";

/// A part of so many entries at two depths.
fn entries(count: usize) -> String {
    let (full, rest) = (count / 17, count % 17);
    let level = |n: usize| {
        let inner: Vec<String> = (0..n).map(|i| format!("{i}:all")).collect();
        format!("{{{}}}", inner.join(","))
    };
    let mut found: Vec<String> = (0..full).map(|i| format!("{i}:{}", level(16))).collect();
    if rest > 0 {
        found.push(format!("{full}:{}", if rest == 1 { "all".into() } else { level(rest - 1) }));
    }
    format!("{{{}}}", found.join(","))
}

/// What a request asks of globals from `first` on, so many pieces in all.
pub fn asked(first: usize, pieces: usize) -> String {
    let mut text = String::new();
    let (mut left, mut global) = (pieces, first);
    while left > 0 {
        let own = left.min(MOST + 1) - 1;
        text += &format!(" {global}={}", if own == 0 { "all".into() } else { entries(own) });
        (left, global) = (left - own - 1, global + 1);
    }
    text
}

/// The holder in its nest, with `more` pieces than the limit allows.
fn listing(holder: &Holder, more: usize) -> String {
    let held = holder.blocks.matches("block").count();
    let nest: String = (held..held + holder.nest).map(|b| format!("block\nstmt Block {b}\n")).collect();
    let (blocks, statement, before, load) = (holder.blocks, holder.statement, asked(0, holder.total + more), entries(LOAD));
    format!(
        "{HEAD}{blocks}block\nstmt {statement}\n{nest}fn function - -\nblock\nrequest 2 none{before}\nrequest 1 none 0=all 1=all 2={load} 3=all\n"
    )
}

/// Each holder at the limit and past it, and so on where one piece more brings the refusal to an earlier visit.
pub fn all() -> Vec<Pair> {
    let mut found = Vec::new();
    for holder in &HOLDERS {
        for more in holder.turns {
            let within = if *more == 1 { 0 } else { 16 };
            let name = format!("pieces: {}, {more} more", holder.name);
            found.push(Pair::new(name, (within, 16), &listing(holder, more - 1), &listing(holder, *more)));
        }
    }
    found
}
