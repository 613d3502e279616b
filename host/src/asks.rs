//! Modules with requests for tests of asking: malformed requests, ones that name nothing, and pairs at each limit of a request.
use crate::assemble::assemble;
use crate::readings::changed;
use crate::record::{fields, records, split};

/// A module of a struct global, a vector global and a function of both, with one request.
const SMALL: &str = "
type Scalar
type Vector 3
type Struct [0:- 1:- 1:4]
global 2
global 1
fn function 1 -
arg 1 -
expr 2 GlobalVariable 0
expr 1 AccessIndex 0 1
expr 1 Load 1
expr 1 GlobalVariable 1
expr 1 FunctionArgument 0
expr 1 Binary 2 4
block
stmt Store 3 4
stmt Emit 2 2
stmt Emit 5 5
stmt Return 5
request 0 {0:all,2:exist} 0={1:{2:all}} 1=all
";

/// A module with requests over one pruner, and the length of the report buffer.
pub struct Asked {
    pub buffer: u32,
    pub module: Vec<u8>,
    pub requests: Vec<Vec<u8>>,
}

pub const BUFFER: u32 = 65536;

/// A file's requests in groups of at most four, each group over a pruner of its own.
pub fn groups(file: &[u8]) -> Vec<Asked> {
    let (module, rest) = file.split_at(split(file));
    let (found, cut) = records(rest);
    let mut requests: Vec<Vec<u8>> = found.iter().map(|r| rest[r.at..r.at + 4 + r.body.len()].to_vec()).collect();
    if !cut.is_empty() {
        requests.push(cut.to_vec());
    }
    let group = |r: &[Vec<u8>]| Asked { buffer: BUFFER, module: module.to_vec(), requests: r.to_vec() };
    requests.chunks(4).map(group).collect()
}

fn file(text: &str) -> Vec<u8> {
    assemble(text).expect("a right listing").bytes
}

pub fn all() -> Vec<Asked> {
    let mut found = malformed();
    found.extend(buffers());
    found.extend(nestings());
    found.extend(pieces());
    found.extend(paths());
    found.extend(joins());
    found.extend(queries());
    found.extend([1, 2, 3, 5, 9, 20, 40].map(chain).iter().flat_map(|text| groups(&file(text))));
    found
}

/// The small module's request with each field changed, a field more or less, an odd length.
fn malformed() -> Vec<Asked> {
    let whole = file(SMALL);
    let (module, request) = whole.split_at(split(&whole));
    let mut bytes = whole.clone();
    for body in changed(&fields(&request[4..])) {
        bytes.extend(b"RQ");
        bytes.extend((body.len() as u16).to_le_bytes());
        bytes.extend(body);
    }
    let mut found = groups(&bytes);
    for odd in [&b"RQ\x04\x00\x00"[..], b"TY\x02\x00\x00\x00", b"R", b"rq\x06\x00\x00\x00\x03\x00\x00\x00"] {
        found.push(Asked { buffer: BUFFER, module: module.to_vec(), requests: vec![request.to_vec(), odd.to_vec()] });
    }
    found
}

/// A report buffer of just enough bytes, of too few, of none; 12 and 11 come before that.
fn buffers() -> Vec<Asked> {
    let text = format!("{SMALL}request 0 all 2=all\nrequest - all\nrequest 0 none");
    let whole = file(&text);
    let lent = |buffer| groups(&whole).into_iter().map(move |a| Asked { buffer, ..a });
    [BUFFER, BUFFER - 1, 0, BUFFER + 1].into_iter().flat_map(lent).collect()
}

fn nest(depth: usize) -> String {
    "{0:".repeat(depth) + "all" + &"}".repeat(depth)
}

fn entries(count: usize, part: &str) -> String {
    let list: Vec<String> = (0..count).map(|i| format!("{i}:{part}")).collect();
    format!("{{{}}}", list.join(","))
}

/// Parts of depth 8 and 9, of 16 and 17 entries, at the top and below.
fn nestings() -> Vec<Asked> {
    let inner = |part: String| format!("{{3:all,5:{part}}}");
    let parts = [
        nest(8),
        nest(9),
        entries(16, "all"),
        entries(17, "all"),
        inner(nest(7)),
        inner(nest(8)),
        inner(entries(16, "exist")),
        inner(entries(17, "exist")),
    ];
    let mut text = SMALL.to_string();
    for part in &parts {
        text += &format!("request 0 {part}\nrequest 0 none 1={part}\n");
    }
    text += "request 0 {} 0={}\nrequest 0 {0:{}} 1=exist\n";
    groups(&file(&text))
}

/// Requests that hold exactly the limit of pieces, and one more: at the end of a function without a statement, where nothing else
/// is counted, and at the first visit of one with a statement, where base and current context both hold them.
/// A global asked with 16 entries of 16 has 1 + 16 + 256 pieces, one asked whole has one.
fn pieces() -> Vec<Asked> {
    let part = entries(16, &entries(16, "all"));
    let mut found = Vec::new();
    for (large, small, body) in [(30, 2, ""), (30, 3, ""), (15, 1, "stmt Kill"), (15, 2, "stmt Kill")] {
        let count = large + small;
        let globals = "global 0\n".repeat(count);
        let asked: String = (0..count).map(|g| format!(" {g}={}", if g < large { &part } else { "all" })).collect();
        let text = format!("type Scalar\n{globals}fn function - -\nblock\n{body}\nrequest 0 none{asked}\n");
        found.extend(groups(&file(&text)));
    }
    found
}

/// How many arrays the argument and the local of `paths` have in each other; type n is n of them.
const NESTED: usize = 9;

/// An element of an element and so on, this deep, read from an argument, and stored to and read from a local.
fn paths() -> Vec<Asked> {
    let mut found = Vec::new();
    for depth in [7, 8, 9] {
        let last = NESTED - depth;
        let arrays: String = (0..NESTED).map(|t| format!("type Array {t} 20\n")).collect();
        let head = format!("type Scalar\n{arrays}fn function {last} -\narg {NESTED} -\nlocal {NESTED}\n");
        let steps: String = (0..depth).map(|n| format!("expr {} AccessIndex {n} 0\n", NESTED - n - 1)).collect();
        let read = format!("expr {NESTED} FunctionArgument 0\n{steps}block\nstmt Emit 1 {depth}\nstmt Return {depth}\n");
        let (zero, load) = (depth + 1, depth + 2);
        let values = format!("expr {last} ZeroValue\nexpr {last} Load {depth}\n");
        let stored = format!("block\nstmt Store {depth} {zero}\nstmt Emit {load} {load}\nstmt Return {load}\n");
        let store = format!("expr {NESTED} LocalVariable 0\n{steps}{values}{stored}");
        for body in [read, store] {
            found.extend(groups(&file(&format!("{head}{body}request 0 all\nrequest 0 exist\nrequest 0 none"))));
        }
    }
    found
}

/// Entries that come together at and past their limit: elements of an argument in one function, and of a global over two requests.
fn joins() -> Vec<Asked> {
    let head = "type Scalar\ntype Array 0 20\ntype Opaque\nglobal 1\n";
    let mut found = Vec::new();
    for count in [15, 16, 17] {
        let one = format!("{head}{}request 0 all\nrequest 0 none", sum_of_elements(count));
        let (low, high) = (elements_of_global(0, 9), elements_of_global(9, count));
        let two = format!("{head}{low}{high}request 0 all\nrequest 1 all\nrequest 0 all");
        found.extend([one, two].iter().flat_map(|text| groups(&file(text))));
    }
    found
}

/// A function that adds up the first elements of its argument.
fn sum_of_elements(count: usize) -> String {
    let reads: String = (0..count).map(|i| format!("expr 0 AccessIndex 0 {i}\n")).collect();
    let sum = |i: usize| if i == 1 { 1 } else { count + i - 1 };
    let sums: String = (1..count).map(|i| format!("expr 0 Binary {} {}\n", sum(i), i + 1)).collect();
    let last = 2 * count - 1;
    format!("fn function 0 -\narg 1 -\nexpr 1 FunctionArgument 0\n{reads}{sums}block\nstmt Emit 1 {last}\nstmt Return {last}\n")
}

/// A function that composes these elements of the global.
fn elements_of_global(low: usize, high: usize) -> String {
    let pointer = |i: usize| 1 + 2 * (i - low);
    let loads: String = (low..high).map(|i| format!("expr 0 AccessIndex 0 {i}\nexpr 0 Load {}\n", pointer(i))).collect();
    let values: Vec<String> = (low..high).map(|i| (pointer(i) + 1).to_string()).collect();
    let (all, last) = (values.join(" "), pointer(high));
    format!("fn function 2 -\nexpr 1 GlobalVariable 0\n{loads}expr 2 Compose [{all}]\nblock\nstmt Emit 1 {last}\nstmt Return {last}\n")
}

/// The statements that resolve their result or query first, on a global, on a local and on what is neither, each request alone and
/// then all over one pruner, where two marks of such a statement meet.
fn queries() -> Vec<Asked> {
    let asked = ["request 0 none 0=all\n", "request 0 all\n", "request 0 none\n"];
    let mut found = Vec::new();
    for target in 0..3 {
        for statement in [
            format!("RayQuery {target}"),
            format!("WorkGroupUniformLoad 0 {target}"),
            format!("SubgroupBallot {target} 2"),
            format!("SubgroupBallot {target} -"),
            format!("SubgroupGather BroadcastFirst 3 {target}"),
            format!("SubgroupGather Broadcast 2 3 {target}"),
            format!("SubgroupCollectiveOperation 3 {target}"),
        ] {
            let module = format!(
                "type Scalar\nglobal 0\nfn function 0 -\narg 0 -\nlocal 0\nexpr 0 GlobalVariable 0\nexpr 0 LocalVariable 0\n\
                 expr 0 FunctionArgument 0\nexpr 0 Load 1\nblock\nstmt {statement}\nstmt Emit 3 3\nstmt Return 3\n"
            );
            for requests in asked.into_iter().map(String::from).chain([asked.concat()]) {
                found.extend(groups(&file(&format!("{module}{requests}"))));
            }
        }
    }
    found
}

/// A loop that finds one call's argument, and with it one global, in each turn: it settles one turn after the last of them.
pub fn chain(calls: usize) -> String {
    let globals = "global 0\n".repeat(calls);
    let called = "fn function 0 -\narg 0 -\nexpr 0 FunctionArgument 0\nblock\nstmt Return 0\n";
    let results = "expr 0 CallResult\n".repeat(calls);
    let (variable, value) = (calls, calls + 1);
    // a global's expression, its load, and (but for the last) what the call before gives with it
    let global = |i: usize| calls + 2 + 3 * i;
    let argument = |i: usize| if i + 1 < calls { global(i) + 2 } else { global(i) + 1 };
    let read = |i: usize| format!("expr 0 GlobalVariable {i}\nexpr 0 Load {}\n", global(i));
    let reads: String = (0..calls)
        .map(|i| if i + 1 < calls { format!("{}expr 0 Binary {} {}\n", read(i), i + 1, global(i) + 1) } else { read(i) })
        .collect();
    let made: String = (0..calls).map(|i| format!("stmt Call 0 [{}] {i}\n", argument(i))).collect();
    format!(
        "type Scalar\n{globals}{called}fn function 0 -\nlocal 0\n{results}expr 0 LocalVariable 0\nexpr 0 Load {variable}\n{reads}\
         block\nstmt Store {variable} 0\n{made}block\nblock\nstmt Loop 0 1 -\nstmt Return {value}\nrequest 1 all\nrequest 1 none\n"
    )
}

/// The bytes of a module and its requests, as one file.
pub fn joined(asked: &Asked) -> Vec<u8> {
    [&[asked.module.clone()], &asked.requests[..]].concat().concat()
}

/// Whether the file splits again into this module and these requests.
pub fn splits(asked: &Asked) -> bool {
    let first = asked.requests.first().is_some_and(|r| r.len() >= 4 && r.starts_with(b"RQ"));
    first && split(&joined(asked)) == asked.module.len()
}
