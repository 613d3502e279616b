//! Functions at the limits of the clearance: just within 15 and 16 and just past them, and past our own bound (26).
use crate::assemble::assemble;
use crate::random::Random;

fn file(text: &str) -> Vec<u8> {
    assemble(text).unwrap_or_else(|f| panic!("line {}: {}\n{text}", f.line, f.reason)).bytes
}

/// Any of them near its limit; our own bound, which takes long, seldom.
pub fn any(random: &mut Random) -> Vec<u8> {
    if random.chance(2) {
        return loops(random.between(340, 385));
    }
    match random.below(6) {
        0 => sum(random.between(14, 19)),
        1 => nested(random.between(6, 10)),
        2 => pieces(30, random.between(0, 4), random.chance(50)),
        3 => turns(random.between(14, 19), random.chance(50)),
        4 => chosen(random.between(29, 31), random.between(0, 3)),
        _ => column(random.between(5, 8)),
    }
}

/// The sum of the first elements of argument 0, an array of 20: 16 entries and 17.
pub fn sum(count: usize) -> Vec<u8> {
    let reads: String = (0..count).map(|i| format!("expr 0 AccessIndex 0 {i}\n")).collect();
    let sum = |i: usize| if i == 1 { 1 } else { count + i - 1 };
    let sums: String = (1..count).map(|i| format!("expr 0 Binary {} {}\n", sum(i), i + 1)).collect();
    let last = 2 * count - 1;
    file(&format!(
        "type Scalar\ntype Array 0 20\nglobal 0\nfn function 0 -\narg 1 -\nexpr 1 FunctionArgument 0\n{reads}{sums}block\n\
         stmt Emit 1 {last}\nstmt Return {last}\nrequest 0 all 0=all\n"
    ))
}

/// An element of an element and so on of argument 0: depth 8 and 9.
pub fn nested(depth: usize) -> Vec<u8> {
    let types: String = (0..depth).map(|n| format!("type Array {n} 2\n")).collect();
    let steps: String = (0..depth).map(|n| format!("expr {} AccessIndex {n} 1\n", depth - 1 - n)).collect();
    file(&format!(
        "type Scalar\n{types}fn function 0 -\narg {depth} -\nexpr {depth} FunctionArgument 0\n{steps}block\nstmt Emit 1 {depth}\n\
         stmt Return {depth}\nrequest 0 all\n"
    ))
}

/// Globals asked with 273 pieces each, and some with one, at the end of a body that is empty or not: 8,192 pieces and 8,193.
pub fn pieces(large: usize, small: usize, empty: bool) -> Vec<u8> {
    let part = sixteen(&sixteen("all"));
    let globals: String = (0..large + small).map(|g| format!("global {}\n", if g < large { 2 } else { 0 })).collect();
    let asked: String = (0..large + small).map(|g| format!(" {g}={}", if g < large { &part } else { "all" })).collect();
    let body = if empty { "" } else { "stmt Return -\n" };
    file(&format!("type Scalar\ntype Array 0 16\ntype Array 1 16\n{globals}fn function - -\nblock\n{body}request 0 none{asked}\n"))
}

/// So many loads of a local of which 272 pieces are asked, one chosen from them, and some globals asked: with 30 loads and one global
/// 8,192 pieces stand in the midst of an emit.
pub fn chosen(loads: usize, globals: usize) -> Vec<u8> {
    let part = sixteen(&sixteen("all"));
    let chosen = |n: usize| if n == 1 { 2 } else { loads + n };
    let (reads, given) = ("expr 2 Load 0\n".repeat(loads), "global 0\n".repeat(globals));
    let choices: String = (1..loads).map(|n| format!("expr 2 Select 1 {} {}\n", chosen(n), 2 + n)).collect();
    let asked: String = (0..globals).map(|g| format!(" {g}=all")).collect();
    let last = 2 * loads;
    file(&format!(
        "type Scalar\ntype Array 0 16\ntype Array 1 16\n{given}fn function 2 -\narg 0 -\nlocal 2\nexpr 2 LocalVariable 0\n\
         expr 0 FunctionArgument 0\n{reads}{choices}block\nstmt Emit 2 {last}\nstmt Return {last}\nrequest 0 {part}{asked}\n"
    ))
}

fn sixteen(inner: &str) -> String {
    format!("{{{}}}", (0..16).map(|i| format!("{i}:{inner}")).collect::<Vec<_>>().join(","))
}

/// Entries of a local array that are read in a loop's body, which in the next round are all of it, if the array is copied there: 17 of
/// them are past the limit in working rounds, and then only where it is not copied.
pub fn turns(count: usize, copied: bool) -> Vec<u8> {
    let reads: String = (0..count).map(|i| format!("expr 0 AccessIndex 0 {i}\nexpr 0 Load {}\n", 5 + 2 * i)).collect();
    let sums = 5 + 2 * count;
    let sum = |i: usize| if i == 0 { 6 } else { sums + i - 1 };
    let math: String = (0..count).map(|i| format!("expr 0 Binary {} {}\n", 6 + 2 * i, sum(i))).collect();
    let math_at = sums + count;
    let (before, read, argument) = (math_at - 1, math_at + 1, math_at + 2);
    let copy = if copied { "stmt Store 1 3\n" } else { "" };
    file(&format!(
        "type Scalar\ntype Array 0 20\nfn function 0 -\narg 0 -\nlocal 1\nlocal 1\nlocal 0\nexpr 1 LocalVariable 0\nexpr 1 LocalVariable 1\n\
         expr 0 LocalVariable 2\nexpr 1 Load 0\nexpr 1 Load 1\n{reads}{math}expr 0 Math 4 {before} - -\nexpr 0 Load 2\n\
         expr 0 FunctionArgument 0\nblock\nstmt Emit 4 4\nstmt Emit 5 {math_at}\nstmt Store 2 {math_at}\nblock\nstmt Emit 3 3\n{copy}\
         block\nstmt Loop 0 1 {argument}\nstmt Emit {read} {read}\nstmt Return {read}\nrequest 0 all\n"
    ))
}

/// A component of a column of a matrix within as many structs, stored to a global that is asked whole: what is left is split on the way.
pub fn column(depth: usize) -> Vec<u8> {
    let types: String = (0..depth).map(|n| format!("type Struct [{}:- 0:-]\n", 2 + n)).collect();
    let steps: String = (0..depth).map(|n| format!("expr {} AccessIndex {n} 0\n", 1 + depth - n)).collect();
    let (whole, at) = (2 + depth, depth);
    file(&format!(
        "type Scalar\ntype Vector 3\ntype Matrix 2 3\n{types}global {whole}\nfn function - -\narg 0 -\nexpr {whole} GlobalVariable 0\n\
         {steps}expr 1 AccessIndex {at} 1\nexpr 0 AccessIndex {} 2\nexpr 0 FunctionArgument 0\nblock\nstmt Store {} {}\n\
         request 0 none 0=all\n",
        at + 1,
        at + 2,
        at + 3
    ))
}

/// Loops one after the other, each of which ends by another element of one array, the last loop by the first element: the needs of the
/// loop at place p from the end have p entries, and share no cell with the others'. Some 370 loops are past our own bound of 65,536 cells.
pub fn loops(count: usize) -> Vec<u8> {
    let expressions: String = (0..count).map(|n| format!("expr 0 AccessIndex 0 {}\nexpr 0 Load {}\n", count - 1 - n, 1 + 2 * n)).collect();
    let blocks: String = (0..count).map(|n| format!("block\nstmt Emit {0} {0}\nblock\n", 2 + 2 * n)).collect();
    let body: String = (0..count).map(|n| format!("stmt Loop {} {} {}\n", 2 * n, 2 * n + 1, 2 + 2 * n)).collect();
    file(&format!(
        "type Scalar\ntype Array 0 {count}\nglobal 1\nglobal 0\nfn function - -\nexpr 1 GlobalVariable 0\n{expressions}{blocks}block\n{body}\
         request 0 none 1=all\n"
    ))
}
