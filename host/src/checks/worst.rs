//! The inputs on which a check takes longest, each with the report that makes it so.
use super::Case;
use crate::assemble::assemble;
use crate::clearance::authors::{Asked, Report};
use crate::clearance::function::Expression;
use crate::context::Context;
use crate::draft::Draft;
use crate::form::Mark;
use crate::model;
use crate::part::Part;
use crate::record::{records, split};

pub struct Named {
    pub name: String,
    pub asked: Asked,
    /// Whether every statement is marked, or none.
    pub marked: bool,
}

impl Named {
    fn of(name: String, text: &str, marked: bool) -> Named {
        let file = assemble(text).unwrap_or_else(|f| panic!("{name}, line {}: {}", f.line, f.reason)).bytes;
        Named { asked: Asked::of(&file).expect("a request that fits"), name, marked }
    }

    /// With a context of all inputs.
    pub fn case(&self) -> Case {
        let marks = vec![u8::from(self.marked); self.asked.outline.marks()];
        let whole = |count: usize| (0..count as u16).map(|n| (n, Part::All)).collect();
        let (globals, arguments) = (whole(self.asked.module.globals.len()), whole(self.asked.function().arguments.len()));
        let context = Context { retval: Part::None, globals, arguments, locals: Vec::new() };
        Case::of(&self.asked, &Report { marks, context })
    }
}

pub fn all() -> Vec<Named> {
    vec![loops(300), copies(1000), ifs(1000), odometer(3), odometer(4)]
}

/// Loops in each other, the innermost storing what the next turn needs: a chain of two locals behind the asked global.
pub fn loops(depth: usize) -> Named {
    let mut blocks = String::from("block\nstmt Emit 4 5\nstmt Store 0 4\nstmt Store 1 5\n");
    for n in 0..depth {
        blocks += &format!("block\nblock\nstmt Loop {} {} 3\n", 2 * n, 2 * n + 1);
    }
    let text = format!(
        "type Scalar\nglobal 0\nfn function - -\narg 0 -\nlocal 0\nlocal 0\nexpr 0 GlobalVariable 0\nexpr 0 LocalVariable 0\n\
         expr 0 LocalVariable 1\nexpr 0 FunctionArgument 0\nexpr 0 Load 1\nexpr 0 Load 2\n{blocks}request 0 none 0=all\n"
    );
    Named::of(format!("{depth} nested loops"), &text, true)
}

/// How many parts the copies go through: as many as expressions allow.
const CHAIN: usize = 480;

/// Copies in one loop, each of the next part of 32 structs to the one before it, all loaded before any is stored: each round finds one
/// part more. The list of stores is gone through again and again until there are so many.
pub fn copies(count: usize) -> Named {
    let locals = CHAIN / 16 + 1;
    let variables: String = (0..locals).map(|n| format!("expr 1 LocalVariable {n}\n")).collect();
    let paths: String = (0..=CHAIN).map(|n| format!("expr 0 AccessIndex {} {}\n", n / 16, n % 16)).collect();
    let loads: String = (1..=CHAIN).map(|n| format!("expr 0 Load {}\n", locals + n)).collect();
    let first = locals + CHAIN + 1;
    let stores: String = (0..count).map(|n| n % CHAIN).map(|n| format!("stmt Store {} {}\n", locals + n, first + n)).collect();
    let (last, argument, read) = (first + CHAIN - 1, first + CHAIN, first + CHAIN + 1);
    let text = format!(
        "type Scalar\ntype Struct [{}]\nfn function 0 -\narg 0 -\n{}{variables}{paths}{loads}expr 0 FunctionArgument 0\nexpr 0 Load {locals}\n\
         block\nstmt Emit {first} {last}\n{stores}block\nblock\nstmt Loop 0 1 {argument}\nstmt Emit {read} {read}\nstmt Return {read}\n\
         request 0 all\n",
        ["0:-"; 16].join(" "),
        "local 1\n".repeat(locals)
    );
    Named::of(format!("{count} copies in the worst order in one loop"), &text, true)
}

/// Unmarked ifs in each other; the innermost stores to what is asked, so that each breaks its rule, and is looked through to its end.
pub fn ifs(depth: usize) -> Named {
    let mut blocks = String::from("block\nstmt Store 0 1\n");
    for n in 0..depth {
        blocks += &format!("block\nblock\nstmt If 1 {} {}\n", 2 * n + 1, 2 * n);
    }
    let text = format!(
        "type Scalar\nglobal 0\nfn function - -\narg 0 -\nexpr 0 GlobalVariable 0\nexpr 0 FunctionArgument 0\n{blocks}request 0 none 0=all\n"
    );
    Named::of(format!("{depth} nested unmarked ifs"), &text, false)
}

/// A struct of 16 structs of 16 and so on, and a loop whose body moves its leaves on by one: the members at each depth of the last
/// member are turned round, 16 copies a depth. A leaf is asked; each round finds the next.
pub fn odometer(levels: usize) -> Named {
    let types: String = (0..levels).map(|n| format!("type Struct [{}]\n", vec![format!("{n}:-"); 16].join(" "))).collect();
    let (mut expressions, mut statements) = (format!("expr {levels} LocalVariable 0\nexpr 0 FunctionArgument 0\n"), String::new());
    let (mut base, mut next) = (0, 2);
    for depth in 0..levels {
        let kind = levels - 1 - depth;
        expressions += &(0..16).map(|i| format!("expr {kind} AccessIndex {base} {i}\n")).collect::<String>();
        expressions += &(0..16).map(|i| format!("expr {kind} Load {}\n", next + i)).collect::<String>();
        statements += &format!("stmt Emit {} {}\n", next + 16, next + 31);
        statements += &(0..16).map(|i| format!("stmt Store {} {}\n", next + i, next + 16 + (i + 1) % 16)).collect::<String>();
        (base, next) = (next + 15, next + 32);
    }
    let mut leaf = 0;
    for depth in 0..levels {
        expressions += &format!("expr {} AccessIndex {leaf} 0\n", levels - 1 - depth);
        (leaf, next) = (next, next + 1);
    }
    let text = format!(
        "type Scalar\n{types}fn function 0 -\narg 0 -\nlocal {levels}\n{expressions}expr 0 Load {leaf}\nblock\n{statements}block\nblock\n\
         stmt Loop 0 1 1\nstmt Emit {next} {next}\nstmt Return {next}\nrequest 0 all\n"
    );
    Named::of(format!("an odometer of {} copies over {} leaves", 16 * levels, 16usize.pow(levels as u32)), &text, true)
}

/// A casting model of so many statements, its whole body in so many loops.
pub fn in_loops(statements: usize, depth: usize, seed: u64) -> Result<Vec<u8>, String> {
    let file = model::generate(statements - depth, seed)?;
    let (module, request) = file.split_at(split(&file));
    let blocks = records(module).0.iter().filter(|r| r.letters == *b"BK").count();
    let argument = Asked::of(&file).and_then(|a| a.function().expressions.iter().position(is_argument)).ok_or("no argument")?;
    let mut draft = Draft(module.to_vec());
    let mut inner = blocks - 1;
    for n in 0..depth {
        let continuing = blocks + 2 * n;
        draft.put(Mark::Block, &[]).put(Mark::Block, &[]);
        draft.put(Mark::Statement, &[4, inner as u16, continuing as u16, argument as u16]);
        inner = continuing + 1;
    }
    draft.0.extend(request);
    Ok(draft.0)
}

fn is_argument(e: &Expression) -> bool {
    matches!(e, Expression::FunctionArgument(_))
}
