//! The second clearance: each rule and each answer with its neighbour, and pairs of runs on cleared reports.
use host::assemble::assemble;
use host::clearance::authors::{Asked, Report};
use host::clearance::campaign::Campaign;
use host::clearance::plan::Plan;
use host::clearance::run::{fresh, Mode, Operators, Run};
use host::clearance::{answer, show, wild, Verdict};
use host::context::Context;
use host::part::{Part, Parts};
use host::random::Random;
use host::record::write_long;
use host::stored::{Requests, Source};
use host::{library, model};

/// Types 0 to 6: a scalar, vectors, a struct of a vector and a scalar, an array, a struct of it and a scalar, a matrix; 7 to 13: pointers.
const TYPES: &str = "
type 0: Scalar
type 1: Vector 2
type 2: Vector 3
type 3: Struct [1:- 0:-]
type 4: Array 0 4
type 5: Struct [4:- 0:-]
type 6: Matrix 2 2
type 7: Pointer 0
type 8: Pointer 1
type 9: Pointer 2
type 10: Pointer 3
type 11: Pointer 4
type 12: Pointer 5
type 13: Pointer 6
";

fn asked(listing: &str) -> Asked {
    let made = assemble(listing).unwrap_or_else(|f| panic!("line {}: {}\n{listing}", f.line, f.reason));
    Asked::of(&made.bytes).unwrap_or_else(|| panic!("not read:\n{listing}"))
}

/// Lines as `arg 0 all`, with commas between them.
fn context(text: &str) -> Context {
    let parts = |name: &str| -> Parts {
        let lines = text.split(';').map(str::trim).filter_map(|l| l.strip_prefix(name));
        lines.map(|l| l.split_once(' ').unwrap()).map(|(n, part)| (n.parse().unwrap(), Part::parse(part).unwrap())).collect()
    };
    Context { retval: Part::None, globals: parts("global "), arguments: parts("arg "), locals: Vec::new() }
}

/// The verdict on these marks (spaces between statements; `all` for all marked) and this context.
fn verdict(asked: &Asked, marks: &str, given: &str) -> String {
    let marks = match marks {
        "all" => vec![1; asked.outline.marks()],
        text => text.bytes().filter(|b| *b != b' ').map(|b| b - b'0').collect(),
    };
    asked.judge(&Report { marks, context: context(given) }).verdict.to_string()
}

/// Marks, context and verdict each.
type Verdicts = &'static [(&'static str, &'static str, &'static str)];

fn check(function: &str, verdicts: Verdicts) {
    let asked = asked(&format!("{TYPES}{function}"));
    for (marks, given, wanted) in verdicts {
        assert_eq!(verdict(&asked, marks, given), *wanted, "marks {marks}, context {given}:{function}");
    }
}

const CASE_A: &str = "
fn function 0 -
arg 2 -
local 2
expr 0: 2 FunctionArgument 0
expr 1: 9 LocalVariable 0
expr 2: 2 Load 1
expr 3: 0 AccessIndex 2 1
block
stmt Store 1 0
stmt Emit 2 3
stmt Return 3
request 0 all
";

const CASE_J: &str = "
global 0
fn function - -
arg 0 -
arg 0 -
arg 0 -
expr 0: 7 GlobalVariable 0
expr 1: 0 FunctionArgument 0
expr 2: 0 FunctionArgument 1
expr 3: 0 FunctionArgument 2
block
stmt 0: Return -
block
block
stmt 1: Store 0 1
stmt 2: If 2 0 1
stmt 3: Store 0 3
request 0 none 0=all
";

#[test]
fn cases_a_and_j() {
    let own = |text: &str| {
        let asked = asked(&format!("{TYPES}{text}"));
        let report = library::with_stack(|| asked.of_walk()).unwrap().expect("accepted");
        asked.judge(&report)
    };
    assert_eq!(own(CASE_A).verdict, Verdict::Clear);
    assert_eq!(own(CASE_J).verdict, Verdict::Statement(1));
    check(
        CASE_A,
        &[
            ("1 11 1", "arg 0 {1:all}", "clear"),
            ("1 11 0", "arg 0 all", "clear"),
            ("1 11 1", "arg 0 {0:all}", "start"),
            ("1 11 1", "arg 0 {1:exist}", "start"),
            ("0 11 1", "arg 0 all", "stmt 0"),
            ("1 01 1", "arg 0 all", "stmt 1"),
            ("0 10 1", "arg 0 all", "stmt 0"),
            ("1 11", "arg 0 all", "refused 21"),
            ("1 12 1", "arg 0 all", "refused 21"),
        ],
    );
    check(CASE_J, &[("1 1 1 1", "arg 0 all; arg 1 all; arg 2 all", "clear"), ("0 1 1 1", "arg 0 all; arg 1 all; arg 2 all", "clear")]);
    check(CASE_J, &[("1 1 0 1", "arg 0 all; arg 1 all; arg 2 all", "stmt 2"), ("1 1 1 1", "arg 0 all; arg 2 all", "start")]);
}

/// A report from anyone, and what is missing in it, in the listing's words.
#[test]
fn reports_in_words() {
    let file = assemble(&format!("{TYPES}{CASE_A}")).unwrap().bytes;
    let clear = "required yes\nretval all\narg 0 {1:all}\nlocal 0 exist\nexpr 3 all\nstmt 0 store yes\nstmt 1 emit yes yes\n\
                 stmt 2 return yes\ncheck clear\n";
    assert_eq!(show::given(&file, clear), Ok("check clear\n".into()));
    let missing = "check stmt 0\nstmt 0: Store 1 0\n  it stores to local 0, which is needed after it, and is not marked\n\
                   stmt 1: Emit 2 3\nexpr 3: 0 AccessIndex 2 1\n  it is needed after the emit, and not marked\n\
                   arg 0 {1:all} is needed at the start, and the context has {0:all}\n";
    assert_eq!(show::given(&file, "arg 0 {0:all}\nstmt 1 emit yes no\n"), Ok(missing.into()));
    // another request than the file's
    assert_eq!(show::given(&file, "request 0 exist\n"), Ok("check clear\n".into()));
    assert!(show::given(&file, "request 1 all\n").is_err_and(|e| e.contains("refused 11")));
    assert!(show::given(&file, "arg 1 all\n").is_err());
    assert!(show::given(&file, "arg 0 all\nstmt 0 store\n").is_err_and(|e| e.starts_with("line 2")));
    let kill = assemble(&format!("{TYPES}{CASE_A}").replace("stmt Return 3", "stmt Kill")).unwrap().bytes;
    let words = "check unjudged stmt 2\nstmt 2: Kill\n  statements of this kind are not judged\n";
    assert_eq!(show::given(&kill, ""), Ok(words.into()));
}

/// Case A lists no pointer's type: a path has the type of what it leads to ("variable .. as declared") or, as in naga, a pointer to that.
#[test]
fn paths_as_declared() {
    let plain = CASE_A.replace("expr 1: 9 LocalVariable", "expr 1: 2 LocalVariable");
    let verdicts: Verdicts = &[("1 11 1", "arg 0 {1:all}", "clear"), ("0 11 1", "arg 0 all", "stmt 0"), ("1 11 1", "", "start")];
    check(CASE_A, verdicts);
    check(&plain, verdicts);
    // an emit of a path changes nothing, whatever its type; a path is no value
    let path = |last: &str, used: &str| {
        format!(
            "\nglobal 3\nfn function 0 -\narg 0 -\nexpr 3 GlobalVariable 0\nexpr 8 AccessIndex 0 0\nexpr 0 AccessIndex 1 1\n\
             expr 0 {last}\nblock\nstmt Emit 0 3\nstmt Return {used}\nrequest 0 all\n"
        )
    };
    check(&path("Load 2", "3"), &[("0001 1", "global 0 {0:{1:all}}", "clear"), ("0001 1", "global 0 {0:{0:all}}", "start")]);
    check(&path("Load 2", "2"), &[("all", "global 0 all", "unjudged stmt 1")]);
    check(&path("Unary 2", "3"), &[("all", "global 0 all", "unjudged expr 3")]);
    check(&path("FunctionArgument 0", "3"), &[("0000 1", "arg 0 all", "clear")]);
}

/// A store of argument 0 to a part of global 0, which is asked.
fn stored(global: usize, value: usize, path: &[(usize, usize)], request: &str) -> String {
    let mut text = format!("\nglobal {global}\nfn function - -\narg {value} -\nexpr {} GlobalVariable 0\n", global + 7);
    for (n, (kind, index)) in path.iter().enumerate() {
        text += &format!("expr {} AccessIndex {n} {index}\n", kind + 7);
    }
    let (pointer, value_at) = (path.len(), path.len() + 1);
    text + &format!("expr {value} FunctionArgument 0\nblock\nstmt Store {pointer} {value_at}\nrequest 0 none 0={request}\n")
}

/// What is taken out of a need, by type (readings 28, 29, 42).
#[test]
fn taking_out() {
    let component = |request: &str| stored(1, 0, &[(0, 0)], request);
    check(&component("all"), &[("1", "arg 0 all; global 0 {1:all}", "clear"), ("1", "arg 0 all; global 0 {0:all}", "start")]);
    check(&component("all"), &[("0", "arg 0 all; global 0 all", "stmt 0"), ("1", "global 0 all", "start")]);
    check(&component("{0:all}"), &[("1", "arg 0 all", "clear"), ("0", "arg 0 all", "stmt 0")]);
    check(&component("{1:all}"), &[("0", "global 0 {1:all}", "clear"), ("1", "global 0 {1:all}", "clear")]);
    check(&component("{0:exist,5:all}"), &[("0", "", "clear")]);
    check(&component("exist"), &[("0", "", "clear")]);
    let column = stored(6, 1, &[(1, 0)], "all");
    check(&column, &[("1", "arg 0 all; global 0 {1:all}", "clear"), ("1", "arg 0 all; global 0 {1:{0:all,1:all}}", "start")]);
    let number = stored(6, 0, &[(1, 0), (0, 1)], "all");
    check(&number, &[("1", "arg 0 all; global 0 {0:{0:all},1:all}", "clear"), ("1", "arg 0 all; global 0 {1:all}", "start")]);
    let element = stored(4, 0, &[(0, 1)], "all");
    check(&element, &[("1", "arg 0 all; global 0 all", "clear"), ("1", "arg 0 all; global 0 {0:all,2:all,3:all}", "start")]);
    let listed = stored(4, 0, &[(0, 1)], "{1:all,2:all}");
    check(&listed, &[("1", "arg 0 all; global 0 {1:all,2:all}", "clear"), ("1", "arg 0 all; global 0 {2:all}", "start")]);
    let around = stored(5, 0, &[(4, 0), (0, 1)], "all");
    check(&around, &[("1", "arg 0 all; global 0 {0:all,1:all}", "clear"), ("1", "arg 0 all; global 0 {0:all}", "start")]);
    let covered = stored(5, 4, &[(4, 0)], "all");
    check(&covered, &[("1", "arg 0 all; global 0 {1:all}", "clear"), ("1", "arg 0 {0:all}; global 0 {1:all}", "start")]);
    let part = stored(5, 4, &[(4, 0)], "{0:{2:all}}");
    check(&part, &[("1", "arg 0 {2:all}", "clear"), ("1", "arg 0 {1:all}", "start")]);
    check(&stored(3, 3, &[], "{1:all}"), &[("1", "arg 0 {1:all}", "clear"), ("0", "arg 0 all", "stmt 0")]);
}

/// A need is not normalised (reading 28).
#[test]
fn needs_are_as_they_are_asked() {
    let nothing = |request: &str| format!("\nglobal 1\nfn function - -\nblock\nrequest 0 none 0={request}\n");
    check(&nothing("all"), &[("", "global 0 all", "clear"), ("", "global 0 {0:all,1:all}", "start"), ("", "", "start")]);
    check(&nothing("{0:all,1:all}"), &[("", "global 0 {0:all,1:all}", "clear"), ("", "global 0 {0:all}", "start")]);
    check(&nothing("{}"), &[("", "", "clear")]);
    check(&nothing("{2:all}"), &[("", "", "clear")]);
}

/// A dynamic index: the overlap is that of the constant indexes before it (reading 31).
#[test]
fn dynamic_stores() {
    let text = |request: &str| {
        format!(
            "\nglobal 5\nfn function - -\narg 0 -\narg 0 -\nexpr 12 GlobalVariable 0\nexpr 11 AccessIndex 0 0\nexpr 0 FunctionArgument 0\n\
             expr 7 Access 1 2\nexpr 0 FunctionArgument 1\nblock\nstmt Store 3 4\nrequest 0 none 0={request}\n"
        )
    };
    check(&text("{1:all}"), &[("0", "global 0 {1:all}", "clear"), ("1", "global 0 {1:all}", "clear")]);
    check(
        &text("{0:{3:all}}"),
        &[("1", "arg 0 all; arg 1 all; global 0 {0:{3:all}}", "clear"), ("0", "arg 0 all; arg 1 all; global 0 all", "stmt 0")],
    );
    check(
        &text("all"),
        &[("1", "arg 0 all; arg 1 all; global 0 all", "clear"), ("1", "arg 0 all; arg 1 all; global 0 {0:all,1:all}", "start")],
    );
    check(&text("all"), &[("1", "arg 0 all; global 0 all", "start"), ("1", "arg 1 all; global 0 all", "start")]);
}

/// A value of arguments 0, 1 (vectors) and 2 (a scalar), which are expressions 0 to 2; 3 is the value returned.
fn returned(kind: usize, value: &str, request: &str) -> String {
    format!(
        "\nfn function {kind} -\narg 1 -\narg 1 -\narg 0 -\narg 6 -\narg 4 -\nexpr 1 FunctionArgument 0\nexpr 1 FunctionArgument 1\n\
         expr 0 FunctionArgument 2\nexpr 6 FunctionArgument 3\nexpr 4 FunctionArgument 4\nexpr {kind} {value}\nblock\nstmt Emit 0 5\n\
         stmt Return 5\nrequest 0 {request}\n"
    )
}

/// How a need moves to the operands. The arguments' own marks play no part.
#[test]
fn operators() {
    let check = |kind, value, request, exact: &str, less: &str| {
        let asked = asked(&format!("{TYPES}{}", returned(kind, value, request)));
        assert_eq!(verdict(&asked, "000001 0", exact), "clear", "{value}");
        assert_eq!(verdict(&asked, "111110 1", exact), "stmt 0", "{value}");
        assert_eq!(verdict(&asked, "all", less), "start", "{value}");
    };
    check(0, "AccessIndex 0 1", "all", "arg 0 {1:all}", "arg 0 {0:all}");
    check(0, "Access 0 2", "all", "arg 0 all; arg 2 all", "arg 0 {0:all,1:all}; arg 2 all");
    check(0, "Access 4 2", "all", "arg 4 all; arg 2 all", "arg 4 all");
    check(2, "Swizzle 0 .yyy", "all", "arg 0 {1:all}", "arg 0 {0:all}");
    check(1, "Swizzle 0 .yx", "{0:all}", "arg 0 {1:all}", "arg 0 {0:all}");
    check(1, "Compose [2 2]", "{0:all}", "arg 2 all", "arg 0 all");
    check(2, "Compose [0 2]", "{0:all}", "arg 0 all; arg 2 all", "arg 0 all");
    check(2, "Compose [2 0]", "{0:all}", "arg 0 all; arg 2 all", "arg 0 {0:all,1:all}; arg 2 all");
    check(6, "Compose [0 1]", "{0:{1:all}}", "arg 0 {1:all}", "arg 0 {0:all}; arg 1 all");
    check(3, "Compose [0 2]", "{0:{1:all}}", "arg 0 {1:all}", "arg 0 {0:all}; arg 1 all");
    check(4, "Compose [2 2 2 2]", "{3:all}", "arg 2 all", "arg 0 all");
    check(1, "Unary 0", "{1:all}", "arg 0 {1:all}", "arg 0 {0:all}");
    check(6, "As 3", "{1:{0:all}}", "arg 3 {1:{0:all}}", "arg 3 {1:{1:all}}");
    check(1, "Select 2 0 1", "{1:all}", "arg 0 {1:all}; arg 1 {1:all}; arg 2 all", "arg 0 all; arg 1 all");
    check(1, "Binary 0 1", "{1:all}", "arg 0 {1:all}; arg 1 {1:all}", "arg 0 all; arg 1 {0:all}");
    check(1, "Binary 0 2", "{1:all}", "arg 0 all; arg 2 all", "arg 0 {0:all,1:all}; arg 2 all");
    check(6, "Binary 3 3", "{1:all}", "arg 3 all", "arg 3 {0:all,1:all}");
    check(1, "Splat 2", "{1:all}", "arg 2 all", "arg 0 all");
    check(0, "Relational 0", "all", "arg 0 all", "arg 0 {0:all,1:all}");
    check(1, "Math 0 - 2 -", "{0:all}", "arg 0 all; arg 2 all", "arg 0 {0:all}; arg 2 all");
}

/// Late use of a load, an expression that no emit gives, and what needs no emit (reading 30).
#[test]
fn emits() {
    let body = |statements: &str| {
        format!(
            "\nfn function 0 -\narg 0 -\narg 0 -\nlocal 0\nexpr 0 FunctionArgument 0\nexpr 0 FunctionArgument 1\nexpr 7 LocalVariable 0\n\
             expr 0 Load 2\nexpr 0 Literal\nblock\n{statements}request 0 all\n"
        )
    };
    let late = body("stmt Store 2 0\nstmt Emit 3 3\nstmt Store 2 1\nstmt Return 3\n");
    check(&late, &[("1 1 0 0", "arg 0 all", "clear"), ("0 1 1 1", "arg 1 all", "stmt 0"), ("1 1 1 1", "arg 1 all", "start")]);
    check(&body("stmt Return 3\n"), &[("1", "arg 0 all; arg 1 all", "start")]);
    check(&body("stmt Return 3\nstmt Emit 3 3\n"), &[("1 1", "arg 0 all", "start")]);
    check(&body("stmt Return 4\n"), &[("0", "", "clear")]);
    check(&body("stmt Return 0\n"), &[("0", "arg 0 all", "clear"), ("0", "", "start")]);
    check(&body("stmt Return -\n"), &[("0", "", "clear")]);
    check(&body("stmt Return -\nstmt Emit 3 3\nstmt Return 3\n"), &[("0 1 0", "", "clear"), ("0 0 0", "", "stmt 1")]);
    let asked = asked(&format!("{TYPES}{late}"));
    let own = library::with_stack(|| asked.of_walk()).unwrap().expect("accepted");
    assert_eq!(asked.judge(&own).verdict, Verdict::Statement(0), "the original takes a load for one at its use");
}

/// Expressions 0 and 1 are arguments, 2 and 3 globals 0 and 1, 4 a local, 5 to 7 loads of 2, 3 and 4; all scalars. Global 0 is asked.
fn flow(blocks: &str) -> String {
    format!(
        "\nglobal 0\nglobal 0\nfn function - -\narg 0 -\narg 0 -\nlocal 0\nexpr 0 FunctionArgument 0\nexpr 0 FunctionArgument 1\n\
         expr 7 GlobalVariable 0\nexpr 7 GlobalVariable 1\nexpr 7 LocalVariable 0\nexpr 0 Load 2\nexpr 0 Load 3\nexpr 0 Load 4\n{blocks}\
         request 0 none 0=all\n"
    )
}

/// Marked: the union over branches and the condition. Unmarked: nothing needed is changed, given or left (reading 35).
#[test]
fn branches() {
    let set = flow("block\nstmt 0: Store 2 0\nblock\nblock\nstmt 1: If 1 0 1\n");
    check(&set, &[("1 1", "arg 0 all; arg 1 all; global 0 all", "clear"), ("1 1", "arg 0 all; global 0 all", "start")]);
    check(&set, &[("1 1", "arg 0 all; arg 1 all", "start"), ("1 0", "arg 0 all; arg 1 all; global 0 all", "stmt 1")]);
    check(&set, &[("0 0", "arg 0 all; arg 1 all; global 0 all", "stmt 0")]);
    let both = flow("block\nstmt 0: Store 2 0\nblock\nstmt 1: Store 2 1\nblock\nstmt 2: If 1 0 1\n");
    check(&both, &[("1 1 1", "arg 0 all; arg 1 all", "clear"), ("1 1 0", "arg 0 all; arg 1 all", "stmt 2")]);
    let other = flow("block\nstmt 0: Store 3 0\nblock\nblock\nstmt 1: If 1 0 1\n");
    check(&other, &[("0 0", "global 0 all", "clear"), ("1 0", "global 0 all", "clear"), ("0 1", "global 0 all", "start")]);
    // inside an if that needs may pass nothing is walked: local 0 is set and loaded there, both unmarked
    let hidden = flow("block\nstmt 0: Store 4 0\nstmt 1: Emit 7 7\nstmt 2: Store 3 7\nblock\nblock\nstmt 3: If 1 0 1\n");
    check(&hidden, &[("0 0 0 0", "global 0 all", "clear"), ("0 0 0 1", "arg 1 all; global 0 all", "clear")]);
    // an emit inside gives what is needed after it
    let given = flow("block\nstmt 0: Emit 6 6\nblock\nblock\nstmt 1: If 1 0 1\nstmt 2: Store 2 6\n");
    check(&given, &[("1 0 1", "arg 1 all; global 1 all", "stmt 1"), ("1 1 1", "arg 1 all; global 1 all", "start")]);
    // deeper inside, in a block, a switch and a loop
    let deep = flow(
        "block\nstmt 0: Store 2 0\nblock\nstmt 1: Block 0\nblock\nblock\nstmt 2: Switch 1 [3:1 default:2]\nstmt 3: Break\nblock\n\
         block\nstmt 4: Loop 3 4 -\n",
    );
    check(
        &deep,
        &[("1 1 1 1", "arg 0 all; arg 1 all; global 0 all", "clear"), ("1 1 1 0", "arg 0 all; arg 1 all; global 0 all", "stmt 4")],
    );
    check(&deep, &[("1 0 1 1", "arg 0 all; arg 1 all; global 0 all", "stmt 2"), ("1 1 1 1", "arg 0 all; global 0 all", "start")]);
}

#[test]
fn switches() {
    let set = flow("block\nstmt 0: Store 2 0\nstmt 1: Break\nstmt 2: Store 2 1\nblock\nblock\nstmt 3: Switch 1 [7:0 default:1]\n");
    check(&set, &[("1 1 1 1", "arg 0 all; arg 1 all; global 0 all", "clear"), ("1 1 1 0", "arg 0 all; arg 1 all; global 0 all", "stmt 3")]);
    check(&set, &[("1 0 1 1", "arg 0 all; arg 1 all; global 0 all", "clear"), ("1 1 0 1", "arg 0 all; arg 1 all; global 0 all", "stmt 2")]);
    // a break that stays inside, and one that leaves an if inside the switch
    let stays = flow("block\nstmt 0: Break\nblock\nblock\nstmt 1: Switch 1 [7:0 default:1]\n");
    check(&stays, &[("0 0", "global 0 all", "clear"), ("1 1", "global 0 all", "start")]);
    let leaves =
        flow("block\nstmt 0: Break\nblock\nblock\nstmt 1: If 0 0 1\nstmt 2: Store 2 0\nblock\nblock\nstmt 3: Switch 1 [7:2 default:3]\n");
    check(
        &leaves,
        &[("0 0 1 1", "arg 0 all; arg 1 all; global 0 all", "stmt 1"), ("0 1 1 1", "arg 0 all; arg 1 all; global 0 all", "clear")],
    );
}

/// A continue leaves an unmarked switch, or an if, inside its loop; it does not leave an unmarked loop of its own there.
#[test]
fn continues() {
    let around = |inner: &str, number: usize| {
        flow(&format!("block\nstmt 0: Continue\nblock\nblock\n{inner}block\nblock\nstmt {}: Loop {} {} 1\n", number, number, number + 1))
    };
    let switch = around("stmt 1: Switch 0 [7:0 default:1]\n", 2);
    check(&switch, &[("0 0 1", "arg 1 all; global 0 all", "stmt 1"), ("0 1 1", "arg 0 all; arg 1 all; global 0 all", "clear")]);
    check(&switch, &[("0 0 0", "global 0 all", "clear")]);
    let branch = around("stmt 1: If 0 0 1\n", 2);
    check(&branch, &[("0 0 1", "arg 1 all; global 0 all", "stmt 1"), ("0 1 1", "arg 0 all; arg 1 all; global 0 all", "clear")]);
    let own = around("stmt 1: Loop 0 1 0\n", 2);
    check(&own, &[("0 0 1", "arg 1 all; global 0 all", "clear"), ("0 1 1", "arg 1 all; global 0 all", "start")]);
}

/// Break takes what stands after the loop, Continue what stands before continuing (reading 33).
#[test]
fn loops() {
    // local 0 goes to global 0, argument 0 to the local: what is needed before the body comes from the turn before
    let turns = "block\nstmt 0: Emit 7 7\nstmt 1: Store 2 7\nblock\nstmt 2: Store 4 0\nblock\nstmt 3: Loop 0 1 1\n";
    check(&flow(turns), &[("1 1 1 1", "arg 0 all; arg 1 all", "clear"), ("1 1 0 1", "arg 0 all; arg 1 all", "stmt 2")]);
    check(&flow(turns), &[("1 1 1 1", "arg 0 all", "start"), ("1 1 1 0", "arg 0 all; arg 1 all; global 0 all", "stmt 3")]);
    // without break_if nothing ends it: the exit's needs stand nowhere
    check(&flow(&turns.replace("Loop 0 1 1", "Loop 0 1 -")), &[("0 0 0 1", "", "clear"), ("0 0 0 0", "global 0 all", "stmt 3")]);
    // a break before the store, and one after it
    let before = flow("block\nstmt 0: Break\nstmt 1: Store 2 0\nblock\nblock\nstmt 2: Loop 0 1 -\n");
    check(&before, &[("0 1 1", "global 0 all", "clear"), ("0 0 1", "global 0 all", "stmt 1"), ("1 1 0", "global 0 all", "stmt 2")]);
    let after = flow("block\nstmt 0: Store 2 0\nstmt 1: Break\nblock\nblock\nstmt 2: Loop 0 1 -\n");
    check(&after, &[("1 0 1", "arg 0 all", "clear"), ("0 0 1", "arg 0 all", "stmt 0")]);
    // continue passes the store in the body, not the one in continuing
    let goes_on = flow("block\nstmt 0: Continue\nstmt 1: Store 2 1\nblock\nstmt 2: Store 2 0\nblock\nstmt 3: Loop 0 1 0\n");
    check(&goes_on, &[("0 0 1 1", "arg 0 all", "clear"), ("0 1 0 1", "arg 0 all", "stmt 2")]);
    // unmarked: breaks and continues of its own stay inside, a return leaves
    let own = flow("block\nstmt 0: Break\nblock\nstmt 1: Continue\nblock\nstmt 2: If 0 0 1\nblock\nblock\nstmt 3: Loop 2 3 1\n");
    check(&own, &[("0 0 0 0", "global 0 all", "clear"), ("0 0 0 1", "arg 1 all; global 0 all", "stmt 2")]);
    let leaves = flow("block\nstmt 0: Return -\nblock\nblock\nstmt 1: Loop 0 1 1\n");
    check(&leaves, &[("1 0", "global 0 all; arg 1 all", "stmt 1"), ("0 1", "global 0 all", "clear")]);
    // what a loop needs is found over several rounds: global 1 to the local, the local to global 0
    let chain = "block\nstmt 0: Emit 7 7\nstmt 1: Store 2 7\nstmt 2: Emit 6 6\nstmt 3: Store 4 6\nstmt 4: Store 3 0\nblock\nblock\nstmt 5: Loop 0 1 1\n";
    check(
        &flow(chain),
        &[("1 1 1 1 1 1", "arg 0 all; arg 1 all; global 1 all", "clear"), ("1 1 1 1 0 1", "arg 0 all; arg 1 all; global 1 all", "stmt 4")],
    );
    check(
        &flow(chain),
        &[("1 1 0 1 1 1", "arg 0 all; arg 1 all; global 1 all", "stmt 2"), ("1 1 1 1 1 1", "arg 1 all; global 1 all", "start")],
    );
}

/// Case I's loop settles here.
#[test]
fn case_i_ends() {
    let text =
        "\nfn function 0 -\narg 0 -\nlocal 0\nlocal 0\nlocal 0\nexpr 7 LocalVariable 0\nexpr 7 LocalVariable 1\nexpr 7 LocalVariable 2\n\
                expr 0 Load 1\nexpr 0 Load 2\nexpr 0 Load 0\nexpr 0 FunctionArgument 0\nblock\nstmt 0: Emit 3 3\nstmt 1: Store 0 3\n\
                stmt 2: Emit 4 4\nstmt 3: Store 1 4\nblock\nblock\nstmt 4: Loop 0 1 6\nstmt 5: Emit 5 5\nstmt 6: Return 5\nrequest 0 all\n";
    check(text, &[("all", "arg 0 all", "clear"), ("all", "", "start"), ("1 1 1 0 1 1 1", "arg 0 all", "stmt 3")]);
}

/// Dead code is walked (reading 36); a return resets the needs (34).
#[test]
fn dead_code() {
    let dead = flow("block\nstmt 0: Return -\nstmt 1: Store 2 0\n");
    check(&dead, &[("0 1", "global 0 all", "clear"), ("0 0", "global 0 all", "stmt 1")]);
    let early = flow("block\nstmt 0: Return -\nblock\nblock\nstmt 1: If 1 0 1\nstmt 2: Store 2 0\n");
    check(&early, &[("0 1 1", "arg 0 all; arg 1 all; global 0 all", "clear"), ("1 0 1", "arg 0 all; arg 1 all; global 0 all", "stmt 1")]);
    check(&early, &[("0 1 1", "arg 0 all; arg 1 all", "start")]);
}

/// A function of a scalar argument, a vector argument, a scalar local and these expressions after theirs (3 of them), none of them used.
fn judged(expressions: &str, statements: &str, wanted: &str) {
    let text = format!(
        "{TYPES}type 14: Array 0 0\ntype 15: Pointer 14\ntype 16: BindingArray 0\ntype 17: Struct [0:- 14:-]\ntype 18: Pointer 7\n\
         type 19: Pointer 17\ntype 20: Struct [0:- 0:-]\ntype 21: Struct [15:-]\ntype 22: Array 15 2\nglobal 14\nglobal 7\nglobal 17\nfn function 0 -\narg 0 -\narg 1 -\narg 7 -\n\
         arg 20 -\nlocal 0\nexpr 0: 0 FunctionArgument 0\nexpr 1: 1 FunctionArgument 1\nexpr 2: 7 LocalVariable 0\n{expressions}\
         {statements}request 0 all\n"
    );
    let asked = asked(&text);
    let marks = vec![1; asked.outline.marks()];
    let given = asked.judge(&Report { marks, context: context("arg 0 all; arg 1 all; arg 3 all") }).verdict.to_string();
    assert_eq!(given, wanted, "{expressions}{statements}");
}

/// Kinds and shapes of expressions, used or not (readings 32, 36, 40, 41), each after a neighbour that is judged.
#[test]
fn judged_expressions() {
    let one = |expression: &str, judged_: bool| {
        judged(&format!("expr {expression}\n"), "block\n", if judged_ { "clear" } else { "unjudged expr 3" });
    };
    let right = |list: &[&str]| list.iter().for_each(|e| one(e, true));
    let wrong = |list: &[&str]| list.iter().for_each(|e| one(e, false));
    right(&["0 Literal", "6 ZeroValue", "4 Constant", "0 FunctionArgument 0", "7 LocalVariable 0", "20 FunctionArgument 3"]);
    wrong(&["7 Literal", "1 FunctionArgument 0", "7 FunctionArgument 2", "1 LocalVariable 0", "8 LocalVariable 0"]);
    wrong(&["0 WorkGroupUniformLoadResult", "0 Derivative 0", "0 CallResult", "0 Override", "0 ArrayLength 2"]);
    wrong(&["14 ZeroValue", "16 ZeroValue", "17 ZeroValue", "15 GlobalVariable 0", "19 GlobalVariable 2", "18 GlobalVariable 1"]);
    right(&["0 AccessIndex 1 1", "0 Access 1 0", "0 Access 1 1"]);
    wrong(&["0 AccessIndex 1 2", "1 AccessIndex 1 0", "0 AccessIndex 0 0", "0 Access 0 0", "0 Access 1 2", "7 AccessIndex 1 0"]);
    right(&["1 Splat 0", "2 Splat 0", "0 Load 2", "1 Unary 1", "0 As 0", "1 Select 0 1 1", "1 Select 1 1 1"]);
    wrong(&["0 Splat 0", "1 Splat 1", "6 Splat 0", "1 Load 2", "0 Load 0", "0 Unary 1", "1 As 0", "1 Select 0 0 1", "1 Select 2 1 1"]);
    right(&["2 Swizzle 1 .yxx", "1 Swizzle 1 .yy"]);
    wrong(&["2 Swizzle 1 .xy", "1 Swizzle 1 .xz", "1 Swizzle 0 .xx", "0 Swizzle 1 .xx"]);
    right(&["1 Compose [0 0]", "1 Compose [1]", "2 Compose [1 0]", "2 Compose [0 1]", "6 Compose [1 1]", "4 Compose [0 0 0 0]"]);
    right(&["3 Compose [1 0]", "20 Compose [0 0]"]);
    wrong(&["1 Compose [0]", "1 Compose [1 0]", "6 Compose [0 0 0 0]", "6 Compose [1]", "4 Compose [0 0 0]", "3 Compose [0 1]"]);
    wrong(&["0 Compose [0]", "1 Compose [0 2]", "20 Compose [0]", "1 Compose []"]);
    right(&["1 Binary 0 1", "6 Binary 0 0", "0 Relational 1", "3 Math 0 1 - 0"]);
    wrong(&["1 Binary 0 2", "0 Binary 2 0", "0 Relational 2", "0 Math 0 - 2 -"]);
    // a struct that has a pointer to an array of count 0 does not hold that array: 01 names the pointee apart, of an expression's own type
    judged("expr 21 ZeroValue\nexpr 22 ZeroValue\n", "block\n", "clear");
    // a struct has no dynamic index; the lowest expression is named
    judged("expr 20 FunctionArgument 3\nexpr 0 Access 3 0\n", "block\n", "unjudged expr 4");
    judged("expr 20 FunctionArgument 3\nexpr 0 AccessIndex 3 1\n", "block\n", "clear");
    judged("expr 0 Load 0\nexpr 0 Derivative 0\n", "block\nstmt Break\n", "unjudged expr 3");
}

#[test]
fn judged_statements() {
    let one = |statements: &str, wanted: &str| judged("expr 0 Load 2\n", statements, wanted);
    one("block\nstmt Kill\n", "unjudged stmt 0");
    one("block\nstmt Store 2 0\nstmt ControlBarrier\n", "unjudged stmt 1");
    one("block\nstmt Store 2 0\n", "clear");
    one("block\nstmt Store 2 1\n", "unjudged stmt 0");
    one("block\nstmt Store 0 0\n", "unjudged stmt 0");
    one("block\nstmt Store 2 2\n", "unjudged stmt 0");
    one("block\nstmt Return 0\n", "clear");
    one("block\nstmt Return -\n", "clear");
    one("block\nstmt Return 1\n", "unjudged stmt 0");
    one("block\nstmt Return 2\n", "unjudged stmt 0");
    // what is no scalar may be a condition or a selector; a pointer may not
    one("block\nblock\nblock\nstmt If 1 0 1\n", "clear");
    one("block\nblock\nblock\nstmt If 2 0 1\n", "unjudged stmt 0");
    one("block\nblock\nstmt Switch 1 [default:0]\n", "clear");
    one("block\nblock\nstmt Switch 2 [default:0]\n", "unjudged stmt 0");
    one("block\nblock\nblock\nstmt Loop 0 1 1\n", "clear");
    one("block\nblock\nblock\nstmt Loop 0 1 2\n", "unjudged stmt 0");
    // targets, and what leaves a continuing block
    one("block\nstmt Break\n", "unjudged stmt 0");
    one("block\nstmt Continue\nblock\nstmt Switch 0 [default:0]\n", "unjudged stmt 0");
    one("block\nstmt Break\nblock\nstmt Switch 0 [default:0]\n", "clear");
    one("block\nstmt Continue\nblock\nblock\nstmt Loop 0 1 -\n", "clear");
    for leaving in ["Break", "Continue", "Return -"] {
        one(&format!("block\nblock\nstmt {leaving}\nblock\nstmt Loop 0 1 -\n"), "unjudged stmt 0");
        one(&format!("block\nblock\nstmt {leaving}\nblock\nstmt Block 1\nblock\nstmt Loop 0 2 -\n"), "unjudged stmt 0");
    }
    one("block\nblock\nstmt Break\nblock\nstmt Switch 0 [default:1]\nblock\nstmt Loop 0 2 -\n", "clear");
    one("block\nblock\nstmt Continue\nblock\nstmt Switch 0 [default:1]\nblock\nstmt Loop 0 2 -\n", "unjudged stmt 0");
    one("block\nblock\nstmt Continue\nblock\nblock\nstmt Loop 1 2 -\nblock\nstmt Loop 0 3 -\n", "clear");
    // dead code counts
    one("block\nstmt Return -\nstmt Kill\n", "unjudged stmt 1");
}

/// The sum of the first elements of argument 0, an array of 20.
fn sum(count: usize) -> String {
    let reads: String = (0..count).map(|i| format!("expr 0 AccessIndex 0 {i}\n")).collect();
    let sum = |i: usize| if i == 1 { 1 } else { count + i - 1 };
    let sums: String = (1..count).map(|i| format!("expr 0 Binary {} {}\n", sum(i), i + 1)).collect();
    let last = 2 * count - 1;
    format!(
        "\ntype 14: Array 0 20\nfn function 0 -\narg 14 -\nexpr 14 FunctionArgument 0\n{reads}{sums}block\nstmt Emit 1 {last}\n\
         stmt Return {last}\nrequest 0 all\n"
    )
}

/// An element of an element and so on of argument 0.
fn nested(depth: usize) -> String {
    let types: String = (0..depth).map(|n| format!("type {}: Array {} 2\n", 14 + n, if n == 0 { 0 } else { 13 + n })).collect();
    let steps: String =
        (0..depth).map(|n| format!("expr {} AccessIndex {n} 1\n", if n + 1 == depth { 0 } else { 12 + depth - n })).collect();
    let outer = 13 + depth;
    format!(
        "\n{types}fn function 0 -\narg {outer} -\nexpr {outer} FunctionArgument 0\n{steps}block\nstmt Emit 1 {depth}\nstmt Return {depth}\n\
         request 0 all\n"
    )
}

/// Globals asked with 273 pieces each, and some with one.
fn pieces(large: usize, small: usize) -> String {
    let part = |inner: &str| format!("{{{}}}", (0..16).map(|i| format!("{i}:{inner}")).collect::<Vec<_>>().join(","));
    let part = part(&part("all"));
    let globals: String = (0..large + small).map(|g| format!("global {}\n", if g < large { 15 } else { 0 })).collect();
    let asked: String = (0..large + small).map(|g| format!(" {g}={}", if g < large { &part } else { "all" })).collect();
    format!("\ntype 14: Array 0 16\ntype 15: Array 14 16\n{globals}fn function - -\nblock\nstmt Return -\nrequest 0 none{asked}\n")
}

/// 15 and 16, each with its neighbour (reading 38); 15 comes first, and both before what the rules say.
#[test]
fn limits() {
    check(&sum(16), &[("all", "arg 0 all", "clear")]);
    check(&sum(17), &[("all", "arg 0 all", "refused 15")]);
    check(&nested(8), &[("all", "arg 0 all", "clear"), ("00000000 1", "arg 0 all", "stmt 0")]);
    check(&nested(9), &[("all", "arg 0 all", "refused 15"), ("000000000 1", "", "refused 15")]);
    check(&pieces(30, 2), &[("0", "", "start")]);
    check(&pieces(30, 3), &[("0", "", "refused 16"), ("2", "", "refused 21")]);
    // the end, where the asked globals stand, is a point of a body without a statement too
    let empty = |small: usize| pieces(30, small).replace("stmt Return -\n", "");
    check(&empty(2), &[("", "", "start")]);
    check(&empty(3), &[("", "", "refused 16")]);
}

/// 17 entries in the first round that become all in the next: no point of the last round passes a limit (reading 38).
#[test]
fn working_rounds_are_no_points() {
    let loads: String = (0..17).map(|i| format!("expr 7 AccessIndex 0 {i}\nexpr 0 Load {}\n", 5 + 2 * i)).collect();
    let math: String = (0..17).map(|i| format!("expr 0 Binary {} {}\n", 6 + 2 * i, if i == 0 { 6 } else { 38 + i })).collect();
    let text = |copied: &str| {
        format!(
            "\ntype 14: Array 0 20\ntype 15: Pointer 14\nfn function 0 -\narg 0 -\nlocal 14\nlocal 14\nlocal 0\nexpr 15 LocalVariable 0\n\
             expr 15 LocalVariable 1\nexpr 7 LocalVariable 2\nexpr 14 Load 0\nexpr 14 Load 1\n{loads}{math}expr 0 Math 4 55 - -\n\
             expr 0 Load 2\nexpr 0 FunctionArgument 0\nblock\nstmt Emit 4 4\nstmt Emit 5 56\nstmt Store 2 56\n\
             block\nstmt Emit 3 3\n{copied}block\nstmt Loop 0 1 58\nstmt Emit 57 57\nstmt Return 57\nrequest 0 all\n"
        )
    };
    check(&text("stmt Store 1 3\n"), &[("all", "arg 0 all", "clear")]);
    check(&text(""), &[("all", "arg 0 all", "refused 15")]);
}

/// What is asked with bytes: 12, context included, then 11, then 21 (reading 44).
#[test]
fn refusals() {
    let asked = asked(&format!("{TYPES}{CASE_A}"));
    let record = |c: &Context| {
        let mut fields = Vec::new();
        c.write(&mut fields);
        write_long(*b"CX", &fields)
    };
    let ask = |request: &[u8], marks: &[u8], context: &[u8]| answer(&asked.bytes, request, marks, context).to_string();
    let good = record(&context("arg 0 {1:all}"));
    let bad = record(&Context { arguments: vec![(0, Part::All), (0, Part::All)], ..context("") });
    let (nothing, unknown) = (record(&context("arg 1 all")), [b"RQ\x06\0", &[1, 0, 0, 0, 0, 0][..]].concat());
    assert_eq!(ask(&asked.record, &[1; 4], &good), "clear");
    assert_eq!(ask(&asked.record, &[1, 1, 1, 1, 7], &good), "clear");
    assert_eq!(ask(&asked.record, &[1; 3], &good), "refused 21");
    assert_eq!(ask(&asked.record, &[1; 3], &nothing), "refused 11");
    assert_eq!(ask(&unknown, &[1; 3], &good), "refused 11");
    assert_eq!(ask(&unknown, &[1; 3], &bad), "refused 12");
    assert_eq!(ask(&unknown[..6], &[1; 3], &nothing), "refused 12");
    assert_eq!(ask(&asked.record, &[1; 4], &good[..10]), "refused 12");
    assert_eq!(answer(b"TY", &asked.record, &[], &good).to_string(), "refused 2");
}

/// Bytes of other functions' stretches are not looked at.
#[test]
fn marks_of_the_asked_function() {
    let other = "fn function - -\nblock\nstmt Return -\n";
    let text = format!("{TYPES}{other}fn function 0 -\nblock\nstmt Return -\n{other}request 1 all\n");
    let asked = asked(&text);
    assert_eq!(verdict(&asked, "919", ""), "clear");
    assert_eq!(verdict(&asked, "91", ""), "clear");
    assert_eq!(verdict(&asked, "191", ""), "refused 21");
    assert_eq!(verdict(&asked, "1", ""), "refused 21");
}

/// Before an unmarked if that breaks its rule, the union over the branches alone (17 entries) is no point; what is kept is all of it (reading 38).
#[test]
fn the_union_alone_is_no_point() {
    let loads: String = (0..17).map(|i| format!("expr 7 AccessIndex 0 {i}\nexpr 0 Load {}\n", 7 + 2 * i)).collect();
    let list = |from: usize, to: usize| (from..to).map(|i| (8 + 2 * i).to_string()).collect::<Vec<_>>().join(" ");
    let text = format!(
        "\ntype 14: Array 0 20\ntype 15: Pointer 14\ntype 16: Array 0 9\ntype 17: Array 0 8\nfn function 0 -\narg 0 -\narg 14 -\nlocal 14\n\
         local 0\nexpr 15 LocalVariable 0\nexpr 7 LocalVariable 1\nexpr 14 Load 0\nexpr 0 Load 1\nexpr 0 Math 2 3 - -\n\
         expr 0 FunctionArgument 0\nexpr 14 FunctionArgument 1\n{loads}expr 16 Compose [{}]\nexpr 0 Relational 41\nexpr 17 Compose [{}]\n\
         expr 0 Relational 43\nblock\nstmt Emit 7 24\nstmt Emit 41 42\nstmt Store 1 42\nstmt Store 0 6\nblock\nstmt Emit 25 40\n\
         stmt Emit 43 44\nstmt Store 1 44\nstmt Store 0 6\nblock\nstmt 8: If 5 0 1\nstmt Emit 2 4\nstmt Return 4\nrequest 0 all\n",
        list(0, 9),
        list(9, 17)
    );
    let asked = asked(&format!("{TYPES}{text}"));
    let mut marks = "1".repeat(asked.outline.marks());
    assert_eq!(verdict(&asked, &marks, "arg 0 all; arg 1 all"), "refused 15");
    let at = marks.len() - 5;
    marks.replace_range(at..at + 1, "0");
    assert_eq!(verdict(&asked, &marks, "arg 0 all; arg 1 all"), "stmt 8");
}

/// The number that a function returns of these arguments, without its unmarked statements if marks are given.
fn run(function: &str, arguments: &[Vec<u64>], marks: Option<&str>) -> Option<u64> {
    let asked = asked(&format!("{TYPES}{function}"));
    let plan = Plan::of(&asked.module, asked.function());
    let operators = Operators { seed: 1, bound: 1 << 40 };
    let mut memory = fresh(&plan, operators);
    for (numbers, span) in arguments.iter().zip(&plan.layout.arguments) {
        memory[span.clone()].copy_from_slice(numbers);
    }
    let given: Vec<u8> = marks.unwrap_or("").bytes().filter(|b| *b != b' ').map(|b| b - b'0').collect();
    let all = vec![1; asked.outline.marks()];
    let (mode, given) = if marks.is_some() { (Mode::Needed, &given) } else { (Mode::Every, &all) };
    let marks = asked.own(given);
    let ends = Run { plan: &plan, marks: &marks, mode, operators, memory: &mut memory, left: 1000 }.ends();
    ends.then(|| memory[plan.layout.result.start])
}

/// What no operator of its own says: paths, ranges, branches, loops, returns (readings 34, 40).
#[test]
fn runs() {
    let pick = |how: &str| {
        format!(
            "\nfn function 0 -\narg 4 -\narg 0 -\narg 1 -\nlocal 4\nexpr 4 FunctionArgument 0\nexpr 0 FunctionArgument 1\n\
             expr 1 FunctionArgument 2\nexpr 11 LocalVariable 0\n{how}request 0 all\n"
        )
    };
    let arguments = |index: u64, pair: [u64; 2]| [vec![7, 8, 9, 10], vec![index], pair.to_vec()];
    let value = pick("expr 0 Access 0 1\nblock\nstmt Emit 4 4\nstmt Return 4\n");
    assert_eq!(run(&value, &arguments(3, [0, 0]), None), Some(10));
    assert_eq!(run(&value, &arguments(4, [0, 0]), None), Some(0));
    assert_eq!(run(&value, &arguments(3, [0, 0]), Some("0 1")), Some(0));
    assert_eq!(run(&pick("expr 0 Access 0 2\nblock\nstmt Emit 4 4\nstmt Return 4\n"), &arguments(0, [0, 0]), None), Some(0));
    // a store out of range does nothing; the path is followed when it is loaded
    let path = pick(
        "expr 7 Access 3 1\nexpr 7 AccessIndex 3 2\nexpr 0 Load 5\nblock\nstmt Store 3 0\nstmt Store 4 1\nstmt Emit 6 6\nstmt Return 6\n",
    );
    assert_eq!(run(&path, &arguments(2, [0, 0]), None), Some(2));
    assert_eq!(run(&path, &arguments(5, [0, 0]), None), Some(9));
    assert_eq!(run(&path, &arguments(2, [0, 0]), Some("1 0 1 1")), Some(9));
    // conditions and selectors that are no scalars
    let branch = pick("expr 0 Literal\nblock\nstmt Return 1\nblock\nblock\nstmt If 2 0 1\n");
    assert_eq!(run(&branch, &arguments(6, [0, 1]), None), Some(6));
    assert_eq!(run(&branch, &arguments(6, [0, 0]), None), Some(0));
    let switch = |selector: usize| pick(&format!("block\nstmt Return 1\nblock\nblock\nstmt Switch {selector} [6:0 default:1]\n"));
    assert_eq!(run(&switch(1), &arguments(6, [6, 6]), None), Some(6));
    assert_eq!(run(&switch(1), &arguments(5, [6, 6]), None), Some(0));
    assert_eq!(run(&switch(2), &arguments(6, [6, 6]), None), Some(0));
    // a loop ends where break_if is not zero, or never
    let turns = |condition: &str| pick(&format!("block\nblock\nblock\nstmt Loop 0 1 {condition}\nstmt Return 1\n"));
    assert_eq!(run(&turns("2"), &arguments(6, [0, 1]), None), Some(6));
    assert_eq!((run(&turns("2"), &arguments(6, [0, 0]), None), run(&turns("-"), &arguments(6, [0, 1]), None)), (None, None));
    assert_eq!(run(&turns("-"), &arguments(6, [0, 0]), Some("0 1")), Some(6));
}

/// Reports by every author on models of both generators: whatever is cleared holds on pairs of runs.
#[test]
fn cleared_reports_hold() {
    let (models, small) = library::with_stack(|| {
        let (mut models, mut small, mut random) = (Campaign::default(), Campaign::default(), Random::new(1));
        for seed in 0..30 {
            let size = random.between(model::LEAST, 90);
            models.model(&model::generate(size, seed).unwrap(), 3, &mut random).unwrap_or_else(|message| panic!("{message}"));
        }
        for seed in 0..120 {
            let size = random.between(2, 14);
            small.model(&wild::generate(size, seed), 2, &mut random).unwrap_or_else(|message| panic!("{message}"));
        }
        (models, small)
    });
    println!("casting models\n{}wild functions\n{}", models.lines(), small.lines());
    assert!(models.pairs.same > 1000 && small.pairs.same > 4000, "{}{}", models.lines(), small.lines());
    for campaign in [models, small] {
        for (author, word) in [("walk", "clear"), ("walk", "start"), ("all marked", "clear"), ("grown", "clear"), ("damaged", "stmt")] {
            assert!(campaign.verdicts.contains_key(&(author, word.into())), "{author} {word}\n{}", campaign.lines());
        }
    }
}

/// Models of the greatest size are judged at once; so are loops as deep as statements go.
#[test]
fn great_models() {
    let start = std::time::Instant::now();
    library::with_stack(|| {
        for seed in 0..3 {
            let asked = Asked::of(&model::generate(1024, seed).unwrap()).unwrap();
            assert_eq!(asked.judge(&asked.all_marked()).verdict, Verdict::Clear);
            assert_eq!(asked.judge(&asked.grown()).verdict, Verdict::Clear);
        }
    });
    assert!(start.elapsed().as_secs() < 60);
}

/// Structs of two of the former, each local chosen from the halves of the next: the need doubles with each statement.
#[test]
fn needs_share_their_parts() {
    let count = 60;
    let types: String = (0..count).map(|n| format!("type {0}: Struct [{1}:- {1}:-]\n", 14 + n, if n == 0 { 0 } else { 13 + n })).collect();
    let pointers: String = (0..count).map(|n| format!("type {}: Pointer {}\n", 14 + count + n, 14 + n)).collect();
    let locals: String = (0..count).map(|n| format!("local {}\n", 14 + n)).collect();
    let (mut expressions, mut statements) = (String::from("expr 0 FunctionArgument 0\n"), Vec::new());
    // of each local but the last: its pointer, the next one's halves, their loads, the choice
    for n in 0..count - 1 {
        let (at, own, pointer) = (1 + 7 * n, 14 + n, 14 + count + n);
        expressions += &format!("expr {pointer} LocalVariable {n}\nexpr {} LocalVariable {}\n", pointer + 1, n + 1);
        expressions += &format!("expr {pointer} AccessIndex {0} 0\nexpr {pointer} AccessIndex {0} 1\n", at + 1);
        expressions += &format!("expr {own} Load {}\nexpr {own} Load {}\nexpr {own} Select 0 {} {}\n", at + 2, at + 3, at + 4, at + 5);
        statements.push(format!("stmt Emit {} {}\nstmt Store {at} {}\n", at + 4, at + 6, at + 6));
    }
    let last = 1 + 7 * (count - 1);
    let body: String = statements.iter().rev().cloned().collect();
    let text = format!(
        "\n{types}{pointers}fn function 14 -\narg 0 -\n{locals}{expressions}expr 14 Load 1\nblock\n{body}stmt Emit {last} {last}\n\
         stmt Return {last}\nrequest 0 all\n"
    );
    check(&text, &[("all", "arg 0 all", "refused 15")]);
}

/// Loops in each other as deep as 300, the innermost changing what the next turn needs.
#[test]
fn deep_loops_end() {
    let depth = 300;
    let mut blocks = String::from("block\nstmt 0: Emit 7 7\nstmt 1: Store 2 7\nstmt 2: Emit 6 6\nstmt 3: Store 4 6\n");
    for n in 0..depth {
        blocks += &format!("block\nblock\nstmt {}: Loop {} {} 1\n", 4 + n, 2 * n, 2 * n + 1);
    }
    let text = flow(&blocks);
    library::with_stack(|| {
        check(&text, &[("all", "arg 1 all; global 1 all", "clear"), ("all", "arg 1 all", "start")]);
    });
}

/// The stored requests, the deepest and longest modules among them: each of the first requests has a verdict on all marks, soon.
#[test]
fn stored_requests_have_a_verdict() {
    let path = std::path::PathBuf::from(env!("CARGO_MANIFEST_DIR")).join("../tests/requests.list");
    let cases = Source(&std::fs::read(path).expect("requests.list")).all(Requests::read).expect("a whole list");
    let mut counts = std::collections::BTreeMap::<String, usize>::new();
    library::with_stack(|| {
        for case in &cases {
            let Some(asked) = Asked::of(&[&case.module[..], &case.requests[0].0].concat()) else { continue };
            let marks = vec![1; asked.outline.marks()];
            let verdict = asked.judge(&Report { marks, context: context("") }).verdict.to_string();
            let sort = verdict.split(|c: char| c.is_ascii_digit()).next().unwrap().trim().to_string();
            *counts.entry(sort).or_default() += 1;
        }
    });
    println!("{counts:?}");
    assert!(["clear", "start", "unjudged expr", "unjudged stmt"].iter().all(|v| counts.contains_key(*v)), "{counts:?}");
}

/// The verdict on the walk's own report.
fn own(text: &str) -> String {
    let asked = asked(&format!("{TYPES}{text}"));
    let report = library::with_stack(|| asked.of_walk()).unwrap().expect("accepted");
    asked.judge(&report).verdict.to_string()
}

/// Where the walk's own report, which is the original's, is not cleared.
#[test]
fn slips_of_the_original() {
    // a selector's need, and that of break_if, is overwritten
    let selector = flow("block\nstmt 0: Store 2 1\nblock\nblock\nstmt 1: Switch 0 [0:0 default:1]\n");
    assert_eq!(own(&selector), "start");
    assert_eq!(own(&selector.replace("Switch 0 [0:0 default:1]", "If 0 0 1")), "clear");
    let turns = "block\nstmt 0: Emit 5 5\nstmt 1: Store 2 5\nblock\nblock\nstmt 2: Loop 0 1 1\n";
    assert_eq!(own(&flow(turns)), "start");
    // a matrix times a vector is taken for one by component
    assert_eq!(own(&returned(1, "Binary 3 0", "{0:all}")), "start");
    assert_eq!(own(&returned(1, "Binary 1 0", "{0:all}")), "clear");
    // a swizzle's last entry wins
    assert_eq!(own(&returned(1, "Swizzle 0 .xx", "{0:all,1:exist}")), "start");
    assert_eq!(own(&returned(1, "Swizzle 0 .xx", "{0:all}")), "clear");
    // the first visit of a global takes the place of what is asked of it
    let load = |request: &str| {
        format!("\nglobal 1\nfn function 0 -\nexpr 8 GlobalVariable 0\nexpr 7 AccessIndex 0 0\nexpr 0 Load 1\nblock\nstmt Emit 2 2\nstmt Return 2\nrequest 0 {request}\n")
    };
    assert_eq!((own(&load("all 0={1:all}")).as_str(), own(&load("all")).as_str()), ("start", "clear"));
    assert_eq!(own(&stored(1, 0, &[(0, 0)], "all")), "start");
    assert_eq!(own(&stored(1, 1, &[], "all")), "clear");
    // a return does not reset what is needed
    assert_eq!(own(CASE_J), "stmt 1");
}
