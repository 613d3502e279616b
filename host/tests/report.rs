//! The program `report`, on the stored lists, and on inputs past every limit, each with a stack of 8 MiB. `rt run` in crates/report makes it, and so does `rt ci`. What it prints are the oracle's
//! lines, and the line of the second clearance.
use host::assemble::assemble;
use host::reported::printed;
use host::stored::{Report, Requests, Source};
use std::io::Write;
use std::path::PathBuf;
use std::process::{Command, Stdio};

fn folder() -> PathBuf {
    PathBuf::from(env!("CARGO_MANIFEST_DIR")).join("..")
}

fn run(input: &[u8]) -> String {
    let mut child = Command::new("sh")
        .args(["-c", "ulimit -S -s 8192 && exec \"$0\""])
        .arg(folder().join("crates/report/out/report"))
        .stdin(Stdio::piped())
        .stdout(Stdio::piped())
        .spawn()
        .expect("sh");
    // the program reads no more than can change its answer, and may have ended by then
    let _ = child.stdin.take().expect("a pipe").write_all(input);
    let output = child.wait_with_output().expect("an output");
    assert!(output.status.success());
    String::from_utf8(output.stdout).expect("text")
}

#[test]
fn reports_are_printed_as_the_oracle_prints_them() {
    let stored = std::fs::read(folder().join("tests/report.list")).expect("report.list");
    let cases = Source(&stored).all(Report::read).expect("a whole list");
    assert!(cases.len() > 300);
    for (n, case) in cases.iter().enumerate() {
        assert_eq!(run(&case.input), printed(&case.input, &case.output), "item {n}");
    }
}

/// The first request of each module of the stored requests, which a fresh pruner answers. Blocks, branches, loops, calls and operands in each other, as deep as a
/// file allows, are among them.
#[test]
fn the_deepest_walks_have_room() {
    let stored = std::fs::read(folder().join("tests/requests.list")).expect("requests.list");
    let cases = Source(&stored).all(Requests::read).expect("a whole list");
    let mut long = 0;
    for (n, case) in cases.iter().enumerate().filter(|(_, case)| case.buffer >= 65_536) {
        let (request, answer) = &case.requests[0];
        let mut input = case.module.clone();
        input.extend(request);
        assert_eq!(run(&input), printed(&input, &answer.report), "item {n}");
        long += usize::from(case.module.len() > 65_000);
    }
    assert!(long >= 5);
}

#[test]
fn any_input_has_an_answer() {
    assert_eq!(run(&[]), "refused 12\n");
    assert_eq!(run(&[0; 1_000_000]), "refused 1\n");
    // a module of the greatest length, then a request that never ends
    let mut long = vec![0; 65_536];
    long.extend(b"RQ\xff\xff");
    long.extend([0; 1_000_000]);
    assert_eq!(run(&long), "refused 3\n");
}

/// Case J, but what is stored before the if stands nine members deep in argument 0. The walk does not look at it; the check does, and needs nine levels are refused.
#[test]
fn a_check_may_be_refused() {
    let types: String = (0..9).map(|n| format!("type Struct [{n}:-]\n")).collect();
    let members: String = (0..9).map(|n| format!("expr {} AccessIndex {} 0\n", 8 - n, n + 3)).collect();
    let listing = format!(
        "type Scalar\n{types}global 0\nfn entry - -\narg 9 -\narg 0 -\narg 0 -\nexpr 0 GlobalVariable 0\nexpr 0 FunctionArgument 1\n\
         expr 0 FunctionArgument 2\nexpr 9 FunctionArgument 0\n{members}block\nstmt Return -\nblock\nblock\nstmt Emit 4 12\nstmt Store 0 12\n\
         stmt If 1 0 1\nstmt Store 0 2\nrequest 0 none 0=all\n"
    );
    let input = assemble(&listing).expect("a listing").bytes;
    let output = run(&input);
    let lines = output.strip_suffix("check refused 15\n").expect(&output);
    assert!(lines.contains("stmt 2 store no\n"));
    assert_eq!(output, printed(&input, lines));
}
