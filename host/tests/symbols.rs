//! Every function that include/tickingtor.h declares is linked and called, with input that it accepts and with input that it refuses.
use host::clearance::Verdict;
use host::lent::Lent;
use host::library::{self, Answer, Reply};
use host::oracle::Place;
use host::outline::Outline;
use host::part::Part;
use host::{assemble, context, limits};
use std::collections::BTreeSet;
use std::path::PathBuf;

/// A function that returns a member of its bound argument, and one that has no arm.
fn module() -> Vec<u8> {
    let text = "type 0: Scalar\ntype 1: Struct [0:7 0:9]\nfn 0: entry 0 -\n  arg 0: 1 -\n  expr 0: 1 FunctionArgument 0\n  \
                expr 1: 0 AccessIndex 0 1\n  block 0:\n    stmt 0: Emit 1 1\n    stmt 1: Return 1\nfn 1: entry 1 -\n  block 0:\n    \
                stmt 0: ImageAtomic\n";
    assemble::assemble(text).map_err(|f| f.reason).expect("a listing").bytes
}

fn request(text: &str) -> Vec<u8> {
    assemble::assemble(&format!("request {text}")).map_err(|f| f.reason).expect("a request").bytes
}

fn read() {
    assert_eq!(library::read(&module()), 0);
    assert_eq!(library::read(b"TY"), 2);
}

fn input_to_bindings() {
    let context = context::of_arguments(&[(0, Part::All)]);
    assert_eq!(library::input_to_bindings(&module(), 0, &context, &mut [0; 64]), Answer::Written(vec![7, 9]));
    assert_eq!(library::input_to_bindings(&module(), 0, &context, &mut [0; 63]), Answer::Refused(20));
}

fn output_from_bindings() {
    let mut out = vec![0; limits::REPORT];
    assert_eq!(library::output_from_bindings(&module(), 1, &[9], &mut out), Answer::Written(request("1 {1:all}")));
    assert_eq!(library::output_from_bindings(&module(), 2, &[9], &mut out), Answer::Refused(11));
}

fn add_binding() {
    let mut out = vec![0; limits::REPORT];
    assert_eq!(library::add_binding(&module(), &request("1 none"), 7, &mut out), Answer::Written(request("1 {0:all}")));
    assert_eq!(library::add_binding(&module(), &request("1 none"), 64, &mut out), Answer::Refused(12));
}

fn refused(number: u32) -> Reply {
    Reply::Refused { number, place: None }
}

fn asks() {
    let (bytes, outline) = (module(), Outline::of(&module()));
    let mut lent = Lent::with_report(limits::REPORT);
    let served = lent.serve(&bytes, &outline, &request("0 all")).expect("rightly written");
    let written = served.written.expect("accepted");
    assert_eq!(served.reply, Reply::Visited(4));
    let lines = written.reported.lines() + &outline.functions[0].lines(&written.marks[..2]);
    assert_eq!(lines, "required yes\nretval all\narg 0 {1:all}\nexpr 0 {1:all}\nexpr 1 all\nstmt 0 emit yes\nstmt 1 return yes\n");
    assert_eq!(written.marks, [1, 1, 0]);
    let place = Some(Place { statement: true, function: 1, number: 0 });
    let mut ask = |module: &[u8], text: &[u8]| lent.serve(module, &outline, text).expect("nothing is written").reply;
    assert_eq!(ask(&bytes, &request("1 all")), Reply::Refused { number: 13, place });
    assert_eq!(ask(&bytes, &request("2 all")), refused(11));
    assert_eq!(ask(&bytes, b"RQ"), refused(12));
    assert_eq!(ask(b"TY", b"RQ"), refused(2));
}

/// In the order in which a request is refused: each buffer is too short by one byte, from the last on.
fn short_buffers() {
    let (bytes, outline) = (module(), Outline::of(&module()));
    let ask = |pruner, report, answer, text: &[u8]| {
        Lent::new(pruner, report, answer).serve(&bytes, &outline, text).expect("nothing is written").reply
    };
    let (pruner, report, answer) = (limits::PRUNER - 1, limits::REPORT - 1, limits::ANSWER - 1);
    assert_eq!(ask(pruner + 1, report + 1, answer, &request("0 all")), refused(20));
    assert_eq!(ask(pruner, report + 1, answer, &request("0 all")), refused(19));
    assert_eq!(ask(pruner, report, answer, &request("0 all")), refused(18));
    assert_eq!(ask(0, 0, 0, &request("0 all")), refused(18));
    assert_eq!(ask(0, 0, 0, &request("2 all")), refused(11));
    assert_eq!(ask(0, 0, 0, &request("0 {1:all,0:all}")), refused(12));
}

/// The first function's report is clear with its marks and the member that is returned, and lacks one or the other without.
fn check() {
    let (bytes, asked) = (module(), request("0 all"));
    let context = |part: &str| context::of_arguments(&[(0, Part::parse(part).expect("a part"))]);
    let ask = |module: &[u8], marks: &[u8], context: &[u8]| Verdict::of_word(library::check(module, &asked, marks, context));
    assert_eq!(ask(&bytes, &[1, 1, 0], &context("{1:all}")), Some(Verdict::Clear));
    assert_eq!(ask(&bytes, &[1, 1], &context("all")), Some(Verdict::Clear));
    assert_eq!(ask(&bytes, &[1, 0], &context("{0:all}")), Some(Verdict::Start));
    assert_eq!(ask(&bytes, &[0, 1], &context("all")), Some(Verdict::Statement(0)));
    assert_eq!(ask(&bytes, &[1], &context("all")), Some(Verdict::Refused(21)));
    assert_eq!(ask(&bytes, &[1, 1], b"CX"), Some(Verdict::Refused(12)));
    assert_eq!(ask(b"TY", &[1, 1], b"CX"), Some(Verdict::Refused(2)));
}

const CALLED: [(&str, fn()); 6] = [
    ("tickingtor_read", read),
    ("tickingtor_input_to_bindings", input_to_bindings),
    ("tickingtor_output_from_bindings", output_from_bindings),
    ("tickingtor_add_binding", add_binding),
    ("tickingtor_check", || library::with_stack(check)),
    ("tickingtor_request", || library::with_stack(|| (asks(), short_buffers())).0),
];

#[test]
fn every_declared_function_is_called() {
    let path = PathBuf::from(env!("CARGO_MANIFEST_DIR")).join("../include/tickingtor.h");
    let text = std::fs::read_to_string(path).expect("the header");
    let words = text.split(|c: char| !(c.is_ascii_alphanumeric() || c == '_' || c == '('));
    let declared: BTreeSet<&str> = words.filter_map(|w| w.split_once('(')).map(|w| w.0).filter(|w| w.starts_with("tickingtor_")).collect();
    assert_eq!(declared, CALLED.iter().map(|c| c.0).collect());
    for (_, call) in CALLED {
        call();
    }
}
