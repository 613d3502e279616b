//! The library, linked and called across its C boundary, on the stored lists.
use host::library::{self, Answer};
use host::part::Part;
use host::request::Request;
use host::stored::{Reading, Source};
use host::{assemble, context, record};
use std::path::PathBuf;

#[test]
fn modules_are_read_as_the_oracle_reads_them() {
    let path = PathBuf::from(env!("CARGO_MANIFEST_DIR")).join("../tests/reading.list");
    let cases = Source(&std::fs::read(path).expect("reading.list")).all(Reading::read).expect("a whole list");
    assert!(cases.len() > 400);
    for (n, case) in cases.iter().enumerate() {
        assert_eq!(library::read(&case.module), u32::from(case.refusal), "item {n}");
    }
}

#[test]
fn any_length_has_an_answer() {
    assert_eq!(library::read(&[]), 0);
    assert_eq!(library::read(&vec![0; 65536]), 3);
    assert_eq!(library::read(&vec![0; 65537]), 1);
}

/// A bound vector, a struct with two bound members, and a function that returns the struct.
fn module() -> Vec<u8> {
    let text = "type 0: Scalar\ntype 1: Vector 3\ntype 2: Struct [0:7 1:9]\nfn 0: entry 2 -\n  arg 0: 1 4\n  arg 1: 2 -\n  \
                block 0:\n    stmt 0: Kill\n";
    assemble::assemble(text).map_err(|f| f.reason).expect("a listing").bytes
}

fn request(text: &str) -> Vec<u8> {
    record::write(*b"RQ", &Request::parse(text).expect("a request").fields()).expect("a short request")
}

fn part(text: &str) -> Part {
    Part::parse(text).expect("a part")
}

#[test]
fn bindings_of_inputs() {
    let ask = |module: &[u8], f: u32, args: &[(u16, Part)], room: usize| {
        library::input_to_bindings(module, f, &context::of_arguments(args), &mut vec![0; room])
    };
    let (all, some) = ([(0, part("all")), (1, part("{1:all}"))], [(0, part("{0:all}"))]);
    assert_eq!(ask(&module(), 0, &all, 64), Answer::Written(vec![4, 9]));
    assert_eq!(ask(&module(), 0, &some, 64), Answer::Asserts(0));
    assert_eq!(ask(&module(), 0, &all, 63), Answer::Refused(20));
    assert_eq!(ask(&module(), 1, &all, 64), Answer::Refused(11));
    assert_eq!(ask(&[0; 65537], 0, &all, 64), Answer::Refused(1));
    assert_eq!(library::input_to_bindings(&module(), 0, &[0; 49167], &mut [0; 64]), Answer::Refused(12));
}

#[test]
fn outputs_from_bindings() {
    let mut out = vec![5; 65536];
    assert_eq!(library::output_from_bindings(&module(), 0, &[9], &mut out), Answer::Written(request("0 {1:all}")));
    assert_eq!(library::output_from_bindings(&module(), 0, &[63], &mut out), Answer::Written(request("0 none")));
    assert_eq!(library::output_from_bindings(&module(), 0, &[64], &mut out), Answer::Refused(12));
    assert_eq!(library::output_from_bindings(&module(), 1, &[9], &mut out), Answer::Refused(11));
    assert_eq!(library::output_from_bindings(b"TY", 0, &[9], &mut out), Answer::Refused(2));
    assert_eq!(library::output_from_bindings(&module(), 0, &[9], &mut out[1..]), Answer::Refused(20));
    assert_eq!(out[request("0 {1:all}").len()], 5);
}

#[test]
fn a_binding_is_added() {
    let mut out = vec![5; 65536];
    let mut ask = |bytes: &[u8], b: u32| library::add_binding(&module(), bytes, b, &mut out);
    assert_eq!(ask(&request("0 {1:all}"), 7), Answer::Written(request("0 {0:all,1:all}")));
    assert_eq!(ask(&request("0 none"), 7), Answer::Written(request("0 {0:all}")));
    assert_eq!(ask(&request("0 none"), 64), Answer::Refused(12));
    assert_eq!(ask(&request("1 none"), 7), Answer::Refused(11));
    assert_eq!(ask(&vec![0; 70000], 7), Answer::Refused(12));
    assert_eq!(library::add_binding(b"TY", &request("0 none"), 7, &mut []), Answer::Refused(2));
    assert_eq!(library::add_binding(&module(), &request("0 none"), 7, &mut []), Answer::Refused(20));
}

/// A function that returns the last of these structs, which stand over a scalar.
fn returning(structs: &[String]) -> Vec<u8> {
    let mut text = String::from("type 0: Scalar\n");
    for (n, members) in structs.iter().enumerate() {
        text += &format!("type {}: Struct [{members}]\n", n + 1);
    }
    text += &format!("fn 0: entry {} -\n  block 0:\n    stmt 0: Kill\n", structs.len());
    assemble::assemble(&text).map_err(|f| f.reason).expect("a listing").bytes
}

#[test]
fn parts_past_the_limits_are_refused() {
    let deep = |depth: usize| returning(&(0..depth).map(|n| format!("{n}:{}", if n == 0 { "7" } else { "-" })).collect::<Vec<_>>());
    let wide = |last: usize| {
        let members = |t: usize, b: &str, count: usize| vec![format!("{t}:{b}"); count].join(" ");
        returning(&[members(0, "7", 16), members(1, "-", 16), members(2, "-", 16), members(3, "-", last)])
    };
    let mut out = vec![0; 65536];
    for (module, refusal) in [(deep(8), 0), (deep(9), 15), (wide(1), 0), (wide(2), 16)] {
        let given = library::output_from_bindings(&module, 0, &[7], &mut out);
        assert_eq!(given, library::add_binding(&module, &request("0 none"), 7, &mut out));
        assert_eq!(if let Answer::Refused(number) = given { number } else { 0 }, refusal);
    }
}

/// 255 types, each but the first a struct of 16 members of the type before: the Rust would not end.
#[test]
fn deep_types_answer_at_once() {
    let bound: String = (0..16).map(|n| format!(" 0:{n}")).collect();
    let mut text = format!("type 0: Scalar\ntype 1: Struct [{}]\n", bound.trim());
    for n in 1..255 {
        let members = vec![format!("{n}:-"); 16].join(" ");
        text += &format!("type {}: Struct [{members}]\n", n + 1);
    }
    text += "fn 0: entry 255 -\n  arg 0: 255 -\n  block 0:\n    stmt 0: Kill\n";
    let module = assemble::assemble(&text).map_err(|f| f.reason).expect("a listing").bytes;
    let context = context::of_arguments(&[(0, part("all"))]);
    let every: Vec<u8> = (0..16).collect();
    assert_eq!(library::input_to_bindings(&module, 0, &context, &mut [0; 64]), Answer::Written(every));
    assert_eq!(library::output_from_bindings(&module, 0, &[3], &mut vec![0; 65536]), Answer::Refused(15));
}
