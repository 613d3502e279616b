//! No bytes and no text bring `list`, `check` or `assemble` down, and a listing gives its file back.
use host::assemble::assemble;
use host::random::Random;
use host::{check, damage, list};

const TEXT: &str = "type Scalar\ntype Vector 3\ntype Struct [0:- 1:4]\nglobal 2\nfn entry 1 3\narg 1 -\nlocal 1\nexpr 1 FunctionArgument 0
expr 1 Swizzle 0 .zyx\nexpr 1 Compose [0]\nblock\nstmt Store 0 1\nblock\nstmt Switch 0 [1:0 default:1]\nstmt Return -\nrequest 0 {1:all,2:{0:exist}} 0=all\n";

fn round(bytes: &[u8]) {
    let text = list::list(bytes);
    let made = assemble(&text).unwrap_or_else(|f| panic!("line {}: {}\n{text}", f.line, f.reason));
    assert!(made.bytes == bytes, "{text}");
    let _ = check::file(bytes);
}

#[test]
fn damaged_files() {
    let file = assemble(TEXT).expect("a right listing").bytes;
    let mut random = Random::new(7);
    for _ in 0..3000 {
        let mut bytes = file.clone();
        for _ in 0..=random.below(4) {
            bytes = damage::damaged(&bytes, &mut random);
        }
        round(&bytes);
    }
}

#[test]
fn random_bytes() {
    let mut random = Random::new(8);
    for _ in 0..3000 {
        let length = random.below(80);
        let mut bytes: Vec<u8> = (0..length).map(|_| random.bits() as u8).collect();
        if length >= 6 {
            bytes[..4].copy_from_slice(b"RQ\x06\x00");
            bytes[3..6].fill(random.below(3) as u8);
        }
        round(&bytes);
    }
    round(&[b'R'; 70_000]);
    round(&[&b"RQ\xfe\xff"[..], &[2, 0, 1, 0, 0, 0].repeat(10_922)].concat());
}

#[test]
fn damaged_listings() {
    let mut random = Random::new(9);
    let letters: Vec<char> = "0 1:-[]{}=,.#\n\u{e9}xEz9".chars().collect();
    for _ in 0..3000 {
        let mut text: Vec<char> = TEXT.chars().collect();
        for _ in 0..=random.below(6) {
            let at = random.below(text.len());
            match random.below(3) {
                0 => text[at] = *random.pick(&letters),
                1 => text.insert(at, *random.pick(&letters)),
                _ => drop(text.remove(at)),
            }
        }
        if let Ok(made) = assemble(&text.iter().collect::<String>()) {
            round(&made.bytes);
        }
    }
}
