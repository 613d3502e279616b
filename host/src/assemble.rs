//! A listing as a file. A line is a record: its word, its number with a colon (may be left out; else it must be right), and what
//! it holds; `#` starts a comment. `record MK 1 2 -` is any record of these fields, `bytes 00 ff` are bytes as they stand,
//! `repeat N LINE` is a line N times.
use crate::form::Mark;
use crate::limits;
use crate::list::Numbers;
use crate::operands::{number, parse, tokens};
use crate::record::write;
use crate::request::Request;

pub struct Assembled {
    pub bytes: Vec<u8>,
    /// Where each line's bytes start, with the line's number (from 1), ascending.
    starts: Vec<(usize, usize)>,
}

impl Assembled {
    /// The line that made the byte at this place; the last one, past the end.
    pub fn line(&self, at: usize) -> usize {
        let after = self.starts.partition_point(|s| s.0 <= at);
        self.starts[..after].last().map_or(1, |s| s.1)
    }
}

/// What is wrong with a listing, and in which line (from 1).
#[derive(PartialEq, Eq, Debug)]
pub struct Fault {
    pub line: usize,
    pub reason: String,
}

pub fn assemble(text: &str) -> Result<Assembled, Fault> {
    let mut made = Assembled { bytes: Vec::new(), starts: Vec::new() };
    let mut numbers = Numbers::default();
    for (n, whole) in text.lines().enumerate() {
        let content = whole.split('#').next().unwrap_or("").trim();
        let start = made.bytes.len();
        add_line(content, &mut numbers, &mut made.bytes).map_err(|reason| Fault { line: n + 1, reason })?;
        if made.bytes.len() > start {
            made.starts.push((start, n + 1));
        }
    }
    Ok(made)
}

/// The first word and the rest.
fn cut(text: &str) -> (&str, &str) {
    let (word, rest) = text.split_once(char::is_whitespace).unwrap_or((text, ""));
    (word, rest.trim_start())
}

fn add_line(line: &str, numbers: &mut Numbers, bytes: &mut Vec<u8>) -> Result<(), String> {
    let (word, rest) = cut(line);
    let added = match word {
        "" => return Ok(()),
        "repeat" | "rep" => return repeat(rest, numbers, bytes),
        "bytes" | "hex" => raw_bytes(rest)?,
        "record" | "rec" => raw_record(rest, numbers)?,
        _ => {
            let mark = Mark::of_word(word)
                .ok_or_else(|| format!("'{word}' is no record (type, global, fn, arg, local, expr, block, stmt, request)"))?;
            record(mark, label(mark, rest, numbers)?)?
        }
    };
    bytes.extend(added);
    if bytes.len() > limits::ASSEMBLED {
        Err("the file is getting too long".into())
    } else {
        Ok(())
    }
}

fn repeat(rest: &str, numbers: &mut Numbers, bytes: &mut Vec<u8>) -> Result<(), String> {
    let (count, line) = cut(rest);
    if matches!(cut(line).0, "repeat" | "rep") {
        return Err("a repeat inside a repeat".into());
    }
    for _ in 0..number(count)? {
        add_line(line, numbers, bytes)?;
    }
    Ok(())
}

fn raw_bytes(rest: &str) -> Result<Vec<u8>, String> {
    let byte = |w: &str| match (w.len(), u8::from_str_radix(w, 16)) {
        (2, Ok(b)) => Ok(b),
        _ => Err(format!("'{w}' is no byte in two hexadecimal digits")),
    };
    rest.split_whitespace().map(byte).collect()
}

fn raw_record(rest: &str, numbers: &mut Numbers) -> Result<Vec<u8>, String> {
    let (mark, rest) = cut(rest);
    let letters: [u8; 2] = mark.as_bytes().try_into().map_err(|_| format!("'{mark}' is no mark of two letters"))?;
    if let Some(mark) = Mark::of_letters(letters) {
        numbers.next(mark);
    }
    write(letters, &parse(&tokens(rest))?).ok_or_else(too_long)
}

fn too_long() -> String {
    "the record is longer than 65535 bytes".into()
}

/// What follows the record's number, which must be right if it is there.
fn label<'a>(mark: Mark, rest: &'a str, numbers: &mut Numbers) -> Result<&'a str, String> {
    let wanted = numbers.next(mark);
    let (word, after) = cut(rest);
    match word.strip_suffix(':') {
        Some(given) if given != wanted.to_string() => Err(format!("this is {} {wanted}, not {given}", mark.form().word)),
        Some(_) => Ok(after),
        None => Ok(rest),
    }
}

fn record(mark: Mark, rest: &str) -> Result<Vec<u8>, String> {
    let form = mark.form();
    let fields = if mark == Mark::Request {
        Request::parse(rest)?.fields()
    } else {
        let mut words = tokens(rest);
        if !form.kinds.is_empty() {
            let at = form.head.len();
            let name = *words.get(at).ok_or_else(|| format!("the kind of the {} is missing", form.word))?;
            let code = kind(mark, name)?;
            let mut fields = parse(&words[..at])?;
            fields.push(code);
            fields.extend(parse(&words.split_off(at + 1))?);
            fields
        } else {
            parse(&words)?
        }
    };
    write(form.letters, &fields).ok_or_else(too_long)
}

/// A kind by its name, its short name or its number.
fn kind(mark: Mark, name: &str) -> Result<u16, String> {
    let kinds = mark.form().kinds;
    match kinds.iter().position(|k| k.name == name || k.short == name) {
        Some(code) => Ok(code as u16),
        None => name.parse().map_err(|_| format!("'{name}' is no kind of {}", mark.form().word)),
    }
}

#[cfg(test)]
mod tests {
    use super::*;

    fn fault(text: &str) -> Fault {
        assemble(text).err().expect(text)
    }

    #[test]
    fn faults_name_line_and_reason() {
        let text = "type 0: Scalar\n\n# a comment\ntype 2: Vector 3\n";
        assert_eq!(fault(text), Fault { line: 4, reason: "this is type 1, not 2".into() });
        assert_eq!(fault("type Vecto 3").reason, "'Vecto' is no kind of type");
        assert_eq!(fault("expr 0").reason, "the kind of the expr is missing");
        assert_eq!(fault("stmt Store 1 x").reason, "'x' is no number from 0 to 65535");
        assert_eq!(fault("bytes 0").reason, "'0' is no byte in two hexadecimal digits");
        assert_eq!(fault("repeat 2 repeat 2 block").reason, "a repeat inside a repeat");
        assert_eq!(fault("record TYP 1").reason, "'TYP' is no mark of two letters");
        assert!(fault("statement Store 1 2").reason.starts_with("'statement' is no record"));
    }

    #[test]
    fn numbers_start_again_with_a_function() {
        let text = "fn 0: function - -\nlocal 0: 0\nfn 1: entry - -\nlocal 0: 0\nlocal 1: 0";
        assert!(assemble(text).is_ok());
    }

    #[test]
    fn short_words_do_as_well() {
        let long = assemble("type Vector 3\nfn entry 0 -\nexpr 0 Swizzle 0 .zx\nstmt Return -\nrequest 0 all").unwrap();
        let short = assemble("ty vec 3\nfn entry 0 -\nex 0 swizzle 0 [2 0]\nst return -\nrq 0 all").unwrap();
        assert_eq!(long.bytes, short.bytes);
        assert_eq!([long.line(0), long.line(8), long.line(1000)], [1, 2, 5]);
    }
}
