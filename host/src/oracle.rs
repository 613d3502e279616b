//! The oracle: the original analysis as a program, given by its path. It reads a file from standard input and prints its
//! answers; here they are taken apart.
use crate::record::{records, split};
use std::io::Write;
use std::process::{Command, Stdio};
use std::sync::atomic::{AtomicUsize, Ordering};

/// One answer to a request.
#[derive(Clone, Default, PartialEq, Eq, Debug)]
pub struct Answer {
    /// 0 if it was accepted.
    pub refusal: u16,
    pub place: Option<Place>,
    pub visits: u32,
    pub turns: u32,
    /// The most turns of one loop, the most pieces at once: of an accepted request.
    pub longest: u32,
    pub peak: u32,
    /// The report's lines but for `check`; of a refusal the one line `refused N`.
    pub report: String,
    /// The marks of all functions, 0 or 1, if it was accepted.
    pub marks: Vec<u8>,
    /// The pruner's totals after it.
    pub totals: String,
    /// What the Rust says as it panics (13). It is not stored.
    pub panic: String,
}

/// What the oracle says to a module with requests.
#[derive(Clone, PartialEq, Eq, Debug)]
pub enum Outcome {
    /// Reading's refusal of the module.
    Refused(u16),
    Answers(Vec<Answer>),
}

/// The innermost open visit of a refusal.
#[derive(Clone, Copy, PartialEq, Eq, Debug)]
pub struct Place {
    pub statement: bool,
    pub function: u16,
    pub number: u16,
}

fn run(program: &str, options: &[&str], bytes: &[u8]) -> Result<String, String> {
    let fault = |e: std::io::Error| format!("{program}: {e}");
    let mut command = Command::new(program);
    command.args(options).arg("-").stdin(Stdio::piped()).stdout(Stdio::piped());
    let mut child = command.spawn().map_err(fault)?;
    child.stdin.take().expect("piped").write_all(bytes).map_err(fault)?;
    let done = child.wait_with_output().map_err(fault)?;
    if !done.status.success() {
        return Err(format!("{program}: {}", done.status));
    }
    String::from_utf8(done.stdout).map_err(|e| format!("{program}: {e}"))
}

/// Reading's refusal of these bytes as a module, 0 for none. The oracle would take an RQ as the start of the requests, while in a
/// module it is a record like any other that does not belong there: it is asked with another unknown mark in its place.
pub fn reading(program: &str, bytes: &[u8]) -> Result<u16, String> {
    refusal(&run(program, &[], &without_requests(bytes))?)
}

/// The same of many, in one run of the program.
pub fn readings(program: &str, modules: &[Vec<u8>]) -> Result<Vec<u16>, String> {
    let files: Vec<Vec<u8>> = modules.iter().map(|m| without_requests(m)).collect();
    run_many(program, &[], &files)?.iter().map(|text| refusal(text)).collect()
}

/// The answers to the requests of many files, in one run of the program. A file without a request is a module that reading refuses.
pub fn outcomes(program: &str, files: &[Vec<u8>]) -> Result<Vec<Outcome>, String> {
    let texts = run_many(program, &["--totals", "--marks", "--visits", "--why"], files)?;
    let other = |text: &str| format!("an answer of another form:\n{text}");
    texts.iter().map(|text| outcome(text).ok_or_else(|| other(text))).collect()
}

/// Where reading refuses, one line says so and one says where.
fn outcome(text: &str) -> Option<Outcome> {
    let mut lines = text.lines();
    let first = lines.next()?.strip_prefix("refused ");
    match (first, lines.next()) {
        (Some(number), Some(place)) if place.starts_with("# at byte ") => number.parse().ok().map(Outcome::Refused),
        _ => parse(text).map(Outcome::Answers),
    }
}

/// The number of folders that were made, so that each has a name of its own.
static FOLDERS: AtomicUsize = AtomicUsize::new(0);

/// The texts that one run prints for these files, in their order.
fn run_many(program: &str, options: &[&str], files: &[Vec<u8>]) -> Result<Vec<String>, String> {
    let number = FOLDERS.fetch_add(1, Ordering::Relaxed);
    let folder = std::env::temp_dir().join(format!("host-{}-{number}", std::process::id()));
    let fault = |e: std::io::Error| format!("{}: {e}", folder.display());
    std::fs::create_dir_all(&folder).map_err(fault)?;
    let mut command = Command::new(program);
    command.args(options);
    for (n, bytes) in files.iter().enumerate() {
        let file = folder.join(n.to_string());
        std::fs::write(&file, bytes).map_err(fault)?;
        command.arg(file);
    }
    let done = command.output().map_err(|e| format!("{program}: {e}"))?;
    std::fs::remove_dir_all(&folder).map_err(fault)?;
    let text = String::from_utf8(done.stdout).map_err(|e| format!("{program}: {e}"))?;
    let texts = if files.len() == 1 { vec![text] } else { by_file(&text) };
    if texts.len() != files.len() || !done.status.success() {
        return Err(format!("{program}: {}, {} answers to {} files", done.status, texts.len(), files.len()));
    }
    Ok(texts)
}

/// Each file's text follows a line with its name.
fn by_file(text: &str) -> Vec<String> {
    let mut texts: Vec<String> = Vec::new();
    for line in text.split_inclusive('\n') {
        match texts.last_mut() {
            _ if line.starts_with("== ") => texts.push(String::new()),
            Some(open) => open.push_str(line),
            None => {}
        }
    }
    texts
}

pub fn without_requests(bytes: &[u8]) -> Vec<u8> {
    let mut module = bytes.to_vec();
    let (found, rest) = records(bytes);
    let starts = found.iter().map(|r| r.at).chain([bytes.len() - rest.len()]);
    for at in starts {
        if bytes[at..].starts_with(b"RQ") {
            module[at + 1] = b'Z';
        }
    }
    module
}

fn refusal(text: &str) -> Result<u16, String> {
    let number: u16 = text.trim().strip_prefix("refused ").and_then(|n| n.parse().ok()).ok_or("no answer")?;
    // a module that is read has no request after it
    Ok(if number == 12 { 0 } else { number })
}

/// What the program `report` prints for this input, but for the line `check`. It takes one request, while the oracle takes any number:
/// bytes after the first make the request malformed.
pub fn report(program: &str, input: &[u8]) -> Result<String, String> {
    let start = split(input);
    let (found, rest) = records(&input[start..]);
    let more = found.len() + !rest.is_empty() as usize > 1;
    let refusal = reading(program, &input[..start])?;
    if more && refusal == 0 {
        return Ok("refused 12\n".into());
    }
    let text = run(program, &[], input)?;
    Ok(text.lines().filter(|l| !l.starts_with('#')).map(|l| format!("{l}\n")).collect())
}

/// The answers to a file's requests, over one pruner; nothing if reading refuses the module.
pub fn answers(program: &str, buffer: u32, bytes: &[u8]) -> Result<Option<Vec<Answer>>, String> {
    let module = &bytes[..split(bytes)];
    if reading(program, module)? != 0 {
        return Ok(None);
    }
    let buffer = buffer.to_string();
    let text = run(program, &["--totals", "--marks", "--visits", "--why", "--buffer", &buffer], bytes)?;
    parse(&text).map(Some).ok_or_else(|| format!("an answer of another form:\n{text}"))
}

fn parse(text: &str) -> Option<Vec<Answer>> {
    let mut found = Vec::new();
    let mut answer = Answer::default();
    let mut totals = false;
    for line in text.lines() {
        match line {
            "totals" => totals = true,
            "end" => {
                totals = false;
                found.push(std::mem::take(&mut answer));
            }
            _ if totals => add(&mut answer.totals, line),
            _ => match line.strip_prefix("# ") {
                Some(note) => parse_note(note, &mut answer)?,
                None => add(&mut answer.report, line),
            },
        }
        if let Some(number) = line.strip_prefix("refused ") {
            answer.refusal = number.parse().ok()?;
        }
    }
    Some(found)
}

fn add(text: &mut String, line: &str) {
    text.push_str(line);
    text.push('\n');
}

fn parse_note(note: &str, answer: &mut Answer) -> Option<()> {
    if let Some(marks) = note.strip_prefix("marks") {
        answer.marks = marks.bytes().filter(u8::is_ascii_digit).map(|b| b - b'0').collect();
        return Some(());
    }
    if note.starts_with("fn ") {
        let words: Vec<&str> = note.split(' ').take(4).collect();
        let number = |n: usize| words.get(n)?.parse::<u16>().ok();
        answer.place = Some(Place { statement: words.get(2)? == &"stmt", function: number(1)?, number: number(3)? });
    }
    if answer.refusal == 13 {
        answer.panic = note.split_once('(').and_then(|n| n.1.rsplit_once(" @")).map_or("", |n| n.0).to_string();
    }
    let counts = note.strip_prefix("visits ").or_else(|| note.rsplit_once(" visits ").map(|n| n.1))?;
    let words: Vec<&str> = counts.split(' ').collect();
    answer.visits = words.first()?.parse().ok()?;
    answer.turns = words.get(2)?.parse().ok()?;
    if answer.refusal == 0 {
        answer.longest = words.get(4)?.parse().ok()?;
        answer.peak = words.last()?.parse().ok()?;
    }
    Some(())
}

#[cfg(test)]
mod tests {
    use super::*;

    #[test]
    fn files_are_told_apart() {
        let texts = by_file("== a/0\nrefused 2\n# at byte 0\n== a/1\nrefused 12\ntotals\nend\n");
        let found: Vec<Outcome> = texts.iter().map(|t| outcome(t).unwrap()).collect();
        let malformed = Answer { refusal: 12, report: "refused 12\n".into(), ..Answer::default() };
        assert_eq!(found, [Outcome::Refused(2), Outcome::Answers(vec![malformed])]);
    }

    #[test]
    fn answers_are_taken_apart() {
        let text = "required yes\nretval all\n# visits 33 turns 2 max 1 peak pieces 29\n# marks 101/ 11/\ntotals\nglobal 0 all\nend\n\
                    refused 13\n# fn 1 expr 4 (not visits 9 @12) visits 7 turns 0 pieces held 1 records 6 totals 0; open: fn 0 stmt 4\ntotals\nend\n";
        let found = parse(text).unwrap();
        assert_eq!(found.len(), 2);
        assert_eq!((found[0].visits, found[0].turns, found[0].longest, found[0].peak), (33, 2, 1, 29));
        assert_eq!(found[0].marks, [1, 0, 1, 1, 1]);
        assert_eq!(found[0].totals, "global 0 all\n");
        assert_eq!((found[1].refusal, found[1].visits), (13, 7));
        assert_eq!(found[1].panic, "not visits 9");
        assert_eq!(found[1].place, Some(Place { statement: false, function: 1, number: 4 }));
    }
}
