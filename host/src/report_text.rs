//! A report from anyone as text: the lines that the program `report` prints, and which request is meant. README.md has the form.
use crate::clearance::authors::{Asked, Report};
use crate::context::Context;
use crate::outline::Function;
use crate::part::{ascending, Part, Parts};
use crate::request::Request;

/// What is wrong with a line, which is counted from 1 on.
#[derive(Clone, PartialEq, Eq, Debug)]
pub struct Fault {
    pub line: usize,
    pub reason: String,
}

type Words<'a> = (usize, Vec<&'a str>);

/// The lines' words; comments and empty lines are left out.
fn lines(text: &str) -> impl Iterator<Item = Words<'_>> {
    text.lines().enumerate().map(split).filter(|(_, words)| !words.is_empty())
}

fn split((n, line): (usize, &str)) -> Words<'_> {
    (n + 1, line.split('#').next().unwrap_or("").split_whitespace().collect())
}

/// The request that a report names, as a listing has it; nothing if it names none.
pub fn request(text: &str) -> Result<Option<Request>, Fault> {
    let mut found = None;
    for (line, words) in lines(text).filter(|(_, words)| words[0] == "request") {
        let asked = words[1..].iter().skip(usize::from(words.get(1).is_some_and(|w| w.ends_with(':'))));
        let request = Request::parse(&asked.copied().collect::<Vec<_>>().join(" ")).map_err(|reason| Fault { line, reason })?;
        if found.replace(request).is_some() {
            return Err(Fault { line, reason: "a second request".into() });
        }
    }
    Ok(found)
}

/// Marks and input context. A statement without a line has no mark.
pub fn parse(text: &str, asked: &Asked) -> Result<Report, Fault> {
    let number = asked.request.function as usize;
    let mut marks = vec![0; asked.outline.marks()];
    let own = &mut marks[asked.outline.stretch(number)];
    let mut context = Context { retval: Part::None, globals: Vec::new(), arguments: Vec::new(), locals: Vec::new() };
    for (line, words) in lines(text) {
        let read = match words[0] {
            "request" | "required" | "expr" | "check" => Ok(()),
            "retval" => part(words.get(1)).map(|p| context.retval = p),
            "global" => entry(&words, &mut context.globals),
            "arg" => entry(&words, &mut context.arguments),
            "local" => entry(&words, &mut context.locals),
            "stmt" => statement(&words, &asked.outline.functions[number], own),
            other => Err(format!("'{other}' begins no line of a report")),
        };
        read.map_err(|reason| Fault { line, reason })?;
    }
    Ok(Report { marks, context })
}

fn part(word: Option<&&str>) -> Result<Part, String> {
    Part::parse(word.ok_or("a part is missing")?)
}

fn number(word: Option<&&str>) -> Result<u16, String> {
    let word = word.ok_or("a number is missing")?;
    word.parse().map_err(|_| format!("'{word}' is no number"))
}

/// `arg 0 {1:all}`
fn entry(words: &[&str], parts: &mut Parts) -> Result<(), String> {
    parts.push((number(words.get(1))?, part(words.get(2))?));
    ascending(parts).map_or(Ok(()), Err)
}

/// `stmt 1 emit yes no`
fn statement(words: &[&str], function: &Function, marks: &mut [u8]) -> Result<(), String> {
    let n = usize::from(number(words.get(1))?);
    let statement = function.statements.get(n).ok_or_else(|| format!("there is no statement {n}"))?;
    if words.get(2) != Some(&statement.name()) {
        return Err(format!("statement {n} is a '{}'", statement.name()));
    }
    let given = &words[3..];
    if given.len() != statement.marks() {
        return Err(format!("statement {n} has {} marks, not {}", statement.marks(), given.len()));
    }
    let start: usize = function.statements[..n].iter().map(|s| s.marks()).sum();
    for (mark, word) in marks[start..].iter_mut().zip(given) {
        *mark = match *word {
            "yes" => 1,
            "no" => 0,
            other => return Err(format!("'{other}' is neither yes nor no")),
        };
    }
    Ok(())
}

/// A report's text.
pub fn show(asked: &Asked, report: &Report) -> String {
    let number = asked.request.function as usize;
    let marks = &report.marks[asked.outline.stretch(number)];
    format!("request {}\n{}{}", asked.request.show(), report.context.lines(), asked.outline.functions[number].lines(marks))
}

#[cfg(test)]
mod tests {
    use super::*;
    use crate::assemble::assemble;

    const MODEL: &str = "type Scalar\nglobal 0\nfn function - -\nblock\nstmt Return -\nfn function 0 -\narg 0 -\nlocal 0\n\
                         expr 0 FunctionArgument 0\nexpr 0 GlobalVariable 0\nexpr 0 Load 1\nexpr 0 Binary 0 2\nblock\nstmt Emit 2 3\n\
                         stmt Return 3\nrequest 1 all 0=exist\n";

    #[test]
    fn text_is_read_back() {
        let asked = Asked::of(&assemble(MODEL).unwrap().bytes).unwrap();
        let text = "request 1 all 0=exist\nglobal 0 all\nretval all\narg 0 {}\nlocal 0 exist\nstmt 0 emit yes no\nstmt 1 return yes\n";
        let report = parse(text, &asked).unwrap();
        assert_eq!(report.marks, [0, 1, 0, 1]);
        assert_eq!(show(&asked, &report), text);
        assert_eq!(request(text), Ok(Some(asked.request.clone())));
        assert_eq!(request("request 3: 1 all 0=exist"), Ok(Some(asked.request.clone())));
        assert_eq!(request("# nothing\n\n"), Ok(None));
        // what `report` prints besides is not looked at
        let printed = format!("required yes\n{text}expr 0 all\ncheck clear # so it says\n");
        assert_eq!(parse(&printed, &asked), Ok(report));
        assert_eq!(parse("", &asked).unwrap().marks, [0; 4]);
    }

    #[test]
    fn wrong_lines_are_named() {
        let asked = Asked::of(&assemble(MODEL).unwrap().bytes).unwrap();
        for line in [
            "args 0 all",
            "arg 0",
            "arg all",
            "arg 0 some",
            "arg 1 all\narg 0 all",
            "stmt 2 return yes",
            "stmt 0 store yes",
            "stmt 0 emit yes",
            "stmt 1 return maybe",
            "stmt",
            "retval",
        ] {
            let last = 1 + line.lines().count();
            assert_eq!(parse(&format!("global 0 all\n{line}\n"), &asked).map_err(|f| f.line), Err(last), "{line}");
        }
        assert_eq!(request("request 0 all\nrequest 0 all").map_err(|f| f.line), Err(2));
        assert_eq!(request("\nrequest all").map_err(|f| f.line), Err(2));
    }
}
