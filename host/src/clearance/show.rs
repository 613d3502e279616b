//! A verdict in the listing's words: what is not judged, each mark that is missing, and what the context lacks.
use super::authors::{Asked, Report};
use super::function::{Expression, Statement};
use super::judged::Item;
use super::verdict::{Judgement, Missing, Verdict};
use crate::checks::Case;
use crate::library;
use crate::list::list;
use crate::record::split;
use crate::report_text::{self, Fault};

/// On a file's first request with the library's own report.
pub fn own(file: &[u8]) -> Result<String, String> {
    let asked = Asked::of(file).ok_or("the file has no module and request that fit")?;
    let report = library::with_stack(|| asked.of_walk())?.ok_or("the library refuses the request")?;
    shown(&asked, &report)
}

/// On a report from anyone: of the request that it names, or of the file's first.
pub fn given(file: &[u8], text: &str) -> Result<String, String> {
    let at = |f: Fault| format!("line {}: {}", f.line, f.reason);
    let asked = match report_text::request(text).map_err(at)? {
        Some(request) => Asked::asking(&file[..split(file)], request)?,
        None => Asked::of(file).ok_or("the report names no request, and the file has none that fits")?,
    };
    shown(&asked, &report_text::parse(text, &asked).map_err(at)?)
}

fn shown(asked: &Asked, report: &Report) -> Result<String, String> {
    let function = &asked.outline.functions[asked.request.function as usize];
    if !report.context.fits(&asked.outline, function) {
        return Err("the context names what the function has not, or a part past the limits".into());
    }
    let (judgement, word) = library::with_stack(|| (asked.judge(report), Case::of(asked, report).check()));
    let found = Verdict::of_word(word?).ok_or("the library gives no answer")?;
    if found == judgement.verdict {
        return Ok(lines(asked, &judgement));
    }
    if found == Verdict::Refused(26) {
        return Ok(lines(asked, &found.into()));
    }
    Err(format!("the library answers {found}, this program's own clearance {}", judgement.verdict))
}

/// The verdict as a report's last line has it; then for each thing that is missing the listing's line, and why.
fn lines(asked: &Asked, judgement: &Judgement) -> String {
    let mut text = format!("check {}\n", judgement.verdict);
    let unjudged = |statement, expression, reason: &str| Missing { statement, expression, reason: reason.into() };
    match judgement.verdict {
        Verdict::Unjudged(Item::Expression(e)) => text += &words(asked, &unjudged(None, Some(e), unjudged_expression(asked, e))),
        Verdict::Unjudged(Item::Statement(s)) => text += &words(asked, &unjudged(Some(s), None, unjudged_statement(asked, s))),
        Verdict::Refused(number) => text += &format!("{}\n", refused(number)),
        _ => {}
    }
    judgement.missing.iter().for_each(|missing| text += &words(asked, missing));
    text
}

/// The listing's lines, and below them the reason.
fn words(asked: &Asked, missing: &Missing) -> String {
    let starts = [missing.statement.map(|s| format!("stmt {s}:")), missing.expression.map(|e| format!("expr {e}:"))];
    let named: Vec<String> = starts.into_iter().flatten().map(|start| line(asked, &start)).collect();
    let indent = if named.is_empty() { "" } else { "  " };
    format!("{}{indent}{}\n", named.concat(), missing.reason)
}

fn unjudged_expression(asked: &Asked, e: usize) -> &'static str {
    match asked.function().expressions[e] {
        Expression::Other => "expressions of this kind are not judged",
        _ => "its types do not fit, or a pointer serves for a value",
    }
}

fn unjudged_statement(asked: &Asked, s: usize) -> &'static str {
    match asked.function().statements[s] {
        Statement::Other => "statements of this kind are not judged",
        Statement::Break | Statement::Continue => "it has no target, or leaves a continuing block",
        _ => "its types do not fit, a pointer serves for a value, or it leaves a continuing block",
    }
}

fn refused(number: u32) -> &'static str {
    match number {
        15 => "a need is deeper than 8, or has more than 16 entries at one depth",
        16 => "the needs at one point have more than 8,192 pieces",
        _ => "the needs do not settle in the memory and time that they are given",
    }
}

/// The asked function's line in the listing that starts so.
fn line(asked: &Asked, start: &str) -> String {
    let listing = list(&asked.bytes);
    let function = format!("fn {}:", asked.request.function);
    let lines = listing.lines().map(str::trim).skip_while(|l| !l.starts_with(&function));
    let found = lines.skip(1).take_while(|l| !l.starts_with("fn ")).find(|l| l.starts_with(start));
    format!("{}\n", found.unwrap_or(start))
}
