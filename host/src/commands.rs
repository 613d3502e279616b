//! The commands: each reads its files, does one thing and says what went wrong.
use crate::checks::{self, listed};
use crate::clearance::{campaign, show};
use crate::lent::Lent;
use crate::measured::{self, File};
use crate::stored::{Reading, Requests, Source};
use crate::{assemble, bench, bindings, bindings_list, check, compare, count, form, library, limits, list, model, requests, store};
use std::cell::RefCell;

const USAGE: &str = "\
host assemble [--any] LISTING OUT   a listing to a file; --any: also one that reading would refuse
host list FILE                      a file as a listing, with a message if reading would refuse it
host kinds                          every record and kind of a listing, with its operands
host generate N SEED                a casting model of N statements, as a listing
host stored reading ORACLE OUT SOURCE...    stored lists, from files and folders of files (.bin) and listings (.txt);
host stored requests ORACLE OUT SOURCE...   ORACLE is the oracle's program, or the folder that has it
host stored report ORACLE OUT SOURCE...
host stored bindings ORACLE OUT SOURCE...
host stored clearance OUT                   reports and contexts with the answers of this program's own clearance
host stored count READING REQUESTS          a table of what the two lists reach
host compare reading ORACLE SEED COUNT SOURCE...    the library against the oracle: the sources' modules and damaged copies of them
host compare bindings ORACLE SEED COUNT SOURCE...   the same for the operations on bindings, asked anew of the sources' modules
host compare requests ORACLE SEED COUNT SOURCE...   the same for requests: the sources, varied, damaged and generated modules, asked anew
host compare clearance SEED COUNT [FOLDER]    the library's check of reports against this program's own clearance; FOLDER: for differences
host check FILE REPORT       what is missing in a report from anyone on the file's module (REPORT: text, README.md)
host clearance FILE          the verdict on the file's first request with the library's own report, by this program's own clearance
host runs SEED COUNT         generated models with reports by several authors: the verdicts, and at least COUNT pairs of runs on what is cleared
host bench check            the library's check of reports timed: of models beside their walk, and on the worst inputs
host bench BENCH FILE...    the library's requests timed against the original's (BENCH: its program for timing, or the folder that has it); without FILE, on our own
";

pub fn run(words: &[&str]) -> Result<(), String> {
    match *words {
        ["assemble", "--any", listing, out] => assemble_file(listing, out, true),
        ["assemble", listing, out] => assemble_file(listing, out, false),
        ["list", file] => list_file(file),
        ["kinds"] => print(&form::kinds()),
        ["generate", statements, seed] => generate(statements, seed),
        ["stored", "reading", oracle, out, ref sources @ ..] => store_list(store::reading, oracle, out, sources),
        ["stored", "requests", oracle, out, ref sources @ ..] => store_list(store::requests, oracle, out, sources),
        ["stored", "report", oracle, out, ref sources @ ..] => store_list(store::report, oracle, out, sources),
        ["stored", "bindings", oracle, out, ref sources @ ..] => store_list(bindings_list::list, oracle, out, sources),
        ["stored", "clearance", out] => write(out, &library::with_stack(listed::list)?),
        ["stored", "count", reading, requests] => count_lists(reading, requests),
        ["compare", "reading", oracle, seed, count, ref sources @ ..] => compare_reading(oracle, seed, count, sources),
        ["compare", "bindings", oracle, seed, count, ref sources @ ..] => compare_bindings(oracle, seed, count, sources),
        ["compare", "requests", oracle, seed, count, ref sources @ ..] => compare_requests(oracle, seed, count, sources),
        ["compare", "clearance", seed, count] => compare_clearance(seed, count, "."),
        ["compare", "clearance", seed, count, folder] => compare_clearance(seed, count, folder),
        ["clearance", file] => print(&show::own(&read(file)?).map_err(|reason| format!("{file}: {reason}"))?),
        ["check", file, report] => check_report(file, report),
        ["runs", seed, count] => compare_runs(seed, count),
        ["bench", "check"] => measure_checks(),
        ["bench", bench, ref files @ ..] => measure(bench, files),
        _ => Err(USAGE.into()),
    }
}

fn read(path: &str) -> Result<Vec<u8>, String> {
    std::fs::read(path).map_err(|e| format!("{path}: {e}"))
}

fn write(path: &str, bytes: &[u8]) -> Result<(), String> {
    std::fs::write(path, bytes).map_err(|e| format!("{path}: {e}"))
}

fn print(text: &str) -> Result<(), String> {
    use std::io::Write;
    std::io::stdout().write_all(text.as_bytes()).map_err(|e| format!("standard output: {e}"))
}

fn assemble_file(listing: &str, out: &str, any: bool) -> Result<(), String> {
    let text = String::from_utf8_lossy(&read(listing)?).into_owned();
    let made = assemble::assemble(&text).map_err(|f| format!("{listing}:{}: {}", f.line, f.reason))?;
    let checked = check::file(&made.bytes).map_err(|r| format!("{listing}:{}: refused {}: {}", made.line(r.at), r.number, r.reason));
    if any || checked.is_ok() {
        write(out, &made.bytes)?;
    }
    if any {
        Ok(())
    } else {
        checked
    }
}

fn list_file(file: &str) -> Result<(), String> {
    let bytes = read(file)?;
    print(&list::list(&bytes))?;
    check::file(&bytes).map_err(|r| format!("{file}: byte {}: refused {}: {}", r.at, r.number, r.reason))
}

type Store = fn(&str, &[Vec<u8>]) -> Result<Vec<u8>, String>;

/// The program itself, or the one of that name in a folder.
fn program(path: &str, name: &str) -> String {
    if std::path::Path::new(path).is_dir() {
        format!("{path}/{name}")
    } else {
        path.into()
    }
}

fn store_list(make: Store, oracle: &str, out: &str, sources: &[&str]) -> Result<(), String> {
    write(out, &make(&program(oracle, "oracle"), &store::sources(sources)?)?)
}

fn count_lists(reading: &str, requests: &str) -> Result<(), String> {
    let damaged = |path: &str| format!("{path}: not a stored list");
    let readings = Source(&read(reading)?).all(Reading::read).ok_or_else(|| damaged(reading))?;
    let asked = Source(&read(requests)?).all(Requests::read).ok_or_else(|| damaged(requests))?;
    print(&count::table(&readings, &asked))
}

fn number<T: std::str::FromStr>(word: &str) -> Result<T, String> {
    word.parse().map_err(|_| format!("'{word}' is no number"))
}

fn compare_reading(oracle: &str, seed: &str, count: &str, sources: &[&str]) -> Result<(), String> {
    let counts = compare::reading(&program(oracle, "oracle"), number(seed)?, number(count)?, &store::sources(sources)?)?;
    print(&count::lines(&counts))
}

fn compare_bindings(oracle: &str, seed: &str, count: &str, sources: &[&str]) -> Result<(), String> {
    let reached = bindings::compare(&program(oracle, "oracle"), number(seed)?, number(count)?, &store::sources(sources)?)?;
    print(&reached.iter().map(|(name, count)| format!("{name}: {count}\n")).collect::<String>())
}

fn compare_requests(oracle: &str, seed: &str, count: &str, sources: &[&str]) -> Result<(), String> {
    let start = std::time::Instant::now();
    let reached = requests::compare(&program(oracle, "oracle"), number(seed)?, number(count)?, &store::sources(sources)?)?;
    print(&format!("seed: {seed}\nseconds: {}\n{}", start.elapsed().as_secs(), reached.lines()))
}

fn check_report(file: &str, report: &str) -> Result<(), String> {
    let text = String::from_utf8_lossy(&read(report)?).into_owned();
    let bytes = if file.ends_with(".txt") { store::sources(&[file])?.concat() } else { read(file)? };
    print(&show::given(&bytes, &text).map_err(|reason| format!("{report}: {reason}"))?)
}

fn compare_clearance(seed: &str, count: &str, folder: &str) -> Result<(), String> {
    let (seed, count) = (number(seed)?, number(count)?);
    print(&library::with_stack(|| checks::compare::compare(seed, count, folder.as_ref(), &checks::Case::check))?)
}

fn measure_checks() -> Result<(), String> {
    let tables = library::with_stack(|| {
        let lent = RefCell::new(Lent::with_report(limits::REPORT));
        checks::timed::timed(&checks::Case::check, &|asked| checks::timed::walk(&mut lent.borrow_mut(), asked))
    });
    print(&tables?)
}

fn compare_runs(seed: &str, count: &str) -> Result<(), String> {
    let (seed, count) = (number(seed)?, number(count)?);
    print(&library::with_stack(|| campaign::run(seed, count))?)
}

fn measure(bench: &str, paths: &[&str]) -> Result<(), String> {
    let mut files = if paths.is_empty() { measured::files()? } else { Vec::new() };
    for path in paths {
        files.extend(store::sources(&[path])?.into_iter().map(|bytes| File { name: path.to_string(), bytes }));
    }
    print(&bench::bench(&program(bench, "bench"), &files)?)
}

fn generate(statements: &str, seed: &str) -> Result<(), String> {
    let (count, number): (usize, u64) = (number(statements)?, number(seed)?);
    let bytes = model::generate(count, number)?;
    print(&format!("# host generate {count} {number}\n{}", list::list(&bytes)))
}
