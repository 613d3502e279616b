//! Times the library's requests against the original's, on the same files, where both give the same answer.
use crate::lent::Lent;
use crate::library::{self, Reply};
use crate::limits;
use crate::measured::File;
use crate::outline::Outline;
use crate::record::{records, split};
use std::path::Path;
use std::process::Command;
use std::time::Instant;

/// Runs of the original's program, for the time of its reading, which each run takes once.
const RUNS: usize = 3;
/// Visits that one figure is measured over, and the fewest and the most repetitions.
const VISITS: usize = 2_000_000;
const REPEATS: (usize, usize) = (11, 1001);

/// Medians, in nanoseconds.
struct Figures {
    statements: usize,
    visits: usize,
    original_walk: u128,
    original_read: u128,
    library_request: u128,
    library_read: u128,
}

pub fn bench(program: &str, files: &[File]) -> Result<String, String> {
    let folder = std::env::temp_dir().join(format!("host-bench-{}", std::process::id()));
    std::fs::create_dir_all(&folder).map_err(|e| format!("{}: {e}", folder.display()))?;
    let mut text = String::from(HEAD);
    for file in files {
        let path = folder.join("file.bin");
        std::fs::write(&path, &file.bytes).map_err(|e| format!("{}: {e}", path.display()))?;
        let figures = library::with_stack(|| measure(program, &path, &file.bytes)).map_err(|e| format!("{}: {e}", file.name))?;
        text += &row(&file.name, &figures);
        eprint!("{}", row(&file.name, &figures));
    }
    std::fs::remove_dir_all(&folder).map_err(|e| format!("{}: {e}", folder.display()))?;
    Ok(text)
}

const HEAD: &str = "\
| file | statements | visits | original, walk | library, request less reading | ratio | original, with reading | library, request | ratio | \
library, reading alone | original, a visit | library, a visit |\n|---|---|---|---|---|---|---|---|---|---|---|---|\n";

fn row(name: &str, f: &Figures) -> String {
    let (whole, walk) = (f.original_walk + f.original_read, f.library_request.saturating_sub(f.library_read));
    let each = |time: u128| format!("{} ns", time / f.visits as u128);
    let ratio = |a: u128, b: u128| format!("{:.2}", a as f64 / b as f64);
    let cells = [
        name.to_string(),
        f.statements.to_string(),
        f.visits.to_string(),
        micro(f.original_walk),
        micro(walk),
        ratio(walk, f.original_walk),
        micro(whole),
        micro(f.library_request),
        ratio(f.library_request, whole),
        micro(f.library_read),
        each(f.original_walk),
        each(walk),
    ];
    format!("| {} |\n", cells.join(" | "))
}

fn micro(nanoseconds: u128) -> String {
    format!("{:.1} µs", nanoseconds as f64 / 1000.0)
}

fn measure(program: &str, path: &Path, file: &[u8]) -> Result<Figures, String> {
    let (module, rest) = file.split_at(split(file));
    let request = records(rest).0.first().map(|r| &rest[r.at..r.at + 4 + r.body.len()]).ok_or("no request")?;
    let visits = same_answer(program, path, module, request)?;
    let repeats = (VISITS / visits).clamp(REPEATS.0, REPEATS.1);
    let (original_walk, original_read) = original(program, path, repeats)?;
    Ok(Figures {
        statements: Outline::of(module).functions.iter().map(|f| f.statements.len()).sum(),
        visits,
        original_walk,
        original_read,
        library_request: requests(module, request, repeats),
        library_read: readings(module, repeats),
    })
}

/// The visits, if the original gives the same answer: required, context, records.
fn same_answer(program: &str, path: &Path, module: &[u8], request: &[u8]) -> Result<usize, String> {
    let mut lent = Lent::with_report(limits::REPORT);
    let served = lent.serve(module, &Outline::of(module), request)?;
    let (Reply::Visited(visits), Some(written)) = (served.reply, &served.written) else {
        return Err(format!("no report: {:?}", served.reply));
    };
    let text = run(program, &["--repeat", "1", "--answer"], path)?;
    let answer = text.split_once('\n').map_or("", |t| t.1);
    if answer != written.reported.lines() {
        return Err(format!("the original answers\n{answer}\nthe library\n{}", written.reported.lines()));
    }
    Ok(visits as usize)
}

fn run(program: &str, options: &[&str], path: &Path) -> Result<String, String> {
    let done = Command::new(program).args(options).arg(path).output().map_err(|e| format!("{program}: {e}"))?;
    String::from_utf8(done.stdout).map_err(|e| format!("{program}: {e}"))
}

/// The medians of the original's walk and of its reading.
fn original(program: &str, path: &Path, repeats: usize) -> Result<(u128, u128), String> {
    let (mut walks, mut reads) = (Vec::new(), Vec::new());
    for _ in 0..RUNS {
        let text = run(program, &["--repeat", &repeats.to_string()], path)?;
        let words: Vec<&str> = text.split_whitespace().collect();
        let after = |name: &str| words.iter().position(|w| *w == name).and_then(|at| words.get(at + 1)?.parse::<u128>().ok());
        let (Some(walk), Some(read)) = (after("median_ns"), after("read_ns")) else { return Err(text) };
        walks.push(walk);
        reads.push(read);
    }
    Ok((median(walks), median(reads)))
}

/// The library's whole call: it always reads the module, and writes its answer.
fn requests(module: &[u8], request: &[u8], repeats: usize) -> u128 {
    let mut lent = Lent::with_report(limits::REPORT);
    let mut times = Vec::new();
    for _ in 0..repeats {
        lent.pruner.lent()[..2].fill(0);
        let start = Instant::now();
        let reply = library::request(module, request, lent.pruner.lent(), lent.report.lent(), lent.answer.lent());
        times.push(start.elapsed().as_nanos());
        std::hint::black_box(reply);
    }
    median(times)
}

fn readings(module: &[u8], repeats: usize) -> u128 {
    let mut times = Vec::new();
    for _ in 0..repeats {
        let start = Instant::now();
        std::hint::black_box(library::read(module));
        times.push(start.elapsed().as_nanos());
    }
    median(times)
}

fn median(mut times: Vec<u128>) -> u128 {
    times.sort_unstable();
    times[times.len() / 2]
}
