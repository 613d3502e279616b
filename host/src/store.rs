//! Makes the stored lists: cases from files and cases of our own, with the oracle's answers.
use crate::asks::{self, Asked};
use crate::assemble::assemble;
use crate::oracle;
use crate::pairs;
use crate::readings;
use crate::record::{records, split};
use crate::stored::{Reading, Report, Requests};
use std::path::{Path, PathBuf};

/// The files at these paths, a folder's in the order of their names: `.bin` as they stand, `.txt` assembled.
pub fn sources(paths: &[&str]) -> Result<Vec<Vec<u8>>, String> {
    let mut found = Vec::new();
    for path in paths {
        for file in files(Path::new(path))? {
            let bytes = std::fs::read(&file).map_err(|e| format!("{}: {e}", file.display()))?;
            match file.extension().and_then(|e| e.to_str()) {
                Some("bin") => found.push(bytes),
                Some("txt") => found.push(listing(&file, &bytes)?),
                _ => {}
            }
        }
    }
    Ok(found)
}

fn files(path: &Path) -> Result<Vec<PathBuf>, String> {
    if !path.is_dir() {
        return Ok(vec![path.to_path_buf()]);
    }
    let entries = std::fs::read_dir(path).map_err(|e| format!("{}: {e}", path.display()))?;
    let mut found: Vec<PathBuf> = entries.filter_map(|e| e.ok()).map(|e| e.path()).filter(|p| p.is_file()).collect();
    found.sort();
    Ok(found)
}

fn listing(file: &Path, bytes: &[u8]) -> Result<Vec<u8>, String> {
    let made = assemble(&String::from_utf8_lossy(bytes));
    made.map(|m| m.bytes).map_err(|f| format!("{}:{}: {}", file.display(), f.line, f.reason))
}

/// The list for reading: the sources' modules and our own strings.
pub fn reading(program: &str, sources: &[Vec<u8>]) -> Result<Vec<u8>, String> {
    let modules: Vec<Vec<u8>> = sources.iter().map(|s| s[..split(s)].to_vec()).collect();
    let mut out = Vec::new();
    for module in readings::all(&modules, 2, 1) {
        let refusal = oracle::reading(program, &module)?;
        Reading { refusal, module }.write(&mut out);
    }
    Ok(out)
}

/// The list for requests: the sources', our own and pairs at each limit, where reading accepts the module.
pub fn requests(program: &str, sources: &[Vec<u8>]) -> Result<Vec<u8>, String> {
    let given = sources.iter().flat_map(|s| asks::groups(s));
    let mut out = Vec::new();
    let pairs = pairs::all().into_iter().flat_map(|pair| [pair.within, pair.past]);
    for asked in given.chain(asks::all()).chain(pairs).chain(pairs::walks::deepest()).filter(asks::splits) {
        if let Some(case) = answered(program, asked)? {
            case.write(&mut out);
        }
    }
    Ok(out)
}

fn answered(program: &str, asked: Asked) -> Result<Option<Requests>, String> {
    let answers = oracle::answers(program, asked.buffer, &asks::joined(&asked))?;
    let Some(answers) = answers else { return Ok(None) };
    if answers.len() != asked.requests.len() {
        return Err(format!("{} answers to {} requests", answers.len(), asked.requests.len()));
    }
    let requests = asked.requests.into_iter().zip(answers).collect();
    Ok(Some(Requests { buffer: asked.buffer, module: asked.module, requests }))
}

/// The list for the program `report`: each source with its first request, without any, and whole if it has more.
pub fn report(program: &str, sources: &[Vec<u8>]) -> Result<Vec<u8>, String> {
    let mut out = Vec::new();
    for source in sources {
        let start = split(source);
        let first = records(&source[start..]).0.first().map_or(source.len(), |r| start + 4 + r.body.len());
        let mut ends = vec![start, first, source.len()];
        ends.dedup();
        for end in ends {
            let input = source[..end].to_vec();
            let output = oracle::report(program, &input)?;
            Report { input, output }.write(&mut out);
        }
    }
    Ok(out)
}
