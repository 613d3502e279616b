//! Compares the library's answers with the oracle's, on cases that are made anew.
use crate::count::Counts;
use crate::damage::damaged;
use crate::oracle;
use crate::random::Random;
use crate::record::split;
use crate::stored::Reading;
use crate::{library, limits, list};

/// How many cases the oracle is asked at once.
const BATCH: usize = 500;

/// Reads `count` modules: those of the sources, each once, then damaged copies of them.
pub fn reading(program: &str, seed: u64, count: usize, sources: &[Vec<u8>]) -> Result<Counts, String> {
    let mut random = Random::new(seed);
    let modules: Vec<Vec<u8>> = sources.iter().map(|s| s[..split(s)].to_vec()).collect();
    if modules.is_empty() {
        return Err("no source".into());
    }
    let mut counts = Counts::default();
    let mut done = 0;
    while done < count {
        let cases: Vec<Vec<u8>> = (done..count.min(done + BATCH)).map(|n| case(&modules, n, &mut random)).collect();
        done += cases.len();
        for (module, refusal) in cases.iter().zip(oracle::readings(program, &cases)?) {
            same(module, refusal, library::read(module))?;
            counts.reading(&Reading { refusal, module: module.clone() });
        }
        eprint!("\r{done} of {count}");
    }
    eprintln!();
    Ok(counts)
}

fn case(modules: &[Vec<u8>], n: usize, random: &mut Random) -> Vec<u8> {
    if let Some(module) = modules.get(n) {
        return module.clone();
    }
    let module = random.pick(modules);
    if random.below(200) == 0 {
        return longest(module, random);
    }
    damaged(module, random)
}

/// A module with types more, up to a file's greatest length, or past it.
pub fn longest(module: &[u8], random: &mut Random) -> Vec<u8> {
    let length = limits::BYTES - 1 + random.below(3);
    let mut bytes = b"TY\x02\0\0\0".repeat(length / 6);
    bytes.truncate(length.saturating_sub(module.len()));
    bytes.extend(module);
    bytes
}

fn same(module: &[u8], oracle: u16, library: u32) -> Result<(), String> {
    if u32::from(oracle) == library {
        return Ok(());
    }
    Err(format!("the oracle answers {oracle}, the library {library}:\n{}", list::list(module)))
}
