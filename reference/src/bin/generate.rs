//! Writes a run file to standard output: `generate SEED` a generated one,
//! `generate whole` document 01's whole run, `generate whole AT VALUE` that
//! with one byte changed, `generate pack COUNT` the files of all the seeds
//! below COUNT, each with its length before it.

use reference::{generate, whole_run};
use std::io::{self, Write};

fn wanted(words: &[&str]) -> Option<Vec<u8>> {
    match words {
        ["whole"] => Some(whole_run()),
        ["whole", at, value] => {
            let mut file = whole_run();
            let at: usize = at.parse().ok()?;
            *file.get_mut(at)? = value.parse().ok()?;
            Some(file)
        }
        ["pack", count] => Some(pack(count.parse().ok()?)),
        [seed] => Some(generate::file(seed.parse().ok()?)),
        _ => None,
    }
}

fn pack(count: u64) -> Vec<u8> {
    let mut pack = Vec::new();
    for seed in 0..count {
        let file = generate::file(seed);
        pack.extend((file.len() as u64).to_le_bytes());
        pack.extend(file);
    }
    pack
}

fn main() -> io::Result<()> {
    let arguments: Vec<String> = std::env::args().skip(1).collect();
    let words: Vec<&str> = arguments.iter().map(String::as_str).collect();
    let Some(file) = wanted(&words) else {
        eprintln!("usage: generate SEED | whole | whole AT VALUE | pack COUNT");
        std::process::exit(2);
    };
    io::stdout().write_all(&file)
}
