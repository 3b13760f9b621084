//! `file NAME` writes one of the measured files to standard output, for a profiler to feed on.
use bench::files::{growth, measured};
use std::env;
use std::io::{self, Write};
use std::process::ExitCode;

fn main() -> ExitCode {
    let name = env::args().nth(1).unwrap_or_default();
    let files: Vec<_> = measured().into_iter().chain(growth()).collect();
    let Some(file) = files.iter().find(|file| file.name == name) else {
        let names: Vec<&str> = files.iter().map(|file| file.name.as_str()).collect();
        eprintln!("usage: file NAME, where NAME is one of {}", names.join(" "));
        return ExitCode::FAILURE;
    };
    match io::stdout().write_all(&file.bytes) {
        Ok(()) => ExitCode::SUCCESS,
        Err(_) => ExitCode::FAILURE,
    }
}
