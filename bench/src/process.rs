//! Both programs as whole processes: from the start until the text is read and the process has ended.
use crate::measure::{interleave, Effort, Pair};
use crate::scratch::Scratch;
use bench::files;
use std::fs::File;
use std::io::Read;
use std::path::Path;
use std::process::{Command, Stdio};
use std::time::Instant;

pub struct Programs {
    custody: String,
    releases: String,
    fast: String,
    scratch: Scratch,
}

impl Programs {
    pub fn new(custody: &str, releases: &str, fast: &str, scratch: Scratch) -> Programs {
        Programs {
            custody: custody.to_string(),
            releases: releases.to_string(),
            fast: fast.to_string(),
            scratch,
        }
    }

    /// Holds every run to the text.
    pub fn measure(&self, file: &files::File, text: &[u8], effort: Effort) -> Pair {
        let input = self.scratch.write(&file.bytes);
        let timed = |program: &str| {
            let (out, time) = run(program, &input);
            assert!(
                out == text,
                "{program} prints another text for {}",
                file.name
            );
            time
        };
        interleave(effort, || timed(&self.custody), || timed(&self.fast))
    }

    /// The release list beside the run's text; holds every list to the one given.
    pub fn measure_list(&self, file: &files::File, list: &[u8], effort: Effort) -> Pair {
        let input = self.scratch.write(&file.bytes);
        let listed = || {
            let (out, time) = run(&self.releases, &input);
            assert!(out == list, "another list for {}", file.name);
            time
        };
        interleave(effort, listed, || run(&self.custody, &input).1)
    }
}

/// The text, and the time in nanoseconds.
fn run(program: &str, input: &Path) -> (Vec<u8>, f64) {
    let stdin = File::open(input).expect("the run file was written");
    let mut out = Vec::new();
    let start = Instant::now();
    let mut child = Command::new(program)
        .stdin(stdin)
        .stdout(Stdio::piped())
        .spawn()
        .unwrap_or_else(|error| panic!("cannot start {program}: {error}"));
    let mut stdout = child.stdout.take().expect("a pipe");
    stdout.read_to_end(&mut out).expect("the pipe can be read");
    let status = child.wait().expect("the process ends");
    let time = start.elapsed().as_nanos() as f64;
    assert!(status.success(), "{program} failed");
    (out, time)
}
