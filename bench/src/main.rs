//! `bench CUSTODY RELEASES FAST [--quick]` compares the proved program with the fast one, in process and as whole processes, and
//! the release list with the run that it takes, and prints what it finds in Markdown. With `--quick` the files are cut short and
//! measured briefly.
mod clock;
mod machine;
mod measure;
mod process;
mod report;
mod scratch;

use bench::fast;
use bench::files::{growth, measured, File};
use measure::{interleave, sample, Effort, Pair};
use process::Programs;
use proved::Buffer;
use report::{ListRow, Row};
use scratch::Scratch;
use std::env;
use std::process::ExitCode;

/// How many steps of a file are taken in haste, once the ledger is prepared.
const QUICK_STEPS: usize = 200;

fn main() -> ExitCode {
    let (flags, names): (Vec<String>, Vec<String>) =
        env::args().skip(1).partition(|name| name.starts_with("--"));
    let [custody, releases, fast] = &names[..] else {
        eprintln!("usage: bench CUSTODY RELEASES FAST [--quick]");
        return ExitCode::FAILURE;
    };
    if flags.iter().any(|flag| flag != "--quick") {
        eprintln!("the only flag is --quick");
        return ExitCode::FAILURE;
    }
    let programs = Programs::new(custody, releases, fast, Scratch::new());
    compare(&programs, !flags.is_empty());
    ExitCode::SUCCESS
}

fn compare(programs: &Programs, quick: bool) {
    machine::print_header();
    if quick {
        println!(
            "Files are cut {QUICK_STEPS} steps after their preparation and measured briefly.\n"
        );
    }
    let shorten = |file: File| {
        if quick {
            let steps = file.preparation + QUICK_STEPS;
            file.cut(steps)
        } else {
            file
        }
    };
    let rows: Vec<Row> = measured()
        .into_iter()
        .map(|file| measure_file(programs, shorten(file), quick))
        .collect();
    report::print_files(&rows);
    let rows: Vec<Row> = growth()
        .into_iter()
        .map(|file| measure_growth(programs, shorten(file), quick))
        .collect();
    report::print_growth(&rows);
    let rows: Vec<ListRow> = measured()
        .into_iter()
        .map(|file| measure_list(programs, shorten(file), quick))
        .collect();
    report::print_lists(&rows);
}

fn measure_file(programs: &Programs, file: File, quick: bool) -> Row {
    let (text, in_process) = run_in_process(&file, Effort::in_process(quick));
    let whole = programs.measure(&file, &text, Effort::processes(quick));
    Row {
        file,
        in_process,
        whole: Some(whole),
    }
}

/// Whole processes are held to the text here, but not measured.
fn measure_growth(programs: &Programs, file: File, quick: bool) -> Row {
    let (text, in_process) = run_in_process(&file, Effort::growth(quick));
    programs.measure(&file, &text, Effort::once());
    Row {
        file,
        in_process,
        whole: None,
    }
}

/// The text and the times of both programs in this process.
fn run_in_process(file: &File, effort: Effort) -> (Vec<u8>, Pair) {
    let input = &file.bytes[..];
    let mut proved = Buffer::default();
    let mut fast_out = Vec::new();
    let mut runs = (0, 0);
    let pair = interleave(
        effort,
        || sample(&mut runs.0, || drop(proved.text(input))),
        || sample(&mut runs.1, || fast::run(input, &mut fast_out)),
    );
    assert!(
        proved.text(input) == Ok(&fast_out[..]),
        "the texts of {} differ in process",
        file.name
    );
    (fast_out, pair)
}

/// The release list beside the run's text, both by the proved programs.
fn measure_list(programs: &Programs, file: File, quick: bool) -> ListRow {
    let input = &file.bytes[..];
    let (mut text, mut list) = (Buffer::default(), Buffer::default());
    let mut runs = (0, 0);
    let in_process = interleave(
        Effort::in_process(quick),
        || sample(&mut runs.0, || drop(list.releases(input))),
        || sample(&mut runs.1, || drop(text.text(input))),
    );
    let printed = list.releases(input).expect("a list").to_vec();
    let lines = printed.iter().filter(|byte| **byte == b'\n').count();
    let whole = programs.measure_list(&file, &printed, Effort::processes(quick));
    ListRow {
        file,
        tapes: lines - 1,
        in_process,
        whole,
    }
}
