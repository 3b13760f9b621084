//! Compares the reference with the proved programs, linked in and as
//! executables: `compare CUSTODY RELEASES [COUNT [FIRST_SEED]]`.

mod case;
mod process;
mod room;
mod tally;

use case::Case;
use proved::Buffer;
use reference::edges;
use reference::releases;
use reference::run::{print, ran, Line, Ran};
use std::panic::catch_unwind;
use std::process::ExitCode;
use std::sync::atomic::{AtomicUsize, Ordering};
use tally::Tally;

const THREADS: usize = 2;
const PROCESS_FILES: u64 = 200;

fn main() -> ExitCode {
    let arguments: Vec<String> = std::env::args().collect();
    let [_, custody, list, ..] = &arguments[..] else {
        eprintln!("usage: compare CUSTODY RELEASES [COUNT [FIRST_SEED]]");
        return ExitCode::from(2);
    };
    let programs = Programs { custody, list };
    let number = |i: usize, otherwise| match arguments.get(i) {
        Some(word) => word.parse().expect("COUNT and FIRST_SEED are numbers"),
        None => otherwise,
    };
    match compare(&programs, number(3, 4000), number(4, 0)) {
        Ok(()) => ExitCode::SUCCESS,
        Err(difference) => {
            println!("{difference}");
            ExitCode::FAILURE
        }
    }
}

/// The proved executables: that which prints a run's text, and that which prints its release list.
struct Programs<'a> {
    custody: &'a str,
    list: &'a str,
}

fn compare(programs: &Programs, count: u64, first: u64) -> Result<(), String> {
    let whole = reference::whole_run();
    room::every(&whole, reference::whole_text().as_bytes())?;

    near_each_edge(programs)?;

    let mut cases = case::seeds(first, count);
    cases.extend(case::prefixes());
    cases.extend(case::changes());
    let tally = over(&cases, &in_process)?;
    println!("in process: {} files agree", cases.len());

    let mut cases = vec![Case::Prefix(whole.len())];
    cases.extend(case::prefixes());
    cases.extend(case::seeds(first, PROCESS_FILES));
    over(&cases, &|case, _| as_process(programs, case))?;
    println!("as processes: {} files agree", cases.len());

    tally.print();
    let missing = tally.missing();
    if !missing.is_empty() {
        return Err(format!("never occurred: {}", missing.join(", ")));
    }
    Ok(())
}

/// The reference and the proved program, both ways, against texts that are worked out by hand.
fn near_each_edge(programs: &Programs) -> Result<(), String> {
    let edges = edges::all();
    let mut out = Buffer::default();
    for edge in &edges {
        let wrong = |who: &str| format!("DIFFERENCE: {}: {who} prints something else", edge.name);
        if reference::run(&edge.file) != edge.text.as_bytes() {
            return Err(wrong("the reference"));
        }
        if out.text(&edge.file)? != edge.text.as_bytes() {
            return Err(wrong("the proved library"));
        }
        room::edge(&edge.file, edge.text.as_bytes())?;
        if process::text(programs.custody, &edge.file)? != edge.text.as_bytes() {
            return Err(wrong("the proved program"));
        }
    }
    println!(
        "near the edges: {} files are answered as the documents say",
        edges.len()
    );
    Ok(())
}

/// The reference's lines and its release list.
type Printed = (Vec<Line>, Vec<u8>);

/// Compares on one case; what the reference prints if both agree.
type Comparison<'a> = dyn Fn(&Case, &mut Buffer) -> Result<Printed, String> + Sync + 'a;

/// Where in the list the cases differ, and how.
type Difference = (usize, String);

/// Goes through the cases with a few threads. The difference reported is
/// the first in the list, whichever thread meets it.
fn over(cases: &[Case], comparison: &Comparison) -> Result<Tally, String> {
    let first_wrong = AtomicUsize::new(usize::MAX);
    let first_wrong = &first_wrong;
    let results: Vec<_> = std::thread::scope(|scope| {
        let threads: Vec<_> = (0..THREADS)
            .map(|t| scope.spawn(move || share(cases, t, first_wrong, comparison)))
            .collect();
        threads.into_iter().map(|t| t.join().unwrap()).collect()
    });
    let mut tally = Tally::default();
    let mut wrong: Option<Difference> = None;
    for result in results {
        match result {
            Ok(part) => tally.add(&part),
            Err(found) => wrong = wrong.into_iter().chain([found]).min(),
        }
    }
    match wrong {
        Some((_, difference)) => Err(difference),
        None => Ok(tally),
    }
}

/// One thread's share of the cases: every second one, say.
fn share(
    cases: &[Case],
    thread: usize,
    first_wrong: &AtomicUsize,
    comparison: &Comparison,
) -> Result<Tally, Difference> {
    let mut out = Buffer::default();
    let mut tally = Tally::default();
    for i in (thread..cases.len()).step_by(THREADS) {
        if i > first_wrong.load(Ordering::Relaxed) {
            break;
        }
        let (lines, list) = comparison(&cases[i], &mut out).map_err(|difference| {
            first_wrong.fetch_min(i, Ordering::Relaxed);
            (i, difference)
        })?;
        if let Case::Seed(_) = cases[i] {
            tally.count(&lines);
            tally.count_list(&list);
        }
    }
    Ok(tally)
}

fn in_process(case: &Case, out: &mut Buffer) -> Result<Printed, String> {
    let file = case.file();
    let ran = reference_run(case, &file)?;
    let found = out.text(&file).map_err(|why| report(case, &why))?;
    agree(case, &print(&ran.lines), found)?;
    let list = releases(&ran);
    let found = out.releases(&file).map_err(|why| report(case, &why))?;
    agree(case, &list, found)?;
    Ok((ran.lines, list))
}

fn as_process(programs: &Programs, case: &Case) -> Result<Printed, String> {
    let file = case.file();
    let ran = reference_run(case, &file)?;
    let found = process::text(programs.custody, &file).map_err(|why| report(case, &why))?;
    agree(case, &print(&ran.lines), &found)?;
    let list = releases(&ran);
    let found = process::text(programs.list, &file).map_err(|why| report(case, &why))?;
    agree(case, &list, &found)?;
    Ok((ran.lines, list))
}

/// The reference's run; its register may stop it, loudly.
fn reference_run(case: &Case, file: &[u8]) -> Result<Ran, String> {
    catch_unwind(|| ran(file)).map_err(|_| report(case, "the reference stopped, see above"))
}

fn report(case: &Case, what: &str) -> String {
    let (name, command) = (case.name(), case.command());
    format!("DIFFERENCE: {name}\n{what}\nmade again by: {command}")
}

/// The texts must be the same, byte for byte.
fn agree(case: &Case, expected: &[u8], found: &[u8]) -> Result<(), String> {
    if expected == found {
        return Ok(());
    }
    let mut ours = expected.split_inclusive(|byte| *byte == b'\n');
    let mut theirs = found.split_inclusive(|byte| *byte == b'\n');
    let (a, b) = loop {
        let (a, b) = (ours.next(), theirs.next());
        if a != b {
            break (shown(a), shown(b));
        }
    };
    let what = format!("reference: {a}\nproved:    {b}");
    Err(report(case, &what))
}

fn shown(line: Option<&[u8]>) -> String {
    match line {
        Some(line) => format!("{:?}", String::from_utf8_lossy(line)),
        None => "(no line)".to_string(),
    }
}
