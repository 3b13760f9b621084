//! The tables, in Markdown.
use crate::measure::{Pair, Times};
use bench::files::File;

pub struct Row {
    pub file: File,
    pub in_process: Pair,
    pub whole: Option<Pair>,
}

/// The best and, in brackets, the median, divided.
fn cell(times: Times, divisor: f64, digits: usize) -> String {
    let (best, median) = (times.best / divisor, times.median / divisor);
    format!("{best:.digits$} ({median:.digits$})")
}

impl Row {
    /// Nanoseconds are shared out among the steps; a run without steps counts as one.
    fn per_step(&self, times: Times) -> String {
        cell(times, self.file.steps().max(1) as f64, 1)
    }

    fn in_process(&self) -> String {
        format!(
            "| {} | {} | {} | {} | {} | {:.2} |",
            self.file.name,
            self.file.bytes.len(),
            self.file.steps(),
            self.per_step(self.in_process.proved),
            self.per_step(self.in_process.fast),
            self.in_process.ratio(),
        )
    }

    fn rounds(&self) -> String {
        let whole = match &self.whole {
            Some(pair) => format!(" and {}", pair.rounds),
            None => String::new(),
        };
        format!("{} {}{whole}", self.file.name, self.in_process.rounds)
    }
}

fn print_rounds(rows: &[Row]) {
    let rounds: Vec<String> = rows.iter().map(Row::rounds).collect();
    println!(
        "\nRounds in which the two took turns: {}.\n",
        rounds.join(", ")
    );
}

pub fn print_files(rows: &[Row]) {
    println!("Best time (median); ratios are of the best. In process it is processor time, for processes");
    println!(
        "the wall clock, which other work lengthens, and long runs most. A run without steps is"
    );
    println!("counted as one step.\n");
    println!("| file | bytes | steps | proved ns/step | fast ns/step | ratio | process: proved ms | fast ms | ratio |");
    println!("|---|--:|--:|--:|--:|--:|--:|--:|--:|");
    for row in rows {
        print!("{}", row.in_process());
        match &row.whole {
            Some(whole) => println!(
                " {} | {} | {:.2} |",
                cell(whole.proved, 1e6, 3),
                cell(whole.fast, 1e6, 3),
                whole.ratio(),
            ),
            None => println!(" | | |"),
        }
    }
    print_rounds(rows);
}

pub fn print_growth(rows: &[Row]) {
    println!("How the cost of a step grows with the booked jobs, in process:\n");
    println!("| file | bytes | steps | proved ns/step | fast ns/step | ratio |");
    println!("|---|--:|--:|--:|--:|--:|");
    for row in rows {
        println!("{}", row.in_process());
    }
    print_rounds(rows);
}

/// A release list, measured as the first of the pair, and the run's text as the second.
pub struct ListRow {
    pub file: File,
    pub tapes: usize,
    pub in_process: Pair,
    pub whole: Pair,
}

pub fn print_lists(rows: &[ListRow]) {
    println!("The release list beside the run's text, both by the proved programs:\n");
    println!("| file | tapes | list µs | text µs | ratio | process: list ms | text ms | ratio |");
    println!("|---|--:|--:|--:|--:|--:|--:|--:|");
    for row in rows {
        println!(
            "| {} | {} | {} | {} | {:.2} | {} | {} | {:.2} |",
            row.file.name,
            row.tapes,
            cell(row.in_process.proved, 1e3, 1),
            cell(row.in_process.fast, 1e3, 1),
            row.in_process.ratio(),
            cell(row.whole.proved, 1e6, 3),
            cell(row.whole.fast, 1e6, 3),
            row.whole.ratio(),
        );
    }
}
