//! Prices. clasp is asked for the least total, and, as a second question, for the smallest selection with that total,
//! which is what we answer; CBC, the solver of COIN-OR for linear programs in whole numbers, for the least total alone.
//! It is told that totals are whole numbers, as clasp knows anyway.

use super::{by_number, carriers, fastest, ground, members, optimizer, selections, shown, write};
use super::{PeerTime, Peers, Run, MODEL, SEARCHED, SEARCHED_WITH_MODEL};
use crate::check;
use crate::job::Choice;
use std::path::Path;
use std::process::Command;

/// What is asked of clasp.
#[derive(Clone, Copy, PartialEq)]
pub enum Sought {
    LeastTotal,
    Smallest,
}

impl Peers {
    /// The time of clasp; none if clasp or gringo is missing. `answer` is our selection, or that there is none.
    pub fn clasp_price(&self, job: &Choice, sought: Sought, answer: Option<u64>, limit: f64) -> Option<PeerTime> {
        let start = self.clasp.filter(|_| self.gringo)?;
        let file = ground(&self.dir, &program(job, sought));
        let run = fastest(&mut optimizer(&file), start + limit);
        let agrees = clasp_found(&run).is_some_and(|found| match sought {
            Sought::LeastTotal => as_cheap(job, answer, found),
            Sought::Smallest => answer == found,
        });
        Some(PeerTime::of(&run, start, agrees))
    }

    /// The time of CBC for the least total; none if it is missing.
    pub fn cbc_price(&self, job: &Choice, answer: Option<u64>, limit: f64) -> Option<PeerTime> {
        let start = self.cbc?;
        let file = write(&self.dir, "linear.lp", &linear_program(job));
        let run = retried(&mut cbc(&file), start + limit);
        let agrees = cbc_found(&run.output).is_some_and(|found| as_cheap(job, answer, found));
        Some(PeerTime::of(&run, start, agrees))
    }
}

/// Both have none, or a selection of the same total.
fn as_cheap(job: &Choice, answer: Option<u64>, found: Option<u64>) -> bool {
    let right = found.is_none_or(|selection| check::is_selection(job, 0, selection));
    let total = |selection| check::total(job, selection);
    right && answer.map(total) == found.map(total)
}

// Clasp.

/// All prices are on one level, above those of the number.
fn program(job: &Choice, sought: Sought) -> String {
    let weights = |number: usize| {
        let price = Some(job.articles[number].price).filter(|price| *price != 0);
        let by_price = price.map(|price| format!("{price}@64,{number}"));
        by_price.into_iter().chain((sought == Sought::Smallest).then(|| by_number(number))).collect()
    };
    selections(job, weights).join("\n") + "\n"
}

/// Clasp's selection, or that there is none; nothing if it came to no verdict. If all prices are zero, its first model
/// has the least total.
fn clasp_found(run: &Run) -> Option<Option<u64>> {
    match run.code {
        Some(MODEL | SEARCHED_WITH_MODEL) => Some(Some(shown(&run.output))),
        Some(SEARCHED) => Some(None),
        _ => None,
    }
}

// CBC.

/// The smallest linear program, for the start of the process.
pub const EMPTY: &str = "Minimize\n obj: x0\nSubject To\n r: x0 >= 0\nBinary\n x0\nEnd\n";

pub fn cbc(program: &Path) -> Command {
    let mut command = Command::new("cbc");
    command.arg(program).args(["increment", "0.9", "solve", "solution", "stdout"]);
    command
}

/// A run that was cut off is made once more: CBC has been seen to hang on what it otherwise does in no time.
fn retried(command: &mut Command, limit: f64) -> Run {
    let run = fastest(command, limit);
    if run.timed_out {
        return fastest(command, limit);
    }
    run
}

/// CBC's selection, or that there is none; nothing if it came to no verdict. After the verdict it prints a line for
/// each variable, with its place, its name and its value.
fn cbc_found(output: &str) -> Option<Option<u64>> {
    let mut lines = output.lines().skip_while(|line| !line.contains(" - objective value "));
    let verdict = lines.next()?;
    if verdict.to_lowercase().contains("infeasible") {
        return Some(None);
    }
    let taken = |line: &str| {
        let mut words = line.split_whitespace().skip(1);
        let number: u32 = words.next()?.strip_prefix('x')?.parse().ok()?;
        let value: f64 = words.next()?.parse().ok()?;
        (value > 0.5).then_some(number)
    };
    verdict.starts_with("Optimal").then(|| Some(lines.filter_map(taken).fold(0, |set, number| set | 1 << number)))
}

/// The least total as a linear program, with a variable for each article.
fn linear_program(job: &Choice) -> String {
    let mut lines = vec!["Minimize\n obj:".to_string()];
    lines.extend(job.articles.iter().enumerate().map(|(number, article)| format!("{:+} x{number}", article.price)));
    lines.push("Subject To".into());
    for (number, article) in job.articles.iter().enumerate() {
        lines.extend(members(article.clashes).map(|other| format!(" c{number}_{other}: x{number} + x{other} <= 1")));
    }
    for wish in members(job.order) {
        let able: Vec<String> = carriers(job, wish).map(|article| format!("x{article}")).collect();
        let sum = if able.is_empty() { "0 x0".into() } else { able.join("\n + ") };
        lines.push(format!(" w{wish}: {sum} >= 1"));
    }
    lines.push("Binary".into());
    lines.extend((0..job.articles.len()).map(|number| format!(" x{number}")));
    lines.join("\n") + "\nEnd\n"
}
