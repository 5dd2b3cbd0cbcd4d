//! Puts the same questions to ours and to the twin, compares the answers, and measures both.

use crate::check;
use crate::job::Question;
use crate::{ours, twin};
use std::hint::black_box;
use std::time::Instant;

/// A question with what the calls take, made ready before the clock runs.
pub struct Asked {
    pub question: Question,
    file: Vec<u8>,
    goals: Vec<u64>,
}

/// One or more questions that are measured as a whole.
pub struct Case {
    pub label: String,
    pub asked: Vec<Asked>,
}

/// Words of a lent buffer that no answer holds, to see which are kept.
const KEPT: u32 = 0xdead_beef;

type Outcome = Result<(u64, u64), (u32, u64)>;

/// The total of a selection and the tax on it; 0 where no prices are asked for.
type Bill = (i64, i64);

/// All that comes of a question. The outcome has 0 beside a plan's count of rounds, and beside the cheapest selection.
pub struct Reply {
    pub outcome: Outcome,
    groups: [u8; 64],
    rounds: [u32; 16],
    bill: Bill,
}

impl Asked {
    pub fn new(question: Question) -> Asked {
        let (file, order) = match &question {
            Question::Choose { job, .. } => (job.file(), job.order),
            Question::Price { job, .. } => (job.file(), 0),
            Question::Plan { job } => (job.file(), 0),
        };
        let goals = if order == 0 { vec![] } else { vec![order] };
        Asked { question, file, goals }
    }

    /// From the bytes of the file to the answer: for a choice, our own partition and then the selection.
    pub fn ours(&self) -> Reply {
        let (mut groups, mut rounds, mut bill) = ([0; 64], [KEPT; 16], (0, 0));
        let outcome = match &self.question {
            Question::Choose { floor, .. } => ours::partition(&self.file, &mut groups)
                .and_then(|()| ours::choose(&self.file, &groups, &self.goals, *floor)),
            Question::Price { rate, .. } => billed(ours::price(&self.file, *rate), &mut bill),
            Question::Plan { .. } => ours::plan(&self.file, &mut rounds).map(|count| (count, 0)),
        };
        Reply { outcome, groups, rounds, bill }
    }

    pub fn twin(&self, counts: &mut twin::Counts) -> Reply {
        let (mut groups, mut rounds, mut bill) = ([0; 64], [KEPT; 16], (0, 0));
        let outcome = match &self.question {
            Question::Choose { floor, .. } => twin::partition(&self.file, &mut groups)
                .and_then(|()| twin::choose(&self.file, &groups, &self.goals, *floor, counts)),
            Question::Price { rate, .. } => billed(twin::price(&self.file, *rate, counts), &mut bill),
            Question::Plan { .. } => twin::plan(&self.file, &mut rounds, counts).map(|count| (count, 0)),
        };
        Reply { outcome, groups, rounds, bill }
    }

    /// What is wrong with a reply, if anything is. That no smaller answer exists, and that "none" is true, is for the
    /// comparison with the twin and the peers.
    pub fn fault(&self, reply: &Reply) -> Option<&'static str> {
        match (&self.question, reply.outcome) {
            (Question::Choose { job, floor }, Ok((selection, _))) => {
                (!check::is_selection(job, *floor, selection)).then_some("is no selection")
            }
            (Question::Choose { .. }, Err((14, place))) => {
                (place > self.goals.len() as u64).then_some("names no goal of the list")
            }
            (Question::Price { job, rate }, Ok((selection, _))) => {
                check::price_fault(job, *rate, Some((selection, reply.bill.0, reply.bill.1)))
            }
            (Question::Price { job, rate }, Err((14, 0))) => check::price_fault(job, *rate, None),
            (Question::Choose { .. } | Question::Price { .. }, Err(_)) => Some("is refused"),
            (Question::Plan { job }, Ok((count, _))) if count > job.horizon as u64 => Some("is beyond the horizon"),
            (Question::Plan { job }, Ok((count, _))) => {
                let (rounds, rest) = reply.rounds.split_at(count as usize);
                let kept = rest.iter().all(|word| *word == KEPT);
                (!check::is_plan(job, rounds)).then_some("is no plan").or((!kept).then_some("overwrites words"))
            }
            (Question::Plan { .. }, Err(refusal)) => (refusal != (15, 0)).then_some("is refused"),
        }
    }
}

/// The outcome, after the bill has been noted.
fn billed(found: Result<(u64, i64, i64), (u32, u64)>, bill: &mut Bill) -> Outcome {
    let (selection, total, tax) = found?;
    *bill = (total, tax);
    Ok((selection, 0))
}

impl Reply {
    /// Which of the shortest plans it is is free.
    pub fn agrees(&self, other: &Reply) -> bool {
        self.told() == other.told() && self.groups == other.groups
    }

    /// What to say of it where it is at fault.
    pub fn told(&self) -> (Outcome, Bill) {
        (self.outcome, self.bill)
    }
}

impl Case {
    pub fn ask(&self, mut solve: impl FnMut(&Asked) -> Reply) {
        for asked in &self.asked {
            black_box(solve(asked));
        }
    }
}

/// The clocks of Linux, by their numbers.
#[derive(Clone, Copy)]
pub enum Clock {
    /// Time as it passes.
    Monotonic = 1,
    /// Only while this thread has a processor: other work is not counted.
    Thread = 3,
}

extern "C" {
    fn clock_gettime(clock: i32, seconds_and_nanoseconds: *mut [i64; 2]) -> i32;
}

impl Clock {
    fn seconds(self) -> f64 {
        let mut time = [0; 2];
        assert_eq!(unsafe { clock_gettime(self as i32, &mut time) }, 0);
        time[0] as f64 + 1e-9 * time[1] as f64
    }
}

/// How long to measure.
#[derive(Clone, Copy)]
pub struct Effort {
    pub repetitions: u32,
    /// The least time of a repetition.
    pub seconds: f64,
    /// After this many seconds nothing is repeated any more.
    pub patience: f64,
    pub clock: Clock,
}

/// Seconds of ours and of the twin.
pub fn seconds(case: &Case, effort: &Effort) -> [f64; 2] {
    let mut counts = twin::Counts::default();
    best(effort, [&mut || case.ask(Asked::ours), &mut || case.ask(|asked| asked.twin(&mut counts))])
}

/// Seconds of each run: the best of several repetitions, taken in turn so that all meet the same noise.
pub fn best<const RUNS: usize>(effort: &Effort, mut runs: [&mut dyn FnMut(); RUNS]) -> [f64; RUNS] {
    let begin = Instant::now();
    let mut best = [f64::INFINITY; RUNS];
    for _ in 0..effort.repetitions {
        for (least, run) in best.iter_mut().zip(&mut runs) {
            *least = least.min(timed(effort, run));
        }
        if begin.elapsed().as_secs_f64() > effort.patience {
            break;
        }
    }
    best
}

/// Seconds a run. The clock is read between batches of runs that grow, so that reading it doesn't count.
fn timed(effort: &Effort, run: &mut dyn FnMut()) -> f64 {
    let begin = effort.clock.seconds();
    let (mut runs, mut batch) = (0, 1);
    loop {
        (0..batch).for_each(|_| run());
        runs += batch;
        batch *= 2;
        let seconds = effort.clock.seconds() - begin;
        if seconds >= effort.seconds {
            return seconds / runs as f64;
        }
    }
}
