//! Calls for a pass of the filter, ours beside the twin's, and what of their time is the pass.

use crate::check;
use crate::families::passes::Pass;
use crate::measure::{self, Effort};
use crate::ours::{self, Refusal};
use crate::table::{columns, short};
use crate::twin;
use std::hint::black_box;

type Outcome = Result<(u64, u64), Refusal>;

/// Of a file, groups, a live set and a goal.
type Call = fn(&[u8], &[u8], u64, u64) -> Outcome;

const CALLS: [Call; 2] = [ours::pass, twin::pass];

/// A goal that is refused after the file has been read and all else has been tested.
const EMPTY: u64 = 0;
const REFUSED: Refusal = (13, 0);

/// A pass with what the calls take, made ready before the clock runs.
pub struct Asked {
    pub pass: Pass,
    file: Vec<u8>,
    groups: [u8; 64],
}

impl Asked {
    pub fn new(pass: Pass) -> Asked {
        let file = pass.job.file();
        let groups = ours::own_groups(&file);
        Asked { pass, file, groups }
    }

    fn outcome(&self, call: Call, goal: u64) -> Outcome {
        call(&self.file, &self.groups, self.pass.live, goal)
    }

    pub fn ask_ours(&self) {
        let _ = black_box(self.outcome(ours::pass, self.pass.job.order));
    }

    /// What is wrong with the answers, if anything is: of the pass, and of the one that is refused.
    pub fn fault(&self) -> Option<String> {
        let Pass { job, live, .. } = &self.pass;
        let asked = [(job.order, Ok(check::pass(job, &self.groups, *live, job.order))), (EMPTY, Err(REFUSED))];
        asked.into_iter().find_map(|(goal, right)| {
            let [ours, twin] = CALLS.map(|call| self.outcome(call, goal));
            let told = || format!("goal {goal:#x}: ours is {ours:?}, the twin's {twin:?}, by the rules {right:?}");
            ([ours, twin] != [right; 2]).then(told)
        })
    }
}

/// What was measured of the passes of a row: the mean seconds of a call, of ours and of the twin's.
pub struct Figures {
    cases: usize,
    whole: [f64; 2],
    /// With the empty goal.
    refused: [f64; 2],
}

impl Figures {
    /// All passes are one run, so that it is long enough to see by how much it differs from the refused ones.
    pub fn new(all: &[Asked], effort: &Effort) -> Figures {
        let ways = [(0, false), (1, false), (0, true), (1, true)];
        let mut runs = ways.map(|(who, empty)| {
            // Who is called is hidden from the compiler: it must not fit a call to the goal that it is given here.
            let call = black_box(CALLS[who]);
            move || {
                for asked in all {
                    let goal = if empty { EMPTY } else { asked.pass.job.order };
                    let _ = black_box(asked.outcome(call, goal));
                }
            }
        });
        let best = measure::best(effort, runs.each_mut().map(|run| run as &mut dyn FnMut()));
        let [ours, twin, ours_refused, twin_refused] = best.map(|seconds| seconds / all.len() as f64);
        Figures { cases: all.len(), whole: [ours, twin], refused: [ours_refused, twin_refused] }
    }

    /// Seconds of the pass alone; 0 if the noise is greater.
    fn alone(&self) -> [f64; 2] {
        [0, 1].map(|who| (self.whole[who] - self.refused[who]).max(0.0))
    }
}

/// How the passes are measured, and how their table is read.
pub fn legend(effort: &Effort) -> String {
    let Effort { repetitions, seconds, patience, .. } = effort;
    format!(
        "A pass is a call of the filter, from the bytes of a job file to what it leaves live and the sum. Each is over a
drawn network of 64 articles and 8 to 64 wishes, by our own partition, which is made before the clock runs; the goal is
the whole order. Live are all articles, a drawn half of them, or 4. The times are the means of a call. \"Alone\" is the
time of the call less that of the same call with an empty goal, which is refused after the file has been read and all
else has been tested. A run makes the calls of all cases; ours and the twin's, with the order and with the empty goal,
are measured in turn, by the time of the processor: the best of {repetitions} repetitions of at least {} ms each
counts, or of as many as begin within {patience} s. Where noise is more than the difference, it is 0, without a ratio.",
        seconds * 1000.0
    )
}

fn line<T: AsRef<str>>(cells: &[T]) -> String {
    columns(&[32, 6, 9, 9, 8, 11, 9, 8], cells)
}

/// Two lines: the second tells the columns apart that go with a word of the first.
pub fn head() -> String {
    let above = ["", "", "call", "", "", "alone", "", ""];
    let below = [vec!["", "cases"], ["ours us", "twin us", "/ twin"].repeat(2)].concat();
    format!("{}\n{}", line(&above), line(&below))
}

pub fn row(name: &str, figures: &Figures) -> String {
    let mut cells = vec![format!("  {name}"), figures.cases.to_string()];
    cells.extend([figures.whole, figures.alone()].map(beside).concat());
    line(&cells)
}

/// Microseconds of both, and the ratio, if there is one.
fn beside(seconds: [f64; 2]) -> [String; 3] {
    let [ours, twin] = seconds.map(|seconds| short(1e6 * seconds));
    let both = seconds.iter().all(|seconds| *seconds > 0.0);
    [ours, twin, if both { short(seconds[0] / seconds[1]) } else { "-".into() }]
}
