//! The peers that we are measured against: clasp, with the grounder gringo, the SAT solver CaDiCaL, and for prices CBC.
//! Each question is put to them as an instance file, which is written before the clock starts, and each runs as a
//! process with its default settings. Its time is that from the start of the process to its end, less what the start
//! takes on an empty instance. Below about a millisecond that difference is mostly noise.
//!
//! If the question cannot be the same, it is easier for the peer:
//! - Choice: we give the smallest selection at or above the floor. `seconds` asks only whether there is one, as a CNF.
//!   `optimum_seconds` asks clasp the whole question, as a program with a level of optimization for each article; the
//!   grounding is not timed.
//! - Plan: we find the fewest rounds L. The peers are told L, and only asked whether a plan of L rounds exists and,
//!   if L is not 0, that none of L - 1 rounds does; if we found no plan, that none of as many rounds as the
//!   horizon exists. The times of the two are added.
//! - Price: we give the smallest of the cheapest selections, its total and the tax (`prices.rs`).
//!
//! Plans are encoded with a variable a round for each fact and each step, and with frame axioms that explain each fact
//! that appears or goes. What is absent in the layers of the planning graph has no variable, and the mutexes of the
//! layers are clauses; to make the layers is not timed. This was kept because it was the fastest in total for both
//! peers: on 36 jobs (towers of Hanoi, Chinese rings, agents that use up tools, toggles on a ring, a van, random ones),
//! in one run beside other load, clasp and CaDiCaL took 6.1 s each. Without the layers it was 23.5 s and 7.7 s; with
//! the layers, but variables for keepers in place of frame axioms, over 36.8 s (one job reached the limit of 30 s) and
//! 7.8 s. A few hard jobs make up most of these sums.

mod prices;

pub use prices::Sought;

use crate::families::Kind;
use crate::job::{Choice, Fitting, Question, Step};
use std::fmt::Write as _;
use std::fs::{self, File};
use std::io::{self, Read};
use std::path::{Path, PathBuf};
use std::process::{Command, Stdio};
use std::sync::mpsc::{self, RecvTimeoutError};
use std::thread;
use std::time::{Duration, Instant};

/// Runs of which the fastest is the start of a process.
const STARTS: usize = 30;
/// Runs of which the fastest counts, if one takes fewer than `SHORT` seconds.
const REPEATS: usize = 3;
const SHORT: f64 = 0.05;
/// Seconds for a run that nobody measures against a limit.
const PATIENCE: f64 = 60.0;

#[derive(Clone, Copy, Debug, PartialEq, Eq)]
pub enum Peer {
    Clasp,
    Cadical,
}

/// What a peer took for a question.
#[derive(Clone, Copy, Debug)]
pub struct PeerTime {
    /// Without the starts of its processes, never below 0. If it timed out, it would have taken longer.
    pub seconds: f64,
    pub timed_out: bool,
    /// Each verdict that the peer gave is the one that our answer asks for. A run that timed out gave none; a run that
    /// failed does not agree.
    pub agrees: bool,
}

/// The peers that were found.
#[derive(Debug)]
pub struct Peers {
    dir: PathBuf,
    /// Seconds that the start of the process takes; none if the program is missing.
    clasp: Option<f64>,
    cadical: Option<f64>,
    cbc: Option<f64>,
    gringo: bool,
}

impl Peers {
    /// Looks for the programs on the path and measures their starts. Instances are written to `dir`, which is made.
    pub fn find(dir: &Path) -> Peers {
        fs::create_dir_all(dir).expect("the folder for instances can be made");
        let empty = write(dir, "empty.cnf", &Cnf::default().text());
        let linear = write(dir, "empty.lp", prices::EMPTY);
        let commands = [solver(Peer::Clasp, &empty), solver(Peer::Cadical, &empty), prices::cbc(&linear)];
        let [clasp, cadical, cbc] = starts(commands);
        let gringo = run(Command::new("gringo").arg("--version"), PATIENCE).is_ok();
        Peers { dir: dir.to_path_buf(), clasp, cadical, cbc, gringo }
    }

    /// The programs that were not found, of those that are asked for a kind of question.
    pub fn missing(&self, kind: Kind) -> Vec<&'static str> {
        let last = if kind == Kind::Price { ("cbc", self.cbc) } else { ("cadical", self.cadical) };
        let found = [("clasp", self.clasp.is_some()), ("gringo", self.gringo), (last.0, last.1.is_some())];
        found.into_iter().filter(|(_, found)| !found).map(|(name, _)| name).collect()
    }

    /// The time for the questions of existence named above; none if the peer is missing. `answer` is ours: the
    /// selection or the count of rounds, or that there is none.
    pub fn seconds(&self, peer: Peer, question: &Question, answer: Option<u64>, limit: f64) -> Option<PeerTime> {
        let start = match peer {
            Peer::Clasp => self.clasp?,
            Peer::Cadical => self.cadical?,
        };
        let mut time = PeerTime::none();
        for (cnf, exists) in existence(question, answer) {
            let file = write(&self.dir, "question.cnf", &cnf.text());
            let run = fastest(&mut solver(peer, &file), start + limit - time.seconds);
            time.add(&run, start, run.exists() == Some(exists));
            if time.timed_out {
                break;
            }
        }
        Some(time)
    }

    /// The time of clasp for the smallest selection; none if clasp or gringo is missing, or for another question.
    pub fn optimum_seconds(&self, question: &Question, answer: Option<u64>, limit: f64) -> Option<PeerTime> {
        let start = self.clasp.filter(|_| self.gringo)?;
        let Question::Choose { job, floor } = question else { return None };
        let file = ground(&self.dir, &program(job, *floor));
        let run = fastest(&mut optimizer(&file), start + limit);
        let agrees = match run.code {
            Some(SEARCHED_WITH_MODEL) => answer == Some(shown(&run.output)),
            Some(SEARCHED) => answer.is_none(),
            _ => false,
        };
        Some(PeerTime::of(&run, start, agrees))
    }
}

impl PeerTime {
    fn none() -> PeerTime {
        PeerTime { seconds: 0.0, timed_out: false, agrees: true }
    }

    /// Of one run.
    fn of(run: &Run, start: f64, agrees: bool) -> PeerTime {
        let mut time = PeerTime::none();
        time.add(run, start, agrees);
        time
    }

    fn add(&mut self, run: &Run, start: f64, agrees: bool) {
        self.seconds += (run.seconds - start).max(0.0);
        self.timed_out |= run.timed_out;
        self.agrees &= agrees || run.timed_out;
    }
}

// Instance files.

fn write(dir: &Path, name: &str, text: &str) -> PathBuf {
    let file = dir.join(name);
    fs::write(&file, text).expect("an instance can be written");
    file
}

/// Grounds a program. Warnings of atoms that nothing derives are dropped: a floor may be above all articles.
fn ground(dir: &Path, program: &str) -> PathBuf {
    let source = write(dir, "question.lp", program);
    let file = dir.join("question.aspif");
    let output = File::create(&file).expect("an instance can be written");
    let mut gringo = Command::new("gringo");
    gringo.arg(source).stdin(Stdio::null()).stdout(output).stderr(Stdio::null());
    assert!(gringo.status().expect("gringo runs").success(), "gringo grounds a program");
    file
}

// Processes.

/// Exit codes. CaDiCaL ends with 10 as soon as it has a model; clasp adds the bits of 20 if it knows of nothing more.
/// CBC only prints what it found.
const DONE: i32 = 0;
const MODEL: i32 = 10;
const SEARCHED: i32 = 20;
const SEARCHED_WITH_MODEL: i32 = 30;

struct Run {
    seconds: f64,
    timed_out: bool,
    code: Option<i32>,
    output: String,
}

impl Run {
    /// Whether there is a model; none if the peer came to no verdict.
    fn exists(&self) -> Option<bool> {
        match self.code {
            Some(MODEL | SEARCHED_WITH_MODEL) => Some(true),
            Some(SEARCHED) => Some(false),
            _ => None,
        }
    }
}

fn solver(peer: Peer, cnf: &Path) -> Command {
    let (name, quiet) = match peer {
        Peer::Clasp => ("clasp", ["--quiet=2", "--verbose=0"]),
        Peer::Cadical => ("cadical", ["-q", "-n"]),
    };
    let mut command = Command::new(name);
    command.args(quiet).arg(cnf);
    command
}

/// Clasp with a ground program. It prints only its last model, the optimum.
fn optimizer(ground: &Path) -> Command {
    let mut command = Command::new("clasp");
    command.args(["--quiet=1", "--verbose=0"]).arg(ground);
    command
}

/// Runs a command to its end, or kills it at the limit. Its output ends when the process does, so to read it is an
/// exact wait; the kill is left to a second thread, which adds nothing to the time.
fn run(command: &mut Command, limit: f64) -> io::Result<Run> {
    let limit = Duration::from_secs_f64(limit.max(0.0));
    let begin = Instant::now();
    let mut child = command.stdin(Stdio::null()).stdout(Stdio::piped()).stderr(Stdio::null()).spawn()?;
    let mut pipe = child.stdout.take().expect("the output is piped");
    let (ended, end) = mpsc::channel::<()>();
    let watchdog = thread::spawn(move || {
        let timed_out = end.recv_timeout(limit) == Err(RecvTimeoutError::Timeout);
        if timed_out {
            child.kill().expect("a peer can be killed");
        }
        (child, timed_out)
    });
    let mut output = Vec::new();
    pipe.read_to_end(&mut output)?;
    let seconds = begin.elapsed().as_secs_f64();
    drop(ended);
    let (mut child, timed_out) = watchdog.join().expect("the watchdog ends");
    let code = child.wait()?.code();
    Ok(Run { seconds, timed_out, code, output: String::from_utf8_lossy(&output).into_owned() })
}

/// The fastest of some runs; one alone if it takes long.
fn fastest(command: &mut Command, limit: f64) -> Run {
    let mut best = run(command, limit).expect("the peer runs");
    if best.seconds < SHORT && !best.timed_out {
        for _ in 1..REPEATS {
            let again = run(command, limit).expect("the peer runs");
            if again.seconds < best.seconds {
                best = again;
            }
        }
    }
    best
}

/// The fastest start of each command, none for one that cannot run. By turns, so that other load meets all alike.
fn starts<const COUNT: usize>(mut commands: [Command; COUNT]) -> [Option<f64>; COUNT] {
    let mut least = [Some(f64::INFINITY); COUNT];
    for _ in 0..STARTS {
        for (least, command) in least.iter_mut().zip(&mut commands) {
            *least = least.and_then(|least| Some(start(command)?.min(least)));
        }
    }
    least
}

fn start(command: &mut Command) -> Option<f64> {
    let run = run(command, PATIENCE).ok()?;
    run.code.filter(|code| [DONE, MODEL, SEARCHED, SEARCHED_WITH_MODEL].contains(code)).map(|_| run.seconds)
}

// Formulas.

/// The formulas that a peer is asked for our answer, each with whether it must have a model.
fn existence(question: &Question, answer: Option<u64>) -> Vec<(Cnf, bool)> {
    match (question, answer) {
        (Question::Choose { job, floor }, _) => vec![(selection(job, *floor), answer.is_some())],
        (Question::Price { job, .. }, _) => vec![(selection(job, 0), answer.is_some())],
        (Question::Plan { job }, None) => vec![(plan(job, job.horizon), false)],
        (Question::Plan { job }, Some(0)) => vec![(plan(job, 0), true)],
        (Question::Plan { job }, Some(rounds)) => {
            vec![(plan(job, rounds as usize), true), (plan(job, rounds as usize - 1), false)]
        }
    }
}

/// Clauses of literals as DIMACS has them: a variable's number, negative for its negation.
#[derive(Default)]
struct Cnf {
    variables: i32,
    clauses: Vec<Vec<i32>>,
}

/// Literals whose value is known. They reach no clause, so that what is known needs no variable.
const TRUE: i32 = i32::MAX;
const FALSE: i32 = -TRUE;

impl Cnf {
    fn variable(&mut self) -> i32 {
        self.variables += 1;
        self.variables
    }

    /// A variable for each member below `count`; what is not a member is false.
    fn variables(&mut self, members: impl Into<u64>, count: usize) -> Vec<i32> {
        let members = members.into();
        (0..count).map(|number| if has(members, number) { self.variable() } else { FALSE }).collect()
    }

    fn add(&mut self, literals: impl IntoIterator<Item = i32>) {
        let clause: Vec<i32> = literals.into_iter().filter(|literal| *literal != FALSE).collect();
        if !clause.contains(&TRUE) {
            self.clauses.push(clause);
        }
    }

    /// Adds for each variable that none of its mutexes, a set of variables by place, is true with it.
    fn exclude(&mut self, variables: &[i32], mutexes: impl Iterator<Item = u64>) {
        for (number, mutexes) in mutexes.enumerate() {
            for other in members(mutexes).filter(|other| *other < number) {
                self.add([-variables[number], -variables[other]]);
            }
        }
    }

    fn text(&self) -> String {
        let mut text = format!("p cnf {} {}\n", self.variables, self.clauses.len());
        for clause in &self.clauses {
            for literal in clause {
                write!(text, "{literal} ").expect("a text takes more");
            }
            text.push_str("0\n");
        }
        text
    }
}

fn has(set: impl Into<u64>, member: usize) -> bool {
    set.into() >> member & 1 == 1
}

fn members(set: impl Into<u64>) -> impl Iterator<Item = usize> {
    let set = set.into();
    (0..64).filter(move |member| has(set, *member))
}

// Choice.

fn carriers(job: &Choice, wish: usize) -> impl Iterator<Item = usize> + '_ {
    (0..job.articles.len()).filter(move |article| has(job.articles[*article].wishes, wish))
}

/// The selections at or above the floor.
fn selection(job: &Choice, floor: u64) -> Cnf {
    let mut cnf = Cnf::default();
    let articles: Vec<i32> = job.articles.iter().map(|_| cnf.variable()).collect();
    cnf.exclude(&articles, job.articles.iter().map(|article| article.clashes));
    for wish in members(job.order) {
        cnf.add(carriers(job, wish).map(|article| articles[article]));
    }
    at_least(&mut cnf, &articles, floor);
    cnf
}

/// Compares with the floor from the top bit down. `equal` holds while the articles down to here are those of the floor;
/// below the lowest article of the floor nothing is left to compare.
fn at_least(cnf: &mut Cnf, articles: &[i32], floor: u64) {
    let mut equal = TRUE;
    for bit in (floor.trailing_zeros() as usize..64).rev() {
        let article = articles.get(bit).copied().unwrap_or(FALSE);
        if has(floor, bit) {
            cnf.add([-equal, article]);
        } else if article != FALSE {
            let still = cnf.variable();
            cnf.add([-equal, article, still]);
            equal = still;
        }
    }
}

/// The smallest selection at or above the floor.
fn program(job: &Choice, floor: u64) -> String {
    let mut lines = selections(job, |number| vec![by_number(number)]);
    lines.extend(at_least_rules(floor));
    lines.join("\n") + "\n"
}

/// An article weighs more than all of lower number, so it has a level of its own.
fn by_number(number: usize) -> String {
    format!("1@{number}")
}

/// The selections, as rules, and what each article weighs in them, which is to be least.
fn selections(job: &Choice, weights: impl Fn(usize) -> Vec<String>) -> Vec<String> {
    let mut lines = vec!["#show x/1.".to_string()];
    for (number, article) in job.articles.iter().enumerate() {
        lines.push(format!("{{x({number})}}."));
        lines.extend(weights(number).iter().map(|weight| format!("#minimize{{{weight} : x({number})}}.")));
        lines.extend(members(article.clashes).map(|other| format!(":- x({number}), x({other}).")));
    }
    for wish in members(job.order) {
        let absent: Vec<String> = carriers(job, wish).map(|article| format!("not x({article})")).collect();
        lines.push(format!(":- {}.", absent.join(", ")));
    }
    lines
}

/// As `at_least`, in rules: `equal(b)` says that the articles from b on are those of the floor.
fn at_least_rules(floor: u64) -> Vec<String> {
    let mut equal = 64;
    let mut lines = vec!["equal(64).".to_string()];
    for bit in (floor.trailing_zeros() as usize..64).rev() {
        if has(floor, bit) {
            lines.push(format!(":- equal({equal}), not x({bit})."));
        } else {
            lines.push(format!("equal({bit}) :- equal({equal}), not x({bit})."));
            equal = bit;
        }
    }
    lines
}

/// The set of the articles that clasp printed.
fn shown(output: &str) -> u64 {
    let number = |atom: &str| atom.strip_prefix("x(")?.strip_suffix(')')?.parse::<u32>().ok();
    output.split_whitespace().filter_map(number).map(|number| 1 << number).sum()
}

// Plans.

/// The plans of this many rounds.
fn plan(job: &Fitting, rounds: usize) -> Cnf {
    let mut cnf = Cnf::default();
    let vertices = vertices(job);
    let mut layer = Layer::start(job);
    let mut before: Vec<i32> = (0..job.facts).map(|fact| if has(job.start, fact) { TRUE } else { FALSE }).collect();
    for _ in 0..rounds {
        layer = layer.next(&vertices);
        let steps = cnf.variables(layer.vertices >> job.facts, job.steps.len());
        let after = cnf.variables(layer.facts, job.facts);
        cnf.exclude(&steps, layer.vertex_mutexes[job.facts..].iter().map(|mutexes| mutexes >> job.facts));
        cnf.exclude(&after, layer.fact_mutexes.iter().map(|mutexes| u64::from(*mutexes)));
        add_steps(&mut cnf, job, &before, &steps, &after);
        add_frame(&mut cnf, job, &before, &steps, &after);
        before = after;
    }
    for fact in members(job.goal) {
        cnf.add([before[fact]]);
    }
    cnf
}

/// What a step of a round asks of the facts before and after it. What it takes and gives holds after.
fn add_steps(cnf: &mut Cnf, job: &Fitting, before: &[i32], steps: &[i32], after: &[i32]) {
    for (step, variable) in job.steps.iter().zip(steps) {
        members(step.needs).for_each(|fact| cnf.add([-variable, before[fact]]));
        members(step.gives).for_each(|fact| cnf.add([-variable, after[fact]]));
        members(lost(step)).for_each(|fact| cnf.add([-variable, -after[fact]]));
    }
}

/// A fact that appears was given, and one that goes was lost to a step.
fn add_frame(cnf: &mut Cnf, job: &Fitting, before: &[i32], steps: &[i32], after: &[i32]) {
    for fact in 0..job.facts {
        let by = |effect: fn(&Step) -> u32| {
            let all = job.steps.iter().zip(steps);
            all.filter(move |(step, _)| has(effect(step), fact)).map(|(_, variable)| *variable)
        };
        cnf.add([before[fact], -after[fact]].into_iter().chain(by(|step| step.gives)));
        cnf.add([-before[fact], after[fact]].into_iter().chain(by(lost)));
    }
}

fn lost(step: &Step) -> u32 {
    step.takes & !step.gives
}

fn disturb(one: &Step, other: &Step) -> bool {
    one.takes & (other.needs | other.gives) != 0 || other.takes & (one.needs | one.gives) != 0
}

/// The keepers of the facts, then the steps: vertices are numbered in this order here.
fn vertices(job: &Fitting) -> Vec<Step> {
    let keepers = (0..job.facts).map(|fact| Step { needs: 1 << fact, gives: 1 << fact, takes: 0 });
    keepers.chain(job.steps.iter().cloned()).collect()
}

/// A fact layer and the round layer before it (docs/RULES.md, "Layers"). Absent members are mutex with none.
struct Layer {
    vertices: u64,
    vertex_mutexes: Vec<u64>,
    facts: u32,
    fact_mutexes: Vec<u32>,
}

impl Layer {
    /// The start, which no round comes before.
    fn start(job: &Fitting) -> Layer {
        Layer { vertices: 0, vertex_mutexes: vec![], facts: job.start, fact_mutexes: vec![0; job.facts] }
    }

    fn next(&self, vertices: &[Step]) -> Layer {
        let present = set(vertices.len(), |vertex| self.offers(vertices[vertex].needs));
        let vertex_mutexes: Vec<u64> = (0..vertices.len())
            .map(|one| set(vertices.len(), |other| self.vertices_mutex(vertices, present, one, other)))
            .collect();
        let givers: Vec<u64> = (0..self.fact_mutexes.len())
            .map(|fact| set(vertices.len(), |vertex| has(present, vertex) && has(vertices[vertex].gives, fact)))
            .collect();
        let facts = set(givers.len(), |fact| givers[fact] != 0) as u32;
        let fact_mutexes = (0..givers.len())
            .map(|one| set(givers.len(), |other| facts_mutex(&vertex_mutexes, givers[one], givers[other])) as u32)
            .collect();
        Layer { vertices: present, vertex_mutexes, facts, fact_mutexes }
    }

    /// Needs that lie in this layer, no two of them mutex.
    fn offers(&self, needs: u32) -> bool {
        needs & !self.facts == 0 && !self.apart(needs, needs)
    }

    /// A fact of one set is mutex with a fact of the other.
    fn apart(&self, one: u32, other: u32) -> bool {
        members(one).any(|fact| self.fact_mutexes[fact] & other != 0)
    }

    fn vertices_mutex(&self, vertices: &[Step], present: u64, one: usize, other: usize) -> bool {
        let both = one != other && has(present, one) && has(present, other);
        let (one, other) = (&vertices[one], &vertices[other]);
        both && (disturb(one, other) || self.apart(one.needs, other.needs))
    }
}

/// Two facts by their givers: both have some, none gives both, and each of one is mutex with each of the other.
fn facts_mutex(vertex_mutexes: &[u64], one: u64, other: u64) -> bool {
    let both = one != 0 && other != 0;
    both && one & other == 0 && members(one).all(|vertex| other & !vertex_mutexes[vertex] == 0)
}

fn set(count: usize, member: impl Fn(usize) -> bool) -> u64 {
    (0..count).filter(|number| member(*number)).map(|number| 1 << number).sum()
}
