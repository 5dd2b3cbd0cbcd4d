//! Benchmarks: the proved library beside its unproved twin and beside clasp, CaDiCaL and CBC, as ratios within one run.

mod check;
mod fair;
mod families;
mod growth;
mod job;
mod measure;
mod ours;
mod pass;
mod peers;
mod stack;
mod table;
mod twin;

use families::fairs::{self, Fairs, Sort};
use families::passes::{self, Passes};
use families::{Family, Instances, Kind};
use job::Question;
use measure::{Asked, Case, Clock, Effort, Reply};
use peers::{Peer, PeerTime, Peers, Sought};
use stack::Stack;
use std::path::Path;
use std::process::ExitCode;
use table::{Figures, Rival, Time};

const SEED: u64 = 20_071_108;

/// The script ./bench looks at these words first and says what each means; its --install-peers does not come here.
const USAGE: &str = "usage: bench [--prices] [--pass] [--fair] [--family NAME] [--quick] [--growth] [--no-peers]
             [--peers-limit SECONDS]";

#[derive(Default)]
struct Options {
    /// The families of prices, in place of those of choice and fitting.
    prices: bool,
    /// The passes alone, or with the fairs. No peers.
    pass: bool,
    /// The fairs alone, or with the passes. No peers.
    fair: bool,
    /// Only families whose name has this part.
    family: String,
    peers: bool,
    /// Seconds a question, for a peer.
    limit: f64,
    /// Every fourth case, and fewer repetitions.
    quick: bool,
    /// How the cost grows, in place of the families. No peers.
    growth: bool,
}

fn options(mut words: impl Iterator<Item = String>) -> Option<Options> {
    let mut options = Options { peers: true, limit: 10.0, ..Options::default() };
    while let Some(word) = words.next() {
        match word.as_str() {
            "--prices" => options.prices = true,
            "--pass" => options.pass = true,
            "--fair" => options.fair = true,
            "--family" => options.family = words.next()?,
            "--no-peers" => options.peers = false,
            "--peers-limit" => options.limit = words.next()?.parse().ok().filter(|limit| *limit > 0.0)?,
            "--quick" => options.quick = true,
            "--growth" => options.growth = true,
            _ => return None,
        }
    }
    Some(options)
}

impl Options {
    fn families(&self) -> impl Iterator<Item = Family> + '_ {
        let all = match (self.without_families(), self.prices) {
            (true, _) => Vec::new(),
            (_, true) => families::prices(SEED),
            _ => families::all(SEED),
        };
        all.into_iter().filter(|family| family.name.contains(&self.family))
    }

    fn passes(&self) -> impl Iterator<Item = Passes> + '_ {
        let all = if self.wants(self.pass) { passes::all(SEED) } else { Vec::new() };
        all.into_iter().filter(|passes| passes.name.contains(&self.family))
    }

    fn fairs(&self, sort: Sort) -> impl Iterator<Item = Fairs> + '_ {
        let all = if self.wants(self.fair) { fairs::all(SEED, sort) } else { Vec::new() };
        all.into_iter().filter(|fairs| fairs.name.contains(&self.family))
    }

    fn without_families(&self) -> bool {
        self.pass || self.fair
    }

    /// Passes and fairs go with the families of choice and fitting, if not asked for by themselves.
    fn wants(&self, asked_for: bool) -> bool {
        asked_for || !self.without_families() && !self.prices
    }

    fn has_families(&self) -> bool {
        self.families().next().is_some()
    }

    fn has_passes(&self) -> bool {
        self.passes().next().is_some()
    }

    fn has_fairs(&self) -> bool {
        fairs::SORTS.into_iter().any(|sort| self.fairs(sort).next().is_some())
    }

    /// Of the cases of a family, one in so many is measured.
    fn every(&self) -> usize {
        if self.quick {
            4
        } else {
            1
        }
    }
}

/// Questions that follow each other under one label are one case.
fn cases(instances: Instances) -> Vec<Case> {
    let mut cases: Vec<Case> = Vec::new();
    for (label, question) in instances {
        match cases.last_mut().filter(|case| case.label == label) {
            Some(case) => case.asked.push(Asked::new(question)),
            None => cases.push(Case { label, asked: vec![Asked::new(question)] }),
        }
    }
    cases
}

/// The bench as it goes: how to measure, and what has been found wrong.
struct Bench {
    effort: Effort,
    peers: Option<Peers>,
    /// Seconds a question, for a peer.
    limit: f64,
    faults: Vec<String>,
    /// Fairs that take longer than they may.
    slow: Vec<String>,
    stack: Stack,
    /// The most bytes of stack that a call of ours took, and for which case.
    deepest: (usize, String),
}

/// Of a case with more questions than this, peers get every hundredth, and their time is scaled up.
const SAMPLED: usize = 100;
/// Of a family of prices with more cases than this, peers get two: many take them longer than they have.
const PRICED: usize = 7;

/// The repetitions of passes to those of other cases, as what is wanted is a small difference of two times.
const PASS_REPETITIONS: u32 = 12;
/// The least time of a repetition of passes.
const PASS_SECONDS: f64 = 0.002;
/// Of a row of passes.
const PASS_PATIENCE: f64 = 3.0;

/// Of a fair, so that all of them take some seconds.
const FAIR_PATIENCE: f64 = 0.15;

/// Who is measured beside ours and the twin.
type Rivals = [Option<Rival>; 3];

impl Bench {
    fn figures(&mut self, family: &str, case: &Case, rivals: Rivals) -> Figures {
        let mut counts = twin::Counts::default();
        let replies: Vec<Reply> = case.asked.iter().map(|asked| self.reply(family, case, asked, &mut counts)).collect();
        let [ours, twin] = measure::seconds(case, &self.effort);
        self.deepen(&format!("{family}: {}", case.label), || case.ask(Asked::ours));
        let rivals = rivals.map(|rival| self.rival(rival?, family, case, &replies));
        Figures { label: case.label.clone(), ours, twin, nodes: counts.nodes, rivals }
    }

    fn deepen(&mut self, label: &str, run: impl FnMut()) {
        let used = self.stack.used(run);
        if used > self.deepest.0 {
            self.deepest = (used, label.to_string());
        }
    }

    /// What was measured of the passes of a row, after the answers of each have been compared.
    fn passes(&mut self, row: &str, all: &[pass::Asked]) -> pass::Figures {
        for asked in all {
            let label = format!("pass, {row}: {}", asked.pass.label);
            self.faults.extend(asked.fault().map(|fault| format!("{label}: {fault}")));
            self.deepen(&label, || asked.ask_ours());
        }
        pass::Figures::new(all, &self.pass_effort())
    }

    fn pass_effort(&self) -> Effort {
        let repetitions = PASS_REPETITIONS * self.effort.repetitions;
        Effort { repetitions, seconds: PASS_SECONDS, patience: PASS_PATIENCE, clock: Clock::Thread }
    }

    /// What was measured of a fair, after its entries have been compared with single calls.
    fn fair(&mut self, family: &str, sort: Sort, asked: &fair::Asked) -> fair::Figures {
        let label = format!("fair, {} orders, {family}: {}", sort.name, asked.fair.label);
        self.faults.extend(asked.fault().map(|fault| format!("{label}: {fault}")));
        self.deepen(&label, || asked.ask_together());
        let figures = asked.figures(sort.limit, &self.fair_effort());
        self.slow.extend(figures.slow(sort.limit).map(|slow| format!("{label}: {slow}")));
        figures
    }

    fn fair_effort(&self) -> Effort {
        Effort { patience: FAIR_PATIENCE, clock: Clock::Thread, ..self.effort }
    }

    /// Our reply, after it and the twin's have been checked and compared.
    fn reply(&mut self, family: &str, case: &Case, asked: &Asked, counts: &mut twin::Counts) -> Reply {
        let (ours, twin) = (asked.ours(), asked.twin(counts));
        let mut complain = |what: String| self.faults.push(format!("{family}: {}: {what}", case.label));
        for (who, reply) in [("ours", &ours), ("the twin's", &twin)] {
            if let Some(fault) = asked.fault(reply) {
                complain(format!("{who} {fault}: {:?}", reply.told()));
            }
        }
        if !ours.agrees(&twin) {
            complain(format!("ours is {:?}, the twin's {:?}", ours.told(), twin.told()));
        }
        ours
    }

    /// The time of a rival for a case, after its verdicts have been compared with our answers.
    fn rival(&mut self, rival: Rival, family: &str, case: &Case, replies: &[Reply]) -> Option<Time> {
        let every = if case.asked.len() > SAMPLED { SAMPLED } else { 1 };
        let mut total = Time { seconds: 0.0, cut_off: false };
        let mut asked_for = 0;
        for (asked, reply) in case.asked.iter().zip(replies).step_by(every) {
            let answer = reply.outcome.ok().map(|(first, _)| first);
            let time = self.ask(rival, &asked.question, answer)?;
            total.seconds += if time.timed_out { self.limit } else { time.seconds };
            total.cut_off |= time.timed_out;
            asked_for += 1;
            if !time.agrees {
                let name = rival.name();
                self.faults.push(format!("{family}: {}: {name} disagrees with {:?}", case.label, reply.told()));
            }
        }
        total.seconds *= case.asked.len() as f64 / asked_for as f64;
        Some(total)
    }

    fn ask(&self, rival: Rival, question: &Question, answer: Option<u64>) -> Option<PeerTime> {
        let (peers, limit) = (self.peers.as_ref()?, self.limit);
        match (rival, question) {
            (Rival::Clasp, Question::Price { job, .. }) => peers.clasp_price(job, Sought::LeastTotal, answer, limit),
            (Rival::ClaspSmallest, Question::Price { job, .. }) => {
                peers.clasp_price(job, Sought::Smallest, answer, limit)
            }
            (Rival::Cbc, Question::Price { job, .. }) => peers.cbc_price(job, answer, limit),
            (Rival::Cbc, _) => None,
            (Rival::Clasp, _) => peers.seconds(Peer::Clasp, question, answer, limit),
            (Rival::ClaspSmallest, _) => peers.optimum_seconds(question, answer, limit),
            (Rival::Cadical, _) => peers.seconds(Peer::Cadical, question, answer, limit),
        }
    }
}

/// How ours and the twin are measured.
fn preface(bench: &Bench) {
    let Effort { repetitions, seconds, .. } = bench.effort;
    println!(
        "Ours and the twin: the best of {repetitions} repetitions of at least {} ms each, in turn in one process, from
the bytes of a job file to the answer; for a choice this is our own partition and then the selection. Nodes are
those of the twin's search.",
        seconds * 1000.0
    );
}

/// How the table is read, and what the peers are asked.
fn legend(bench: &Bench, kind: Kind) {
    println!("A column \"/\" has the ratio of ours to another: of the totals, and the largest of a single case.");
    if let Some(peers) = &bench.peers {
        println!(
            "The peers are processes, whose start is taken off; less than {} ms counts as that. They are only asked
{}, but for \"clasp, smallest\", which finds the selection itself. They have {} s a
question; where that was not enough it counts in their stead, and > marks the time, < the ratio. Of a series
of more than {SAMPLED} questions they get every {SAMPLED}th, and their time is scaled up.",
            table::LEAST * 1000.0,
            if kind == Kind::Price { "for the least total" } else { "whether there is an answer" },
            bench.limit
        );
        if kind == Kind::Price {
            println!(
                "Of a family of more than {PRICED} cases they get two, and the ratio of the totals is that of these."
            );
        }
        for name in peers.missing(kind) {
            println!("{name} is missing; what needs it is left out.");
        }
    }
    println!();
}

fn run(options: &Options) -> Bench {
    let repetitions = if options.quick { 5 } else { 20 };
    let asked_for = options.peers && !options.growth && !options.without_families();
    let peers = asked_for.then(|| Peers::find(Path::new("target/bench/peers")));
    let mut bench = Bench {
        effort: Effort { repetitions, seconds: 0.0005, patience: 4.0, clock: Clock::Monotonic },
        peers,
        limit: options.limit,
        faults: Vec::new(),
        slow: Vec::new(),
        stack: Stack::new(),
        deepest: (0, String::new()),
    };
    if options.growth {
        grow(&mut bench);
    } else {
        if options.has_families() {
            compare(&mut bench, options);
        }
        if options.has_passes() {
            make_passes(&mut bench, options);
        }
        if options.has_fairs() {
            hold_fairs(&mut bench, options);
        }
    }
    println!("The most stack that a question took: {} bytes, {}\n", bench.deepest.0, bench.deepest.1);
    bench
}

fn grow(bench: &mut Bench) {
    preface(bench);
    println!("{}\n", growth::legend());
    for series in growth::all(SEED) {
        println!("{}\n{}", series.title, growth::head());
        for (label, instances) in series.points {
            let cases = cases(instances);
            let figures: Vec<Figures> = cases.iter().map(|case| bench.figures(series.title, case, [None; 3])).collect();
            println!("{}", growth::row(&label, &figures));
        }
        println!();
    }
}

fn compare(bench: &mut Bench, options: &Options) {
    let first = if options.prices { Kind::Price } else { Kind::Choice };
    let rivals = table::rivals(first);
    preface(bench);
    legend(bench, first);
    println!("{}", table::head(rivals));
    let mut worst = String::new();
    let mut kind: Option<Kind> = None;
    for family in options.families() {
        if kind.replace(family.kind) != Some(family.kind) {
            println!("{}", table::title(family.kind));
        }
        let cases: Vec<Case> = cases(family.instances).into_iter().step_by(options.every()).collect();
        let every = if options.prices && cases.len() > PRICED { cases.len().div_ceil(2) } else { 1 };
        let wanted = |number: usize| rivals.map(|rival| (number % every == 0).then_some(rival));
        let measured = cases.iter().enumerate().map(|(number, case)| bench.figures(family.name, case, wanted(number)));
        let figures: Vec<Figures> = measured.collect();
        println!("{}", table::row(family.name, &figures));
        worst += &table::worst_cases(family.name, rivals, &figures);
    }
    println!("\nThe cases of the largest figures\n{worst}");
}

fn make_passes(bench: &mut Bench, options: &Options) {
    println!("{}\n\n{}\nPass", pass::legend(&bench.pass_effort()), pass::head());
    for Passes { name, passes } in options.passes() {
        let asked: Vec<pass::Asked> = passes.into_iter().step_by(options.every()).map(pass::Asked::new).collect();
        println!("{}", pass::row(name, &bench.passes(name, &asked)));
    }
    println!();
}

fn hold_fairs(bench: &mut Bench, options: &Options) {
    println!("{}\n\n{}", fair::legend(&bench.fair_effort()), fair::head());
    for sort in fairs::SORTS {
        println!("{}", fair::title(sort));
        let mut all = Vec::new();
        for Fairs { name, fairs } in options.fairs(sort) {
            let asked = fairs.into_iter().step_by(options.every()).map(fair::Asked::new);
            let figures: Vec<fair::Figures> = asked.map(|asked| bench.fair(name, sort, &asked)).collect();
            println!("{}", fair::row(name, &figures));
            all.extend(figures);
        }
        println!("{}", fair::row("all of these", &all));
    }
    println!();
}

fn main() -> ExitCode {
    let Some(options) = options(std::env::args().skip(1)) else {
        eprintln!("{USAGE}");
        return ExitCode::from(2);
    };
    if !options.has_families() && !options.has_passes() && !options.has_fairs() {
        eprintln!("bench: no family has '{}' in its name", options.family);
        return ExitCode::from(2);
    }
    let Bench { faults, slow, .. } = run(&options);
    for fault in faults.iter().chain(&slow) {
        println!("{fault}");
    }
    println!("{}", if faults.is_empty() { "All answers agree." } else { "Answers differ or are wrong." });
    if !slow.is_empty() {
        println!("A fair takes longer than it may.");
    }
    ExitCode::from(u8::from(!faults.is_empty() || !slow.is_empty()))
}
