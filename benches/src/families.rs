//! The families of instances. The seed is fixed, so every run has the same instances.

mod catalogues;
pub mod fairs;
pub mod fittings;
pub mod networks;
pub mod passes;
pub mod priced;
pub mod random;
mod worst;

use crate::job::{Choice, Fitting, Question, Step};
use priced::Prices;
use random::Random;

#[derive(Clone, Copy, PartialEq)]
pub enum Kind {
    Choice,
    Fitting,
    Price,
}

/// Questions that follow each other under the same label are one instance, measured as a whole.
pub type Instances = Vec<(String, Question)>;

pub struct Family {
    pub name: &'static str,
    pub kind: Kind,
    pub instances: Instances,
}

/// How a family draws its instances.
type Draw = fn(&mut Random) -> Instances;

const CHOICE: [(&str, Draw); 8] = [
    ("random networks", networks::random_networks),
    ("cliques 8x8", networks::cliques),
    ("pigeonhole by hole", networks::pigeonhole_by_hole),
    ("pigeonhole by hole and pigeon", networks::pigeonhole_by_both),
    ("3-SAT", networks::three_sat),
    ("floors rising", networks::floors_rising),
    ("floors random", networks::floors_random),
    ("worst found", worst::choices),
];

const FITTING: [(&str, Draw); 10] = [
    ("Hanoi", fittings::hanoi),
    ("dock robots", fittings::dock_robots),
    ("refuelling planes", fittings::planes),
    ("logistics", fittings::logistics),
    ("unsolvable rings", fittings::rings),
    ("pigeons in rounds", fittings::pigeons),
    ("counters", fittings::counters),
    ("toggles", fittings::toggles),
    ("random jobs", fittings::random_jobs),
    ("worst found", worst::fittings),
];

const PRICE: [(&str, Draw); 32] = [
    ("001, catalogue prices", |random| priced::networks(random, Prices::Catalogue)),
    ("001, half negative", |random| priced::networks(random, Prices::HalfNegative)),
    ("001, any prices", |random| priced::networks(random, Prices::Any)),
    ("001, no prices", |random| priced::networks(random, Prices::Zero)),
    ("cliques 8x8, catalogue prices", |random| priced::cliques(random, Prices::Catalogue)),
    ("cliques 8x8, equal prices", |random| priced::cliques(random, Prices::Equal)),
    ("cliques 8x8, half negative", |random| priced::cliques(random, Prices::HalfNegative)),
    ("6 carriers, by wishes", |random| priced::six_carriers(random, Prices::ByWishes)),
    ("6 carriers, half negative", |random| priced::six_carriers(random, Prices::HalfNegative)),
    ("catalogues", catalogues::catalogues),
    ("8 rooms of 8", priced::rooms),
    ("odd rings", priced::rings),
    ("odd rings of trade-ins", priced::rings_of_trade_ins),
    ("order empty, negative", |random| priced::trade_ins(random, Prices::Negative)),
    ("order empty, all -1", |random| priced::trade_ins(random, Prices::MinusOne)),
    ("order empty, 4-regular", |random| priced::regular(random, 4)),
    ("order empty, 6-regular", |random| priced::regular(random, 6)),
    ("3 wishes, catalogue prices", |random| priced::without_clashes(random, 3, Prices::Catalogue)),
    ("3 wishes, equal prices", |random| priced::without_clashes(random, 3, Prices::Equal)),
    ("3 wishes, by wishes", |random| priced::without_clashes(random, 3, Prices::ByWishes)),
    ("6 wishes, catalogue prices", |random| priced::without_clashes(random, 6, Prices::Catalogue)),
    ("6 wishes, equal prices", |random| priced::without_clashes(random, 6, Prices::Equal)),
    ("6 wishes, by wishes", |random| priced::without_clashes(random, 6, Prices::ByWishes)),
    ("12 wishes, catalogue prices", |random| priced::without_clashes(random, 12, Prices::Catalogue)),
    ("12 wishes, equal prices", |random| priced::without_clashes(random, 12, Prices::Equal)),
    ("12 wishes, by wishes", |random| priced::without_clashes(random, 12, Prices::ByWishes)),
    ("pigeonholes", priced::pigeonholes),
    ("3-SAT, 1 to 9", |random| priced::three_sat(random, Prices::OneToNine)),
    ("3-SAT, equal prices", |random| priced::three_sat(random, Prices::Equal)),
    ("3-SAT, half negative", |random| priced::three_sat(random, Prices::HalfNegative)),
    ("small networks", priced::small_networks),
    ("worst found", worst::prices),
];

/// Those of choice and fitting.
pub fn all(seed: u64) -> Vec<Family> {
    let choice = CHOICE.map(|(name, draw)| (name, Kind::Choice, draw));
    let fitting = FITTING.map(|(name, draw)| (name, Kind::Fitting, draw));
    choice.into_iter().chain(fitting).map(|(name, kind, draw)| family(seed, name, kind, draw)).collect()
}

pub fn prices(seed: u64) -> Vec<Family> {
    PRICE.into_iter().map(|(name, draw)| family(seed, name, Kind::Price, draw)).collect()
}

/// Each family has a generator of its own, so that a change to one leaves the others as they are.
fn generator(seed: u64, name: &str) -> Random {
    Random::new(name.bytes().fold(seed, |sum, byte| sum.wrapping_mul(31).wrapping_add(byte.into())))
}

fn family(seed: u64, name: &'static str, kind: Kind, draw: Draw) -> Family {
    let instances = draw(&mut generator(seed, name));
    for (label, question) in &instances {
        assert!(valid(question), "{name}: {label} is beyond the limits of a job file");
    }
    Family { name, kind, instances }
}

fn valid(question: &Question) -> bool {
    match question {
        Question::Choose { job, .. } | Question::Price { job, .. } => valid_choice(job),
        Question::Plan { job } => valid_fitting(job),
    }
}

fn valid_choice(job: &Choice) -> bool {
    let carried = job.articles.iter().fold(job.order, |all, article| all | article.wishes);
    let lower = job.articles.iter().enumerate().all(|(i, article)| within(article.clashes, i));
    job.articles.len() <= 64 && job.wishes <= 64 && within(carried, job.wishes) && lower
}

fn valid_fitting(job: &Fitting) -> bool {
    let in_step = |step: &Step| step.needs | step.gives | step.takes;
    let named = job.steps.iter().fold(job.start | job.goal, |all, step| all | in_step(step));
    job.steps.len() <= 32 && job.facts <= 32 && job.horizon <= 16 && within(named.into(), job.facts)
}

/// Whether all members of a set are below the bound.
fn within(set: u64, bound: usize) -> bool {
    bound >= 64 || set >> bound == 0
}

/// The set of all numbers below the bound.
fn full(bound: usize) -> u64 {
    if bound >= 64 {
        u64::MAX
    } else {
        (1 << bound) - 1
    }
}
