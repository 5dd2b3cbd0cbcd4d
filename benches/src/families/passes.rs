//! Passes of the filter: networks of 64 articles, each with a live set.

use super::generator;
use super::networks::{self, ARTICLES};
use crate::job::Choice;

/// Networks, which are the same ones however many articles are live.
const DRAWN: usize = 40;

/// So many of them have the same count of wishes: 8, 16, and so on up to 64.
const ALIKE: usize = 5;

/// As in the first pass of a choice.
const ALL: usize = ARTICLES;
/// As after passes that struck much.
const HALF: usize = ARTICLES / 2;
/// So few that most goals fall short, and what a pass costs whatever is live stands out.
const FEW: usize = 4;

const ROWS: [(&str, usize); 3] = [("all live", ALL), ("half live", HALF), ("few live", FEW)];

/// The goal is the whole order.
pub struct Pass {
    pub label: String,
    pub job: Choice,
    pub live: u64,
}

/// Those with the same count of live articles.
pub struct Passes {
    pub name: &'static str,
    pub passes: Vec<Pass>,
}

pub fn all(seed: u64) -> Vec<Passes> {
    ROWS.map(|(name, live)| passes(seed, name, live)).into()
}

fn passes(seed: u64, name: &'static str, live: usize) -> Passes {
    let jobs = &mut generator(seed, "passes");
    let lives = &mut generator(seed, &format!("passes, {name}"));
    let mut pass = |i| {
        let wishes = 8 * (1 + i / ALIKE);
        let label = format!("{wishes} wishes, number {}", 1 + i % ALIKE);
        Pass { label, job: networks::of_size(jobs, ARTICLES, wishes), live: lives.subset(live, ARTICLES) }
    };
    Passes { name, passes: (0..DRAWN).map(&mut pass).collect() }
}
