//! Fairs: lists of orders over one catalogue each, of 64 articles and 64 wishes.

use super::catalogues;
use super::networks::{self, ARTICLES};
use super::priced;
use super::random::Random;
use super::{generator, valid_choice};
use crate::job::Choice;

/// Orders a fair.
pub const ORDERS: usize = 1_000;

/// Of each family of catalogues.
const DRAWN: usize = 2;

const WISHES: usize = 64;

/// Orders by how many wishes they have.
#[derive(Clone, Copy)]
pub struct Sort {
    pub name: &'static str,
    pub least: usize,
    pub most: usize,
    /// How much of the time of single calls a fair may take.
    pub limit: f64,
}

pub const SORTS: [Sort; 3] = [
    Sort { name: "small", least: 1, most: 8, limit: 0.5 },
    Sort { name: "middle", least: 9, most: WISHES / 2 - 1, limit: 1.0 },
    Sort { name: "large", least: WISHES / 2, most: WISHES, limit: 1.0 },
];

pub struct Fair {
    pub label: String,
    pub catalogue: Choice,
    pub orders: Vec<u64>,
}

/// Those over one family of catalogues, with orders of one sort.
pub struct Fairs {
    pub name: &'static str,
    pub fairs: Vec<Fair>,
}

type Draw = fn(&mut Random) -> Choice;

const CATALOGUES: [(&str, Draw); 6] = [
    ("shop catalogues", catalogues::of_fair),
    ("random networks, 3 cliques", |random| networks::of_cliques(random, 3)),
    ("random networks, only cliques", |random| networks::of_cliques(random, ARTICLES)),
    ("6 carriers", |random| priced::carriers(random, WISHES, 6, 0.05)),
    ("3 wishes, no clashes", |random| priced::wishes_each(random, ARTICLES, 3)),
    ("3-SAT", |random| networks::formula(random, ARTICLES / 2, WISHES)),
];

impl Sort {
    fn order(&self, random: &mut Random) -> u64 {
        let size = self.least + random.below(self.most - self.least + 1);
        random.subset(size, WISHES)
    }
}

/// Each sort has the same catalogues.
pub fn all(seed: u64, sort: Sort) -> Vec<Fairs> {
    CATALOGUES.map(|(name, draw)| fairs(seed, sort, name, draw)).into()
}

fn fairs(seed: u64, sort: Sort, name: &'static str, draw: Draw) -> Fairs {
    let catalogues = &mut generator(seed, &format!("fair, {name}"));
    let orders = &mut generator(seed, &format!("{} orders, {name}", sort.name));
    let mut fair = |i| Fair {
        label: format!("number {}", i + 1),
        catalogue: catalogue(name, draw(catalogues)),
        orders: (0..ORDERS).map(|_| sort.order(orders)).collect(),
    };
    Fairs { name, fairs: (0..DRAWN).map(&mut fair).collect() }
}

fn catalogue(name: &str, job: Choice) -> Choice {
    let sizes = (job.articles.len(), job.wishes);
    assert!(valid_choice(&job) && sizes == (ARTICLES, WISHES), "{name}: a catalogue of a fair is of another size");
    job
}
