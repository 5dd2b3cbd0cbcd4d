//! The families of prices: networks of articles with a price each, of which the cheapest selection is asked for. Most
//! have 64 articles. "001" is the source paper, as in docs/RULES.md.

use super::networks::{self, clash, clash_where, network, ARTICLES, EDGES};
use super::random::Random;
use super::Instances;
use crate::job::{Article, Choice, Question};

/// How articles are priced, in cents.
#[derive(Clone, Copy, Debug)]
pub enum Prices {
    /// Round ones from 9.00 to 899.00, and those 99 cents above.
    Catalogue,
    /// 1.00 each.
    Equal,
    OneToNine,
    /// By the wishes that an article carries, 30.00 each, with some more.
    ByWishes,
    HalfNegative,
    Negative,
    MinusOne,
    /// Whatever four bytes hold.
    Any,
    Zero,
}

const ALL_PRICES: [Prices; 9] = [
    Prices::Catalogue,
    Prices::Equal,
    Prices::OneToNine,
    Prices::ByWishes,
    Prices::HalfNegative,
    Prices::Negative,
    Prices::MinusOne,
    Prices::Any,
    Prices::Zero,
];

impl Prices {
    fn of(self, random: &mut Random, article: &Article) -> i32 {
        let mut below = |bound: usize| random.below(bound) as i32;
        match self {
            Prices::Catalogue => 1_000 * (1 + below(90)) - 100 + 99 * below(2),
            Prices::Equal => 100,
            Prices::OneToNine => 1 + below(9),
            Prices::ByWishes => 3_000 * article.wishes.count_ones() as i32 + below(3_000),
            Prices::HalfNegative => (1 + below(50_000)) * (1 - 2 * below(2)),
            Prices::Negative => -1 - below(50_000),
            Prices::MinusOne => -1,
            Prices::Any => random.word() as i32,
            Prices::Zero => 0,
        }
    }

    fn put(self, random: &mut Random, job: &mut Choice) {
        for article in &mut job.articles {
            article.price = self.of(random, article);
        }
    }
}

/// Instances of a family that is drawn in one way.
const DRAWN: usize = 8;

/// In hundredths of a percent.
const RATE: u64 = 1_900;

pub fn ask(label: impl Into<String>, job: Choice) -> (String, Question) {
    (label.into(), Question::Price { job, rate: RATE })
}

/// Networks with these prices. The draw is told how many there are already.
fn priced(random: &mut Random, prices: Prices, draw: impl Fn(&mut Random, usize) -> Choice) -> Instances {
    let mut instances = Vec::new();
    for i in 0..DRAWN {
        let mut job = draw(random, i);
        prices.put(random, &mut job);
        instances.push(ask(format!("number {}", i + 1), job));
    }
    instances
}

// The networks of choice

/// With 40 wishes, which is where choice is hardest (001, section 5.1).
pub fn networks(random: &mut Random, prices: Prices) -> Instances {
    let edges = |i: usize| EDGES[i % EDGES.len()];
    priced(random, prices, |random, i| networks::random_network(random, ARTICLES, 40, ARTICLES, edges(i)))
}

/// A network of this many articles at catalogue prices, drawn as for choice.
pub fn network_of_size(random: &mut Random, articles: usize) -> Question {
    let edges = EDGES[random.below(EDGES.len())];
    let mut job = networks::random_network(random, articles, articles * 5 / 8, articles, edges);
    Prices::Catalogue.put(random, &mut job);
    Question::Price { job, rate: RATE }
}

/// At 0.18 there are many selections, at 0.3 fewer.
pub fn cliques(random: &mut Random, prices: Prices) -> Instances {
    priced(random, prices, |random, i| networks::clique_network(random, if i < DRAWN / 2 { 0.18 } else { 0.3 }))
}

/// 8 pigeons in 7 holes, so there is no selection.
pub fn pigeonholes(random: &mut Random) -> Instances {
    let mut instances = Vec::new();
    for (how, places) in networks::numberings(random, 8) {
        for (by, by_pigeon) in [("by hole", false), ("by hole and pigeon", true)] {
            let mut job = networks::pigeonhole(&places, 8, by_pigeon);
            Prices::Catalogue.put(random, &mut job);
            instances.push(ask(format!("{by}, {how}"), job));
        }
    }
    instances
}

/// 32 variables, so that there are 64 literals, and 64 clauses.
pub fn three_sat(random: &mut Random, prices: Prices) -> Instances {
    priced(random, prices, |random, _| networks::formula(random, ARTICLES / 2, 64))
}

// Networks by the carriers of a wish

/// The wishes of each article, if each wish has so many carriers.
fn carried_by(random: &mut Random, articles: usize, wishes: usize, carriers: usize) -> Vec<u64> {
    let mut carried = vec![0; articles];
    for wish in 0..wishes {
        for article in random.shuffled(articles).into_iter().take(carriers) {
            carried[article] |= 1 << wish;
        }
    }
    carried
}

pub fn drawn_clashes(random: &mut Random, mut job: Choice, edges: f64) -> Choice {
    clash_where(&mut job, |_, _| random.chance(edges));
    job
}

/// 64 articles, with so many carriers of each wish.
pub fn carriers(random: &mut Random, wishes: usize, carriers: usize, edges: f64) -> Choice {
    let job = network(wishes, &carried_by(random, ARTICLES, wishes, carriers));
    drawn_clashes(random, job, edges)
}

pub fn six_carriers(random: &mut Random, prices: Prices) -> Instances {
    priced(random, prices, |random, _| carriers(random, 32, 6, 0.05))
}

/// Rooms that have nothing to do with each other, each with 8 articles and 8 wishes of 3 carriers.
pub fn rooms(random: &mut Random) -> Instances {
    let draw = |random: &mut Random, _| {
        let mut carried = Vec::new();
        for i in 0..8 {
            carried.extend(carried_by(random, 8, 8, 3).into_iter().map(|wishes| wishes << (8 * i)));
        }
        network(64, &carried)
    };
    priced(random, Prices::Equal, draw)
}

/// Up to 12 articles, and up to 8 wishes of 1 to 3 carriers, of which some or none may be ordered, with prices of each
/// kind. They are so small that all sets of articles are tried to check the answer.
pub fn small_networks(random: &mut Random) -> Instances {
    let mut instances = Vec::new();
    for prices in ALL_PRICES {
        for i in 0..200 {
            let mut job = small_network(random);
            prices.put(random, &mut job);
            let rate = random.below(10_001) as u64;
            let label = format!("prices {prices:?}, hundred {}", 1 + i / 100);
            instances.push((label, Question::Price { job, rate }));
        }
    }
    instances
}

fn small_network(random: &mut Random) -> Choice {
    let (articles, wishes, carriers) = (1 + random.below(12), 1 + random.below(8), 1 + random.below(3));
    let job = network(wishes, &carried_by(random, articles, wishes, carriers));
    let order = [job.order, job.order, job.order & random.word(), 0][random.below(4)];
    let edges = [0.0, 0.1, 0.3, 0.6][random.below(4)];
    drawn_clashes(random, Choice { order, ..job }, edges)
}

// Networks by the wishes of an article

/// As many wishes as articles, of which each carries so many; what nobody carries then goes to somebody. No clashes.
pub fn wishes_each(random: &mut Random, articles: usize, each: usize) -> Choice {
    let mut carried: Vec<u64> = (0..articles).map(|_| random.subset(each, articles)).collect();
    for wish in 0..articles {
        if carried.iter().all(|set| set >> wish & 1 == 0) {
            carried[random.below(articles)] |= 1 << wish;
        }
    }
    network(articles, &carried)
}

pub fn without_clashes(random: &mut Random, each: usize, prices: Prices) -> Instances {
    priced(random, prices, |random, _| wishes_each(random, ARTICLES, each))
}

/// This many articles of 6 wishes and equal prices, without clashes.
pub fn covers_of_size(random: &mut Random, articles: usize) -> Question {
    let mut job = wishes_each(random, articles, 6);
    Prices::Equal.put(random, &mut job);
    Question::Price { job, rate: RATE }
}

// Rings

/// The next article on its ring of this size.
fn next(article: usize, size: usize) -> usize {
    article / size * size + (article + 1) % size
}

fn at_one_price(label: String, mut job: Choice, price: i32) -> (String, Question) {
    job.articles.iter_mut().for_each(|article| article.price = price);
    ask(label, job)
}

/// Each wish is carried by two neighbours, so an odd ring takes half an article more than the bound says.
pub fn rings(_: &mut Random) -> Instances {
    let ring = |(count, size): (usize, usize)| {
        let mut carried = vec![0; count * size];
        for wish in 0..count * size {
            carried[wish] |= 1 << wish;
            carried[next(wish, size)] |= 1 << wish;
        }
        at_one_price(format!("{count} rings of {size}"), network(count * size, &carried), 100)
    };
    [(9, 7), (12, 5), (21, 3)].map(ring).into()
}

/// Neighbours exclude each other.
pub fn rings_of_trade_ins(_: &mut Random) -> Instances {
    let ring = |(count, size): (usize, usize)| {
        let mut job = network(0, &vec![0; count * size]);
        (0..count * size).for_each(|a| clash(&mut job, a, next(a, size)));
        at_one_price(format!("{count} rings of {size}"), job, -100)
    };
    [(9, 7), (12, 5)].map(ring).into()
}

// Nothing ordered

/// Nothing is asked for, so that only what has a negative price is taken: the heaviest set without clashes.
pub fn trade_ins(random: &mut Random, prices: Prices) -> Instances {
    let mut instances = Vec::new();
    for edges in [0.03, 0.05, 0.08, 0.12, 0.2, 0.4] {
        for i in 1..=2 {
            let mut job = drawn_clashes(random, network(0, &[0; ARTICLES]), edges);
            prices.put(random, &mut job);
            instances.push(ask(format!("edges {edges}, number {i}"), job));
        }
    }
    instances
}

/// As many rounds through all articles, in each of which an article clashes with the next: so most clash with twice as
/// many.
fn in_rounds(random: &mut Random, rounds: usize) -> Choice {
    let mut job = network(0, &[0; ARTICLES]);
    for _ in 0..rounds {
        let round = random.shuffled(ARTICLES);
        (0..ARTICLES).for_each(|i| clash(&mut job, round[i], round[(i + 1) % ARTICLES]));
    }
    job
}

pub fn regular(random: &mut Random, clashes: usize) -> Instances {
    priced(random, Prices::MinusOne, |random, _| in_rounds(random, clashes / 2))
}
