//! The families of choice: networks of articles that clash, with an order to cover. "001" is the source paper, as in
//! docs/RULES.md.

use super::random::Random;
use super::{full, Instances};
use crate::job::{Article, Choice, Question};
use crate::ours;

/// Articles that carry these wishes, without clashes; all wishes are ordered.
pub fn network(wishes: usize, carried: &[u64]) -> Choice {
    let articles = carried.iter().map(|wishes| Article { wishes: *wishes, clashes: 0, price: 0 }).collect();
    Choice { wishes, order: full(wishes), articles }
}

pub fn clash(job: &mut Choice, a: usize, b: usize) {
    job.articles[a.max(b)].clashes |= 1 << a.min(b);
}

pub fn clash_where(job: &mut Choice, mut clashes: impl FnMut(usize, usize) -> bool) {
    for high in 0..job.articles.len() {
        for low in 0..high {
            if clashes(high, low) {
                clash(job, high, low);
            }
        }
    }
}

/// The question for the smallest selection of all.
fn smallest(label: String, job: Choice) -> (String, Question) {
    (label, Question::Choose { job, floor: 0 })
}

/// Our own answer: the smallest selection at or above the floor.
fn selection(job: &Choice, floor: u64) -> Option<u64> {
    let file = job.file();
    ours::choose(&file, &ours::own_groups(&file), &[job.order], floor).ok().map(|(selection, _)| selection)
}

// Random networks (001, section 5.1)

pub const ARTICLES: usize = 64;

/// The clique of each article. The paper's cliques have some 20 of 120 articles; here 1 to 20 of 64. Articles that are
/// left over after `most` cliques are each alone.
fn cliques_of(random: &mut Random, articles: usize, most: usize) -> Vec<usize> {
    let mut clique = Vec::new();
    for number in 0..most {
        let size = 1 + random.below(20);
        clique.extend(vec![number; size.min(articles - clique.len())]);
    }
    let alone = articles - clique.len();
    clique.extend((0..alone).map(|i| most + i));
    clique
}

/// As the paper has it: normal(8, 6) wishes an article, and each edge besides with probability m.
pub fn random_network(random: &mut Random, articles: usize, wishes: usize, cliques: usize, m: f64) -> Choice {
    let mut drawn = || {
        let size = random.normal(8.0, 6.0).round().clamp(1.0, wishes as f64);
        random.subset(size as usize, wishes)
    };
    let carried: Vec<u64> = (0..articles).map(|_| drawn()).collect();
    let clique = cliques_of(random, articles, cliques);
    let mut job = network(wishes, &carried);
    clash_where(&mut job, |a, b| clique[a] == clique[b] || random.chance(m));
    job
}

pub const EDGES: [f64; 6] = [0.0, 0.02, 0.04, 0.06, 0.08, 0.1];

/// Wishes, and the most cliques. The paper's goal of 60 has a cover only if many articles are in no clique: so the
/// smaller goals go with cliques alone, and the largest with 2 to 4 cliques and single articles.
const GOALS: [(usize, usize); 8] = [(24, 64), (32, 64), (40, 64), (44, 64), (48, 64), (60, 4), (60, 3), (60, 2)];

pub fn random_networks(random: &mut Random) -> Instances {
    let mut instances = Vec::new();
    for m in EDGES {
        for (wishes, most) in GOALS {
            let cliques = if most < ARTICLES { format!("{most} cliques") } else { "only cliques".into() };
            let label = format!("m {m}, {wishes} wishes, {cliques}");
            instances.push(smallest(label, random_network(random, ARTICLES, wishes, most, m)));
        }
    }
    instances
}

/// A network of this many articles and wishes, by cliques alone.
pub fn of_size(random: &mut Random, articles: usize, wishes: usize) -> Choice {
    let m = EDGES[random.below(EDGES.len())];
    random_network(random, articles, wishes, articles, m)
}

/// A network of 64 wishes, by at most so many cliques and single articles.
pub fn of_cliques(random: &mut Random, most: usize) -> Choice {
    let m = EDGES[random.below(EDGES.len())];
    random_network(random, ARTICLES, 64, most, m)
}

// Cliques

/// A constraint problem of 8 variables with 8 values: an article is a value, and a wish asks for a value of its
/// variable.
pub fn clique_network(random: &mut Random, edges: f64) -> Choice {
    let carried: Vec<u64> = (0..ARTICLES).map(|article| 1 << (article / 8)).collect();
    let mut job = network(8, &carried);
    clash_where(&mut job, |a, b| a / 8 == b / 8 || random.chance(edges));
    job
}

/// At 0.18 there are many selections. About half of the networks have one at 0.45, where 8^8 * (1 - p)^28 is about 1.
pub fn cliques(random: &mut Random) -> Instances {
    let mut instances = Vec::new();
    for (edges, count) in [(0.18, 10), (0.42, 10), (0.45, 10), (0.48, 10)] {
        for i in 1..=count {
            instances.push(smallest(format!("edges {edges}, number {i}"), clique_network(random, edges)));
        }
    }
    instances
}

// Pigeonholes

/// Each pigeon wishes a hole; an article is a pigeon in a hole.
pub fn pigeonhole(places: &[(usize, usize)], pigeons: usize, by_pigeon: bool) -> Choice {
    let carried: Vec<u64> = places.iter().map(|(pigeon, _)| 1 << pigeon).collect();
    let mut job = network(pigeons, &carried);
    clash_where(&mut job, |a, b| places[a].1 == places[b].1 || (by_pigeon && places[a].0 == places[b].0));
    job
}

/// The same articles, numbered by pigeon, by hole, and twice at random.
pub fn numberings(random: &mut Random, pigeons: usize) -> Vec<(&'static str, Vec<(usize, usize)>)> {
    let holes = pigeons - 1;
    let by_pigeon: Vec<_> = (0..pigeons * holes).map(|i| (i / holes, i % holes)).collect();
    let by_hole = (0..pigeons * holes).map(|i| (i % pigeons, i / pigeons)).collect();
    let mut mixed = || random.shuffled(pigeons * holes).into_iter().map(|i| (i / holes, i % holes)).collect();
    let (one, other) = (mixed(), mixed());
    vec![("numbered by pigeon", by_pigeon), ("numbered by hole", by_hole), ("shuffled", one), ("shuffled again", other)]
}

fn pigeonholes(random: &mut Random, by_pigeon: bool) -> Instances {
    let mut instances = Vec::new();
    for pigeons in 5..=8 {
        for (how, places) in numberings(random, pigeons) {
            instances.push(smallest(format!("{pigeons} pigeons, {how}"), pigeonhole(&places, pigeons, by_pigeon)));
        }
    }
    instances
}

pub fn pigeonhole_by_hole(random: &mut Random) -> Instances {
    pigeonholes(random, false)
}

pub fn pigeonhole_by_both(random: &mut Random) -> Instances {
    pigeonholes(random, true)
}

// Satisfaction (001, section 3)

/// An article is a literal, 2v for a variable and 2v + 1 for its negation; a wish is a clause.
pub fn formula(random: &mut Random, variables: usize, clauses: usize) -> Choice {
    let mut carried = vec![0; 2 * variables];
    for clause in 0..clauses {
        for variable in random.shuffled(variables).into_iter().take(3) {
            carried[2 * variable + random.below(2)] |= 1 << clause;
        }
    }
    let mut job = network(clauses, &carried);
    clash_where(&mut job, |a, b| a / 2 == b / 2);
    job
}

/// With 64 clauses, 20 variables suffice, 15 mostly do, though their ratio is the 4.26 where large formulas turn, and
/// with 13 about half of these small formulas can't be satisfied.
pub fn three_sat(random: &mut Random) -> Instances {
    let mut instances = Vec::new();
    for variables in [20, 15, 13] {
        for i in 1..=16 {
            instances.push(smallest(format!("{variables} variables, number {i}"), formula(random, variables, 64)));
        }
    }
    instances
}

// Floors

/// How many selections are asked for, one above the other.
const SERIES: usize = 1_000;

/// The first selections by rising floor: each question asks for the next. The last finds none if there are fewer.
fn series(label: &str, job: Choice) -> Instances {
    let mut questions = Vec::new();
    let mut next = Some(0);
    while let Some(floor) = next.filter(|_| questions.len() < SERIES) {
        next = selection(&job, floor).and_then(|found| found.checked_add(1));
        questions.push((label.to_string(), Question::Choose { job: job.clone(), floor }));
    }
    questions
}

/// Draws until there is a selection.
pub fn with_selection(mut draw: impl FnMut() -> Choice) -> Choice {
    loop {
        let job = draw();
        if selection(&job, 0).is_some() {
            return job;
        }
    }
}

pub fn floors_rising(random: &mut Random) -> Instances {
    let network = with_selection(|| random_network(random, ARTICLES, 24, 64, 0.02));
    let cliques = with_selection(|| clique_network(random, 0.3));
    let formula = with_selection(|| formula(random, 20, 64));
    let named = [("random network", network), ("cliques 8x8", cliques), ("3-SAT, 20 variables", formula)];
    named.into_iter().flat_map(|(label, job)| series(label, job)).collect()
}

/// The floors of a network: two anywhere, and one near 2^63, from where on the highest article is in.
fn floors(random: &mut Random) -> [u64; 3] {
    let near = (1u64 << 63).wrapping_add(random.word() >> 44).wrapping_sub(1 << 19);
    [random.word(), random.word(), near]
}

pub fn floors_random(random: &mut Random) -> Instances {
    let mut instances = Vec::new();
    for i in 1..=20 {
        let (wishes, cliques) = GOALS[i % GOALS.len()];
        let m = EDGES[i % EDGES.len()];
        let job = with_selection(|| random_network(random, ARTICLES, wishes, cliques, m));
        for floor in floors(random) {
            instances.push((format!("network {i}, floor {floor:#018x}"), Question::Choose { job: job.clone(), floor }));
        }
    }
    instances
}
