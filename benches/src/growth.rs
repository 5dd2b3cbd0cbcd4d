//! How the cost grows with the size of a job: at each point some drawn instances, of ours and of the twin.

use crate::families::random::Random;
use crate::families::{fittings, networks, priced, Instances};
use crate::job::{Choice, Fitting, Question};
use crate::table::Figures;

/// Instances a point.
const DRAWN: usize = 40;

pub struct Series {
    pub title: &'static str,
    pub points: Vec<(String, Instances)>,
}

/// The points of one kind of job, each size with its own draws.
fn points(
    random: &mut Random,
    sizes: impl IntoIterator<Item = usize>,
    label: impl Fn(usize) -> String,
    draw: impl Fn(&mut Random, usize) -> Question,
) -> Vec<(String, Instances)> {
    let mut point = |size| (0..DRAWN).map(|i| (format!("{}, number {i}", label(size)), draw(random, size))).collect();
    sizes.into_iter().map(|size| (label(size), point(size))).collect()
}

fn choose(job: Choice) -> Question {
    Question::Choose { job, floor: 0 }
}

fn plan(job: Fitting) -> Question {
    Question::Plan { job }
}

/// The same jobs under each horizon.
fn horizons(random: &mut Random, what: &str, draw: fn(&mut Random) -> Fitting) -> Vec<(String, Instances)> {
    let jobs: Vec<Fitting> = (0..DRAWN).map(|_| draw(random)).collect();
    let at = |horizon| {
        let label = format!("{what}, horizon {horizon}");
        let job = |i: usize| (format!("{label}, number {i}"), plan(Fitting { horizon, ..jobs[i].clone() }));
        (label.clone(), (0..DRAWN).map(job).collect())
    };
    [1, 2, 4, 8, 12, 16].map(at).into()
}

pub fn all(seed: u64) -> Vec<Series> {
    let random = &mut Random::new(seed);
    let eights = || (1..=8).map(|i| 8 * i);
    let articles = |n: usize| format!("{n} articles, {} wishes", n * 5 / 8);
    let wishes = |w: usize| format!("64 articles, {w} wishes");
    let by_articles = points(random, eights(), articles, |random, n| choose(networks::of_size(random, n, n * 5 / 8)));
    let by_wishes = points(random, eights(), wishes, |random, w| choose(networks::of_size(random, 64, w)));
    let by_horizon = [
        horizons(random, "Hanoi, 4 discs", |random| fittings::drawn_tower(random, 4)),
        horizons(random, "twice 4 bits, up and down", fittings::drawn_counters),
        horizons(random, "chain, needs 1, takes 2, goal 6", |random| fittings::chain(random, 1, 2, 6)),
        horizons(random, "8 variables, 2 asked for", |random| fittings::valued(random, 8, 2, 2)),
    ];
    let steps = |what| move |size: usize| format!("{what}, {} steps", 4 * size);
    let by_steps = [
        points(random, 3..=8, steps("lamps, even goal"), |random, n| plan(fittings::drawn_lamps(random, n, false))),
        points(random, 3..=8, steps("lamps, odd goal"), |random, n| plan(fittings::drawn_lamps(random, n, true))),
        points(random, 3..=8, steps("variables, 2 asked for"), |random, n| plan(fittings::valued(random, n, 2, 2))),
    ];
    let priced = points(random, eights(), articles, priced::network_of_size);
    let covers = |n: usize| format!("{n} articles, {n} wishes");
    let by_covers = points(random, eights(), covers, priced::covers_of_size);
    vec![
        Series { title: "Choice, by articles: random networks", points: by_articles },
        Series { title: "Choice, by wishes: random networks", points: by_wishes },
        Series { title: "Fitting, by horizon", points: by_horizon.concat() },
        Series { title: "Fitting, by steps", points: by_steps.concat() },
        Series { title: "Price, by articles: random networks, catalogue prices", points: priced },
        Series { title: "Price, by articles: 6 wishes each, no clashes, equal prices", points: by_covers },
    ]
}

pub fn legend() -> String {
    format!("Of each point {DRAWN} drawn instances: the median and the worst.")
}

pub fn head() -> String {
    let pair = format!("{:>10}{:>10}", "median", "worst");
    let above = format!("{:<42}{:>20}{:>20}{:>20}", "", "ours us", "twin us", "nodes");
    format!("{above}\n{:<42}{pair}{pair}{pair}", "")
}

/// The median, of an even count the upper one, and the largest.
fn pair(mut values: Vec<f64>) -> String {
    values.sort_by(f64::total_cmp);
    let cell = |value: f64| format!("{value:>10.*}", usize::from(value < 99.5 && value.fract() != 0.0));
    values[values.len() / 2..].first().into_iter().chain(values.last()).map(|value| cell(*value)).collect()
}

pub fn row(label: &str, all: &[Figures]) -> String {
    let values = |part: fn(&Figures) -> f64| pair(all.iter().map(part).collect());
    let (ours, twin) = (values(|f| f.ours * 1e6), values(|f| f.twin * 1e6));
    format!("{label:<42}{ours}{twin}{}", values(|f| f.nodes as f64))
}
