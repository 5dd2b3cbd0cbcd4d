//! The family of catalogues, as a shop has them: groups of alternatives, accessories and trade-ins.

use super::networks::with_selection;
use super::priced::{ask, drawn_clashes};
use super::random::Random;
use super::{full, Instances};
use crate::job::{Article, Choice};

/// Of the alternatives of a group, each carries more wishes and costs more than the one before; an accessory carries
/// wishes of any group.
struct Catalogue {
    groups: usize,
    alternatives: usize,
    /// Of each group.
    wishes: usize,
    accessories: usize,
    trade_ins: usize,
    /// How likely an alternative carries a wish of another group, too. Any two articles clash 0.15 times as likely.
    further: f64,
    /// How likely a wish is ordered.
    ordered: f64,
}

const CATALOGUES: [Catalogue; 4] = [
    Catalogue { groups: 12, alternatives: 4, wishes: 4, accessories: 8, trade_ins: 8, further: 0.3, ordered: 0.5 },
    Catalogue { groups: 12, alternatives: 4, wishes: 4, accessories: 8, trade_ins: 8, further: 0.3, ordered: 1.0 },
    Catalogue { groups: 8, alternatives: 6, wishes: 6, accessories: 12, trade_ins: 4, further: 0.6, ordered: 1.0 },
    Catalogue { groups: 16, alternatives: 3, wishes: 3, accessories: 0, trade_ins: 16, further: 0.2, ordered: 0.7 },
];

/// 64 articles and 64 wishes.
const OF_FAIR: Catalogue =
    Catalogue { groups: 16, alternatives: 3, wishes: 4, accessories: 8, trade_ins: 8, further: 0.3, ordered: 1.0 };

impl Catalogue {
    fn all_wishes(&self) -> usize {
        self.groups * self.wishes
    }

    /// The alternative of a rank carries about as large a share of the wishes of its group.
    fn share(&self, random: &mut Random, rank: usize) -> u64 {
        let carries = |wish: &usize| wish * self.alternatives <= rank * self.wishes + random.below(self.alternatives);
        (0..self.wishes).filter(carries).fold(0, |set, wish| set | 1 << wish)
    }

    fn group(&self, random: &mut Random, group: usize) -> Vec<Article> {
        let mut price = 2_000 + random.below(40_000) as i32;
        let mut articles = Vec::new();
        for rank in 0..self.alternatives {
            price += 100 + random.below(9_000) as i32;
            let own = self.share(random, rank) << (group * self.wishes);
            let further = if random.chance(self.further) { random.subset(1, self.all_wishes()) } else { 0 };
            let before = full(rank) << (group * self.alternatives);
            articles.push(Article { wishes: own | further, clashes: before, price });
        }
        articles
    }

    fn accessory(&self, random: &mut Random) -> Article {
        let count = 1 + random.below(4);
        let price = (500 * count + random.below(20_000)) as i32;
        Article { wishes: random.subset(count, self.all_wishes()), clashes: 0, price }
    }

    /// Up to 3 of the articles before it exclude it.
    fn trade_in(&self, random: &mut Random, before: usize) -> Article {
        let count = random.below(4);
        Article { wishes: 0, clashes: random.subset(count, before), price: -500 - random.below(30_000) as i32 }
    }

    fn job(&self, random: &mut Random) -> Choice {
        let mut articles: Vec<Article> = (0..self.groups).flat_map(|group| self.group(random, group)).collect();
        articles.extend((0..self.accessories).map(|_| self.accessory(random)));
        for _ in 0..self.trade_ins {
            articles.push(self.trade_in(random, articles.len()));
        }
        let ordered = (0..self.all_wishes()).filter(|_| random.chance(self.ordered));
        let order = ordered.fold(0, |set, wish| set | 1 << wish);
        drawn_clashes(random, Choice { wishes: self.all_wishes(), order, articles }, 0.15 * self.further)
    }

    fn name(&self) -> String {
        let Catalogue { groups, alternatives, accessories, trade_ins, ordered, .. } = self;
        let articles = format!("{groups} groups of {alternatives}, {accessories} accessories, {trade_ins} trade-ins");
        format!("{articles}, {ordered} of the wishes")
    }
}

pub fn catalogues(random: &mut Random) -> Instances {
    let mut instances = Vec::new();
    for catalogue in CATALOGUES {
        for i in 1..=2 {
            let job = with_selection(|| catalogue.job(random));
            instances.push(ask(format!("{}, number {i}", catalogue.name()), job));
        }
    }
    instances
}

pub fn of_fair(random: &mut Random) -> Choice {
    OF_FAIR.job(random)
}
