//! Plan extraction with nogoods.

use super::choice::Tables;
use super::layers::{facts_over, gather, round_over, Layer, Vertices};
use super::reader::Fitting;
use super::states;
use super::{members, transposed, Counts};

const SLOTS: usize = 8191;
/// A search is long while the place of its last nogood is this one or after it; that is no count of those stored.
const MANY: usize = 1024;
const ALL: u64 = 0xffff_ffff;

/// Sets of facts that a count of rounds does not reach.
struct Nogoods {
    slots: Vec<(usize, u64)>,
    /// Where the last was stored, from 1 on.
    last: usize,
}

impl Nogoods {
    fn lookup(&self, k: usize, facts: u64) -> Option<u64> {
        self.slots.iter().find(|(r, c)| k <= *r && c & !facts == 0).map(|(_, c)| *c)
    }

    fn store(&mut self, k: usize, facts: u64) {
        if self.slots.len() < SLOTS {
            self.slots.push((k, facts));
        } else {
            self.slots[self.last % SLOTS] = (k, facts);
        }
        self.last = self.last % SLOTS + 1;
    }
}

struct Search<'a> {
    needs: &'a [u64; 64],
    /// The members and the tables of each round layer.
    layers: Vec<(u64, Tables)>,
    start: u64,
    plan: [u32; 16],
    nogoods: Nogoods,
    counts: &'a mut Counts,
}

impl Search<'_> {
    fn ask(&mut self, k: usize, allowed: u64, facts: u64) -> Option<u64> {
        self.layers[k - 1].1.smallest(allowed, facts, 0, self.counts)
    }

    fn exists(&mut self, k: usize, allowed: u64, facts: u64) -> bool {
        self.layers[k - 1].1.find(allowed, facts, self.counts).is_some()
    }

    /// Of facts that no selection covers, a part with those of why that none covers.
    fn explain(&mut self, k: usize, allowed: u64, facts: u64, why: u64) -> u64 {
        let mut e = facts;
        for b in members(facts & !why) {
            let less = e & !(1 << b);
            if !self.exists(k, allowed, less) {
                e = less;
            }
        }
        e
    }

    /// A plan of k rounds for the goal, or facts of it that k rounds do not reach.
    fn extract(&mut self, k: usize, goal: u64) -> Result<(), u64> {
        self.counts.extractions += 1;
        if k == 0 {
            let lack = goal & !self.start;
            return if lack == 0 { Ok(()) } else { Err(lack & lack.wrapping_neg()) };
        }
        if let Some(c) = self.nogoods.lookup(k, goal) {
            return Err(c);
        }
        let result = self.within(k, goal, ALL, 0, 0);
        if let Err(e) = result {
            self.nogoods.store(k, e);
        }
        result
    }

    /// Of facts that k rounds do not reach, some that they do not reach either: one after the other is dropped if that
    /// can be. It is worth its searches only if they are newly refuted, after the nogood `before`, and the search is
    /// long.
    fn dropped(&mut self, k: usize, refuted: u64, before: usize) -> u64 {
        let mut least = refuted;
        if self.nogoods.last == before || self.nogoods.last < MANY {
            return least;
        }
        let mut left = refuted;
        while left != 0 && least.count_ones() > 3 {
            let b = left & left.wrapping_neg();
            left &= !b;
            if let Err(e) = self.extract(k, least & !b) {
                least = e;
                left &= e;
            }
        }
        least
    }

    /// As extract, of the selections whose needs lie in `may` and include `must`; the facts are with those of `why`.
    fn within(&mut self, k: usize, goal: u64, may: u64, must: u64, why: u64) -> Result<(), u64> {
        let needs = self.needs;
        let open = members(self.layers[k - 1].0).filter(|v| needs[*v] & !may == 0).map(|v| 1 << v).sum();
        let Some(selection) = self.ask(k, open, goal) else {
            return Err(self.explain(k, open, goal, why));
        };
        let before = self.nogoods.last;
        let Err(c) = self.extract(k - 1, gather(needs, selection)) else {
            self.plan[k - 1] = (selection >> 32) as u32;
            return Ok(());
        };
        let c = self.dropped(k - 1, c, before);
        let (mut kept, mut reason) = (must, why);
        for f in members(c & !must) {
            reason = match self.within(k, goal, may & !(1 << f), kept, reason) {
                Ok(()) => return Ok(()),
                Err(e) => e,
            };
            kept |= 1 << f;
        }
        Err(reason)
    }
}

fn round_layers(job: &Fitting, vertices: &Vertices) -> Vec<(u64, Tables)> {
    let carriers = transposed(&vertices.gives);
    let mut layers = Vec::new();
    let mut facts = Layer { members: job.start, mutex: [0; 64] };
    for _ in 0..job.horizon {
        let round = round_over(vertices, job.n, &facts);
        facts = facts_over(vertices, &round);
        layers.push((round.members, Tables { wishes: vertices.gives, clashes: round.mutex, carriers }));
    }
    layers
}

pub fn plan(job: &Fitting, rounds: &mut [u32], counts: &mut Counts) -> Option<usize> {
    let vertices = Vertices::new(job);
    let layers = round_layers(job, &vertices);
    let nogoods = Nogoods { slots: Vec::new(), last: 0 };
    let mut search = Search { needs: &vertices.needs, layers, start: job.start, plan: [0; 16], nogoods, counts };
    for k in 0..=job.horizon {
        let before = search.nogoods.last;
        if search.extract(k, job.goal).is_ok() {
            rounds[..k].copy_from_slice(&search.plan[..k]);
            return Some(k);
        }
        if before < 64 && 64 <= search.nogoods.last && states::hopeless(job) {
            return None;
        }
    }
    None
}
