//! The orders of a fair in one call, beside the same orders one by one.

use crate::check;
use crate::families::fairs::{Fair, Sort, ORDERS};
use crate::job::Choice;
use crate::measure::{self, Effort};
use crate::ours::{self, Refusal};
use crate::table::{columns, ms, short};
use crate::twin;
use std::hint::black_box;
use std::ops::Range;

/// The bytes of a choice file that hold its order.
const ORDER: Range<usize> = 3..11;

/// In a word that no entry is written to.
const KEPT: u64 = 0xdead_beef_dead_beef;

/// Three words an order, and three more.
const WORDS: usize = 3 * ORDERS + 3;

/// A fair above its limit is measured so many times more, as the cause may be other work on the machine.
const AGAIN: usize = 3;

/// A fair with what the calls take, made ready before the clock runs.
pub struct Asked {
    pub fair: Fair,
    file: Vec<u8>,
    /// With each order in place of the file's own.
    files: Vec<Vec<u8>>,
    /// Our own partition, which is the same for each order.
    groups: [u8; 64],
}

/// Writes the entries of all orders.
type Way = fn(&Asked, &mut [u64]);

/// In one call, and what that is measured against.
const WAYS: [Way; 4] = [Asked::together, Asked::singly, Asked::by_calls, Asked::by_twin];
const SINGLY: usize = 1;

impl Asked {
    pub fn new(fair: Fair) -> Asked {
        let file = fair.catalogue.file();
        let groups = ours::own_groups(&file);
        let files = fair.orders.iter().map(|order| with_order(&file, *order)).collect();
        Asked { fair, file, files, groups }
    }

    /// That it is not refused, `fault` has seen.
    fn together(&self, words: &mut [u64]) {
        let _ = ours::fair(&self.file, &self.fair.orders, words);
    }

    fn by_twin(&self, words: &mut [u64]) {
        let _ = twin::fair(&self.file, &self.fair.orders, words);
    }

    /// As lean as it can be: the files and the groups are there already.
    fn singly(&self, words: &mut [u64]) {
        for (i, entry) in words.chunks_exact_mut(3).take(ORDERS).enumerate() {
            put(entry, choose(&self.files[i], &self.groups, self.fair.orders[i]));
        }
    }

    /// By calls alone, with nothing kept from one order to the next.
    fn by_calls(&self, words: &mut [u64]) {
        let (mut file, mut groups) = (vec![0; self.file.len()], [0; 64]);
        for (order, entry) in self.fair.orders.iter().zip(words.chunks_exact_mut(3)) {
            let ready =
                ours::save_order(&self.file, *order, &mut file).and_then(|_| ours::partition(&file, &mut groups));
            put(entry, ready.and_then(|()| choose(&file, &groups, *order)));
        }
    }

    fn words(&self, way: Way) -> Vec<u64> {
        let mut words = vec![KEPT; WORDS];
        way(self, &mut words);
        words
    }

    pub fn ask_together(&self) {
        black_box(self.words(Asked::together));
    }

    /// What is wrong with the entries, if anything is. They have to be those of the other ways, and all words after
    /// them kept.
    pub fn fault(&self) -> Option<String> {
        if let Err(refusal) = ours::fair(&self.file, &self.fair.orders, &mut [KEPT; WORDS]) {
            return Some(format!("is refused: {refusal:?}"));
        }
        let all = WAYS.map(|way| self.words(way));
        let mut entries = self.fair.orders.iter().zip(all[0].chunks_exact(3));
        if let Some((order, entry)) = entries.find(|(order, entry)| !self.is_entry(**order, entry)) {
            return Some(format!("order {order:#018x} has a wrong entry: {entry:?}"));
        }
        let mut places = (0..WORDS).map(|place| all.each_ref().map(|words| words[place]));
        let place = places.position(|told| told.iter().any(|word| *word != told[0]))?;
        Some(format!("word {place} is not the same by all ways: {:?}", all.map(|words| words[place])))
    }

    /// That no smaller selection exists, and that "none" is true, is for the comparison with single calls.
    fn is_entry(&self, order: u64, entry: &[u64]) -> bool {
        let job = Choice { order, ..self.fair.catalogue.clone() };
        match *entry {
            [0, selection, aside] => check::is_selection(&job, 0, selection) && selection & aside == 0,
            _ => *entry == [14, 0, 0],
        }
    }

    pub fn figures(&self, limit: f64, effort: &Effort) -> Figures {
        let chosen = self.words(Asked::together).chunks_exact(3).filter(|entry| entry[0] == 0).count();
        let mut figures = Figures { chosen, seconds: self.seconds(effort) };
        for _ in 0..AGAIN {
            if figures.slow(limit).is_some() {
                let again = self.seconds(effort);
                figures.seconds.iter_mut().zip(again).for_each(|(least, again)| *least = least.min(again));
            }
        }
        figures
    }

    fn seconds(&self, effort: &Effort) -> [f64; 4] {
        let mut runs = WAYS.map(|way| {
            let mut words = vec![KEPT; WORDS];
            move || {
                way(self, &mut words);
                black_box(&words);
            }
        });
        measure::best(effort, runs.each_mut().map(|run| run as &mut dyn FnMut()))
    }
}

fn with_order(file: &[u8], order: u64) -> Vec<u8> {
    [&file[..ORDER.start], &order.to_le_bytes(), &file[ORDER.end..]].concat()
}

fn put(entry: &mut [u64], found: Result<(u64, u64), Refusal>) {
    entry.copy_from_slice(&match found {
        Ok((selection, aside)) => [0, selection, aside],
        Err((reason, _)) => [reason.into(), 0, 0],
    });
}

fn choose(file: &[u8], groups: &[u8], order: u64) -> Result<(u64, u64), Refusal> {
    let goals = [order];
    ours::choose(file, groups, if order == 0 { &[] } else { &goals }, 0)
}

/// What was measured of a fair.
pub struct Figures {
    /// How many orders have a selection.
    chosen: usize,
    /// By each of the ways.
    seconds: [f64; 4],
}

impl Figures {
    /// Of the time in one call to that by another way.
    fn ratio(&self, way: usize) -> f64 {
        self.seconds[0] / self.seconds[way]
    }

    /// What to say of it if it takes more of the time of single calls than it may.
    pub fn slow(&self, limit: f64) -> Option<String> {
        let ratio = self.ratio(SINGLY);
        (ratio > limit).then(|| format!("takes {} of the time of single calls, and may take {limit}", short(ratio)))
    }
}

/// How the fairs are measured, and how their table is read.
pub fn legend(effort: &Effort) -> String {
    let Effort { repetitions, patience, .. } = effort;
    format!(
        "A fair is a list of {ORDERS} orders over one catalogue of 64 articles and 64 wishes, which one call answers.
\"Single\" is a choice for each order, for which the file with that order and our own partition are made before the
clock runs; \"by calls\" each order is saved, and then partition and choice are made of that file. All write the same
words, and so does the twin, which answers a fair in one call, too. They are measured in turn, by the time of the
processor: the best of {repetitions} repetitions counts, or of as many as begin within {patience} s. A fair may take half the time
of single calls if its orders have up to 8 wishes, and otherwise all of it. One that takes more is measured {AGAIN} times
more, and if it then still does, the run fails."
    )
}

fn line<T: AsRef<str>>(cells: &[T]) -> String {
    columns(&[32, 6, 8, 9, 11, 13, 9, 10, 8, 12, 8, 8, 8], cells)
}

/// Two lines: the second tells the two columns apart that go with a word of the first.
pub fn head() -> String {
    let above = ["", "", "", "", "", "", "", "/ single", "", "/ by calls", "", "/ twin", ""];
    let sums = vec!["", "fairs", "chosen", "fair ms", "single ms", "by calls ms", "twin ms"];
    format!("{}\n{}", line(&above), line(&[sums, ["all", "worst"].repeat(3)].concat()))
}

pub fn title(sort: Sort) -> String {
    format!("Orders of {} to {} wishes", sort.least, sort.most)
}

/// A row of the table: totals, the ratios of these, and the largest ratio of a single fair.
pub fn row(name: &str, all: &[Figures]) -> String {
    let sum = |way: usize| -> f64 { all.iter().map(|figures| figures.seconds[way]).sum() };
    let worst = |way: usize| all.iter().map(|figures| figures.ratio(way)).fold(0.0, f64::max);
    let chosen: usize = all.iter().map(|figures| figures.chosen).sum();
    let mut cells = vec![format!("  {name}"), all.len().to_string(), chosen.to_string()];
    cells.extend([0, 1, 2, 3].map(|way| ms(sum(way))));
    cells.extend([1, 2, 3].map(|way| [sum(0) / sum(way), worst(way)].map(short)).concat());
    line(&cells)
}
