//! The figures of a family, and how they are printed.

use crate::families::Kind;

/// What ours is measured against, beside the twin.
#[derive(Clone, Copy, Debug)]
pub enum Rival {
    /// Whether there is an answer; of prices, the least total.
    Clasp,
    /// The smallest selection itself, as ours has it. No plans.
    ClaspSmallest,
    /// Whether there is an answer. No prices.
    Cadical,
    /// The least total. Only prices.
    Cbc,
}

pub fn rivals(kind: Kind) -> [Rival; 3] {
    let last = if kind == Kind::Price { Rival::Cbc } else { Rival::Cadical };
    [Rival::Clasp, Rival::ClaspSmallest, last]
}

impl Rival {
    pub fn name(self) -> &'static str {
        match self {
            Rival::Clasp => "clasp",
            Rival::ClaspSmallest => "clasp, smallest",
            Rival::Cadical => "CaDiCaL",
            Rival::Cbc => "CBC",
        }
    }
}

/// What a solver took for an instance; at least that, if it was cut off.
#[derive(Clone, Copy)]
pub struct Time {
    pub seconds: f64,
    pub cut_off: bool,
}

/// A rival's time below this many seconds is lost in the noise of process starts, and counts as this many.
pub const LEAST: f64 = 0.0001;

/// What was measured of an instance.
pub struct Figures {
    pub label: String,
    pub ours: f64,
    pub twin: f64,
    /// Of the twin's search.
    pub nodes: u64,
    /// In the order of `rivals`.
    pub rivals: [Option<Time>; 3],
}

impl Figures {
    fn twin(&self) -> Option<Time> {
        Some(Time { seconds: self.twin, cut_off: false })
    }

    fn rival(&self, place: usize) -> Option<Time> {
        self.rivals[place].map(|time| Time { seconds: time.seconds.max(LEAST), ..time })
    }

    fn ratio(&self, other: Time) -> f64 {
        self.ours / other.seconds
    }
}

/// Three digits that count.
pub fn short(value: f64) -> String {
    let digits = if value > 0.0 { 2 - value.log10().floor() as i32 } else { 0 };
    format!("{value:.*}", digits.clamp(0, 6) as usize)
}

pub fn ms(seconds: f64) -> String {
    short(seconds * 1000.0)
}

/// A ratio to a time that was cut off is an upper bound.
fn ratio_text(ratio: f64, other: Time) -> String {
    format!("{}{}", if other.cut_off { "<" } else { "" }, short(ratio))
}

/// The instance with the largest ratio of ours to the other.
fn worst(all: &[Figures], other: impl Fn(&Figures) -> Option<Time>) -> Option<(&Figures, Time)> {
    let known = all.iter().filter_map(|figures| Some((figures, other(figures)?)));
    known.max_by(|(a, x), (b, y)| a.ratio(*x).total_cmp(&b.ratio(*y)))
}

/// The ratio of the totals, over the instances that the other was given, and the largest ratio of one.
fn ratios(all: &[Figures], other: impl Fn(&Figures) -> Option<Time>) -> [String; 2] {
    let Some((figures, time)) = worst(all, &other) else { return ["-".into(), "-".into()] };
    let known: Vec<(f64, Time)> = all.iter().filter_map(|figures| Some((figures.ours, other(figures)?))).collect();
    let ours: f64 = known.iter().map(|(ours, _)| ours).sum();
    let theirs: f64 = known.iter().map(|(_, time)| time.seconds).sum();
    let total = Time { seconds: theirs, cut_off: known.iter().any(|(_, time)| time.cut_off) };
    [ratio_text(ours / theirs, total), ratio_text(figures.ratio(time), time)]
}

/// A line of a table: the first cell to the left of its column, and all others to the right.
pub fn columns<T: AsRef<str>>(widths: &[usize], cells: &[T]) -> String {
    let mut text = format!("{:<1$}", cells[0].as_ref(), widths[0]);
    for (cell, width) in cells.iter().zip(widths).skip(1) {
        text += &format!("{:>width$}", cell.as_ref());
    }
    text.trim_end().to_string()
}

fn line<T: AsRef<str>>(cells: &[T]) -> String {
    columns(&[32, 6, 9, 9, 8, 8, 10, 10, 10, 10, 10, 10, 11, 11], cells)
}

/// Two lines: the second tells the two columns apart that go with a word of the first.
pub fn head(rivals: [Rival; 3]) -> String {
    let last = format!("/ {}", rivals[2].name());
    let above = ["", "", "", "", "/ twin", "", "/ clasp", "", "/ clasp,", "smallest", &last, "", "nodes", ""];
    let pairs = ["all", "worst"].repeat(rivals.len() + 1);
    let below = [vec!["", "cases", "ours ms", "twin ms"], pairs, vec!["all", "most"]].concat();
    format!("{}\n{}", line(&above), line(&below))
}

pub fn title(kind: Kind) -> &'static str {
    match kind {
        Kind::Choice => "Choice",
        Kind::Fitting => "Fitting",
        Kind::Price => "Price",
    }
}

/// A row of the table: totals, the ratios of ours to the twin and to each rival, and the nodes.
pub fn row(name: &str, all: &[Figures]) -> String {
    let sum = |part: fn(&Figures) -> f64| -> f64 { all.iter().map(part).sum() };
    let mut cells = vec![format!("  {name}"), all.len().to_string(), ms(sum(|f| f.ours)), ms(sum(|f| f.twin))];
    cells.extend(ratios(all, Figures::twin));
    for place in 0..3 {
        cells.extend(ratios(all, |figures| figures.rival(place)));
    }
    cells.push(all.iter().map(|figures| figures.nodes).sum::<u64>().to_string());
    cells.push(all.iter().map(|figures| figures.nodes).max().unwrap_or(0).to_string());
    line(&cells)
}

/// The instances that the largest figures of a family are from.
pub fn worst_cases(name: &str, rivals: [Rival; 3], all: &[Figures]) -> String {
    let mut text = format!("  {name}\n");
    if let Some(longest) = all.iter().max_by(|a, b| a.ours.total_cmp(&b.ours)) {
        text += &format!("    longest of ours: {} ms, {}\n", ms(longest.ours), longest.label);
    }
    text += &worst_case("the twin", worst(all, Figures::twin));
    for (place, rival) in rivals.into_iter().enumerate() {
        text += &worst_case(rival.name(), worst(all, |figures| figures.rival(place)));
    }
    text
}

fn worst_case(other: &str, found: Option<(&Figures, Time)>) -> String {
    let Some((figures, time)) = found else { return String::new() };
    let ratio = ratio_text(figures.ratio(time), time);
    let (ours, theirs) = (ms(figures.ours), ms(time.seconds));
    let more = if time.cut_off { "> " } else { "" };
    format!("    most to {other}: {ratio}, {ours} ms to {more}{theirs} ms, {}\n", figures.label)
}
