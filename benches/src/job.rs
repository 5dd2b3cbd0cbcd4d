//! Jobs as the families draw them, and their writing as job files (docs/RULES.md, "Job files"). No names.

#[derive(Clone, Debug)]
pub struct Article {
    pub wishes: u64,
    /// Only articles of lower number.
    pub clashes: u64,
    /// In cents.
    pub price: i32,
}

#[derive(Clone, Debug)]
pub struct Choice {
    pub wishes: usize,
    pub order: u64,
    pub articles: Vec<Article>,
}

#[derive(Clone, Debug)]
pub struct Step {
    pub needs: u32,
    pub gives: u32,
    pub takes: u32,
}

#[derive(Clone, Debug)]
pub struct Fitting {
    pub facts: usize,
    pub horizon: usize,
    pub start: u32,
    pub goal: u32,
    pub steps: Vec<Step>,
}

/// A question to a solver, with the label of its instance.
#[derive(Clone, Debug)]
pub enum Question {
    /// The smallest selection at or above the floor, with our own partition and the order as the only goal.
    Choose { job: Choice, floor: u64 },
    /// The cheapest selection, with its total and the tax on it.
    Price { job: Choice, rate: u64 },
    /// A shortest plan.
    Plan { job: Fitting },
}

/// In the place of a name.
const NAMELESS: &[u8] = &[];

/// A record: its bit map, then the fields that are not zero.
fn record(file: &mut Vec<u8>, fields: &[&[u8]]) {
    let stands = |field: &[u8]| field.iter().any(|byte| *byte != 0);
    let marks = fields.iter().enumerate().filter(|(_, field)| stands(field));
    file.push(marks.map(|(bit, _)| 1 << bit).sum());
    for field in fields.iter().filter(|field| stands(field)) {
        file.extend_from_slice(field);
    }
}

impl Choice {
    pub fn file(&self) -> Vec<u8> {
        let mut file = vec![67, self.articles.len() as u8, self.wishes as u8];
        file.extend_from_slice(&self.order.to_le_bytes());
        for article in &self.articles {
            let [wishes, clashes] = [article.wishes, article.clashes].map(u64::to_le_bytes);
            record(&mut file, &[&wishes, &clashes, NAMELESS, &article.price.to_le_bytes()]);
        }
        file
    }
}

impl Fitting {
    pub fn file(&self) -> Vec<u8> {
        let mut file = vec![70, self.steps.len() as u8, self.facts as u8, self.horizon as u8];
        file.extend_from_slice(&self.start.to_le_bytes());
        file.extend_from_slice(&self.goal.to_le_bytes());
        for step in &self.steps {
            record(&mut file, &[&step.needs.to_le_bytes(), &step.gives.to_le_bytes(), &step.takes.to_le_bytes()]);
        }
        file
    }
}
