//! Job files of both kinds (docs/RULES.md, "Job files").

use super::Refusal;

pub struct Choice {
    pub n: usize,
    pub order: u64,
    pub wishes: [u64; 64],
    pub clashes: [u64; 64],
    /// In cents.
    pub prices: [i32; 64],
}

pub struct Fitting {
    pub n: usize,
    pub horizon: usize,
    pub start: u64,
    pub goal: u64,
    pub needs: [u64; 64],
    pub gives: [u64; 64],
    pub takes: [u64; 64],
}

struct Reader<'a> {
    file: &'a [u8],
    at: usize,
}

impl Reader<'_> {
    fn number(&mut self, width: usize) -> Result<u64, Refusal> {
        let Some(bytes) = self.file.get(self.at..self.at + width) else {
            return Err((2, self.file.len() as u64));
        };
        self.at += width;
        Ok(bytes.iter().rev().fold(0, |value, byte| value << 8 | *byte as u64))
    }

    fn count(&mut self, limit: u64) -> Result<usize, Refusal> {
        let place = self.at as u64;
        match self.number(1)? {
            count if count > limit => Err((3, place)),
            count => Ok(count as usize),
        }
    }

    fn set(&mut self, width: usize, bound: usize) -> Result<u64, Refusal> {
        let place = self.at as u64;
        let set = self.number(width)?;
        if set & !super::full(bound) != 0 {
            return Err((6, place));
        }
        Ok(set)
    }

    fn field(&mut self, width: usize, bound: usize) -> Result<u64, Refusal> {
        let place = self.at as u64;
        let set = self.number(width)?;
        if set == 0 {
            return Err((5, place));
        }
        if set & !super::full(bound) != 0 {
            return Err((6, place));
        }
        Ok(set)
    }

    fn marks(&mut self, allowed: u64) -> Result<u64, Refusal> {
        let place = self.at as u64;
        let marks = self.number(1)?;
        if marks & !allowed != 0 {
            return Err((4, place));
        }
        Ok(marks)
    }

    fn name(&mut self) -> Result<(), Refusal> {
        let place = self.at as u64;
        match self.number(1)? {
            0 => Err((5, place)),
            length if length > 32 => Err((7, place)),
            length if self.at + length as usize > self.file.len() => Err((2, self.file.len() as u64)),
            length => {
                self.at += length as usize;
                Ok(())
            }
        }
    }

    fn end(&self) -> Result<(), Refusal> {
        if self.at < self.file.len() {
            return Err((8, self.at as u64));
        }
        Ok(())
    }
}

fn opened(file: &[u8], kind: u8) -> Result<Reader<'_>, Refusal> {
    if file.first() != Some(&kind) {
        return Err((1, 0));
    }
    Ok(Reader { file, at: 1 })
}

pub fn choice(file: &[u8]) -> Result<Choice, Refusal> {
    let mut reader = opened(file, 67)?;
    let n = reader.count(64)?;
    let w = reader.count(64)?;
    let order = reader.set(8, w)?;
    let (mut wishes, mut clashes, mut prices) = ([0; 64], [0; 64], [0; 64]);
    for i in 0..n {
        let marks = reader.marks(15)?;
        if marks & 1 != 0 {
            wishes[i] = reader.field(8, w)?;
        }
        if marks & 2 != 0 {
            clashes[i] = reader.field(8, i)?;
        }
        if marks & 4 != 0 {
            reader.name()?;
        }
        if marks & 8 != 0 {
            prices[i] = reader.field(4, 32)? as i32;
        }
    }
    reader.end()?;
    Ok(Choice { n, order, wishes, clashes, prices })
}

pub fn fitting(file: &[u8]) -> Result<Fitting, Refusal> {
    let mut reader = opened(file, 70)?;
    let n = reader.count(32)?;
    let facts = reader.count(32)?;
    let horizon = reader.count(16)?;
    let start = reader.set(4, facts)?;
    let goal = reader.set(4, facts)?;
    let mut sets = [[0; 64]; 3];
    for i in 0..n {
        let marks = reader.marks(15)?;
        for (bit, set) in sets.iter_mut().enumerate() {
            if marks >> bit & 1 != 0 {
                set[i] = reader.field(4, facts)?;
            }
        }
        if marks & 8 != 0 {
            reader.name()?;
        }
    }
    reader.end()?;
    let [needs, gives, takes] = sets;
    Ok(Fitting { n, horizon, start, goal, needs, gives, takes })
}
