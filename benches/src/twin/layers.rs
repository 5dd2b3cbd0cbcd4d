//! The planning graph.

use super::members;
use super::reader::Fitting;
use super::transposed;

/// What the vertices need and give: vertex t keeps fact t, vertex 32 + a is step a.
pub struct Vertices {
    pub needs: [u64; 64],
    pub gives: [u64; 64],
    /// All that disturb a vertex.
    foes: [u64; 64],
    /// Of each fact.
    needers: [u64; 64],
}

impl Vertices {
    pub fn new(job: &Fitting) -> Vertices {
        let steps = |words: &[u64; 64], keeps: bool| {
            std::array::from_fn(|v| if v < 32 { u64::from(keeps) << v } else { words[v - 32] })
        };
        let (needs, gives, takes): ([u64; 64], [u64; 64], [u64; 64]) =
            (steps(&job.needs, true), steps(&job.gives, true), steps(&job.takes, false));
        let uses: [u64; 64] = std::array::from_fn(|v| needs[v] | gives[v]);
        let (users, takers) = (transposed(&uses), transposed(&takes));
        let foes = std::array::from_fn(|v| gather(&users, takes[v]) | gather(&takers, uses[v]));
        Vertices { needers: transposed(&needs), needs, gives, foes }
    }
}

#[derive(Clone, Copy)]
pub struct Layer {
    pub members: u64,
    pub mutex: [u64; 64],
}

/// What the members of a set have together.
pub fn gather(table: &[u64; 64], set: u64) -> u64 {
    members(set).fold(0, |all, i| all | table[i])
}

pub fn round_over(vertices: &Vertices, steps: usize, below: &Layer) -> Layer {
    let stands = |v: &usize| {
        let needs = vertices.needs[*v];
        needs & !below.members == 0 && gather(&below.mutex, needs) & needs == 0
    };
    let set: u64 = (0..32 + steps).filter(stands).map(|v| 1 << v).sum();
    let mut mutex = [0; 64];
    for x in members(set) {
        let against = gather(&below.mutex, vertices.needs[x]);
        mutex[x] = (vertices.foes[x] | gather(&vertices.needers, against)) & set & !(1 << x);
    }
    Layer { members: set, mutex }
}

pub fn facts_over(vertices: &Vertices, below: &Layer) -> Layer {
    let set = gather(&vertices.gives, below.members);
    let given = std::array::from_fn(|v| if below.members >> v & 1 != 0 { vertices.gives[v] } else { 0 });
    let givers = transposed(&given);
    let mut mutex = [0; 64];
    for p in members(set) {
        let against = members(givers[p]).fold(u64::MAX, |all, v| all & below.mutex[v]);
        // no vertex is mutex with itself, so what a giver of p gives, p among it, has a giver that is not in against
        mutex[p] = set & !gather(&vertices.gives, below.members & !against);
    }
    Layer { members: set, mutex }
}
