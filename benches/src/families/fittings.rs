//! The families of fitting: steps, facts and a goal. Towers, Chinese rings and robots on a ring are stated as in
//! reference/plans.py. "000" is the source paper, as in docs/RULES.md.

use super::random::Random;
use super::Instances;
use crate::job::{Fitting, Question, Step};
use crate::ours;

/// A fact by its kind and what it speaks of.
type Fact = (&'static str, usize, usize);

const HORIZON: usize = 16;

/// A job in the making: a fact gets its number when it is first named.
#[derive(Default)]
struct World {
    facts: Vec<Fact>,
    start: u32,
    goal: u32,
    steps: Vec<Step>,
}

impl World {
    fn number(&mut self, fact: Fact) -> usize {
        let known = self.facts.iter().position(|other| *other == fact);
        known.unwrap_or_else(|| {
            self.facts.push(fact);
            self.facts.len() - 1
        })
    }

    fn set(&mut self, facts: &[Fact]) -> u32 {
        facts.iter().fold(0, |set, fact| set | 1u32.checked_shl(self.number(*fact) as u32).expect("at most 32 facts"))
    }

    fn start(&mut self, facts: &[Fact]) {
        self.start |= self.set(facts);
    }

    fn goal(&mut self, facts: &[Fact]) {
        self.goal |= self.set(facts);
    }

    fn step(&mut self, needs: &[Fact], gives: &[Fact], takes: &[Fact]) {
        let step = Step { needs: self.set(needs), gives: self.set(gives), takes: self.set(takes) };
        self.steps.push(step);
    }

    /// A step that takes all that it needs, except for the facts in `keeps`, which it only needs.
    fn change(&mut self, from: &[Fact], to: &[Fact], keeps: &[Fact]) {
        self.step(&[from, keeps].concat(), to, from);
    }

    fn job(self) -> Fitting {
        Fitting { facts: self.facts.len(), horizon: HORIZON, start: self.start, goal: self.goal, steps: self.steps }
    }
}

/// Our own answer: the fewest rounds.
fn fewest(job: &Fitting) -> Option<usize> {
    ours::plan(&job.file(), &mut [0; HORIZON]).ok().map(|count| count as usize)
}

fn ask(label: impl Into<String>, job: Fitting) -> (String, Question) {
    (label.into(), Question::Plan { job })
}

/// The job with the largest horizon, and one round too short if it has a plan.
fn and_short(named: Vec<(String, Fitting)>) -> Instances {
    let mut instances = Vec::new();
    for (label, job) in named {
        let short = fewest(&job).and_then(|count| count.checked_sub(1));
        instances.push(ask(label.clone(), job.clone()));
        if let Some(horizon) = short {
            instances.push(ask(format!("{label}, horizon {horizon}"), Fitting { horizon, ..job }));
        }
    }
    instances
}

// Towers of Hanoi

/// Discs, disc 0 the smallest, on the pegs given, go to the pegs given.
fn tower(from: &[usize], to: &[usize]) -> Fitting {
    let mut world = World::default();
    for (disc, peg) in from.iter().enumerate() {
        world.start(&[("on", disc, *peg), ("off", disc, (peg + 1) % 3), ("off", disc, (peg + 2) % 3)]);
        world.goal(&[("on", disc, to[disc])]);
        for p in 0..3 {
            for q in [(p + 1) % 3, (p + 2) % 3] {
                let smaller = (0..disc).flat_map(|e| [("off", e, p), ("off", e, q)]);
                let needs: Vec<Fact> = smaller.chain([("on", disc, p)]).collect();
                world.step(&needs, &[("on", disc, q), ("off", disc, p)], &[("on", disc, p), ("off", disc, q)]);
            }
        }
    }
    world.job()
}

/// From anywhere to anywhere.
pub fn drawn_tower(random: &mut Random, discs: usize) -> Fitting {
    let mut pegs = || -> Vec<usize> { (0..discs).map(|_| random.below(3)).collect() };
    tower(&pegs(), &pegs())
}

/// Towers of 3 and 4 discs take 7 and 15 rounds; 5 discs take 31, which is beyond any horizon.
pub fn hanoi(random: &mut Random) -> Instances {
    let mut named = Vec::new();
    for discs in 3..=5 {
        named.push((format!("{discs} discs"), tower(&vec![0; discs], &vec![2; discs])));
        for i in 1..=3 {
            named.push((format!("{discs} discs, spread {i}"), drawn_tower(random, discs)));
        }
    }
    and_short(named)
}

// Dock robots (000)

/// Robots at their places, at most one a place, drive along roads both ways. A container goes from its place to
/// another: a crane, which holds one at a time, takes it from the pile and loads it, and another unloads it and puts it
/// down.
fn docks(robots: &[usize], roads: &[(usize, usize)], containers: &[(usize, usize)]) -> Fitting {
    let mut world = World::default();
    for (r, place) in robots.iter().enumerate() {
        world.start(&[("at", r, *place), ("empty", r, 0)]);
        for (a, b) in roads.iter().flat_map(|(a, b)| [(*a, *b), (*b, *a)]) {
            world.change(&[("at", r, a), ("free", b, 0)], &[("at", r, b), ("free", a, 0)], &[]);
        }
    }
    for (c, (from, to)) in containers.iter().enumerate() {
        container(&mut world, robots.len(), c, *from, *to);
    }
    for place in roads.iter().flat_map(|(a, b)| [*a, *b]).filter(|place| !robots.contains(place)) {
        world.start(&[("free", place, 0)]);
    }
    world.job()
}

fn container(world: &mut World, robots: usize, c: usize, from: usize, to: usize) {
    world.start(&[("pile", c, from), ("idle", from, 0), ("idle", to, 0)]);
    world.goal(&[("pile", c, to)]);
    world.change(&[("pile", c, from), ("idle", from, 0)], &[("held", c, from)], &[]);
    for r in 0..robots {
        let (out, back) = (("held", c, from), ("held", c, to));
        world.change(&[out, ("empty", r, 0)], &[("on", c, r), ("idle", from, 0)], &[("at", r, from)]);
        world.change(&[("on", c, r), ("idle", to, 0)], &[back, ("empty", r, 0)], &[("at", r, to)]);
    }
    world.change(&[("held", c, to)], &[("pile", c, to), ("idle", to, 0)], &[]);
}

pub fn dock_robots(_: &mut Random) -> Instances {
    let road: &[(usize, usize)] = &[(0, 1)];
    let ring: &[(usize, usize)] = &[(0, 1), (1, 2), (2, 0)];
    let square: &[(usize, usize)] = &[(0, 1), (1, 2), (2, 3), (3, 0)];
    let named = [
        ("1 robot, 1 container", docks(&[0], road, &[(0, 1)])),
        ("1 robot, 2 containers", docks(&[0], road, &[(0, 1); 2])),
        ("1 robot, 3 containers", docks(&[0], road, &[(0, 1); 3])),
        ("1 robot, 4 containers", docks(&[0], road, &[(0, 1); 4])),
        ("1 robot, 5 containers", docks(&[0], road, &[(0, 1); 5])),
        ("1 robot, 2 containers change places", docks(&[0], road, &[(0, 1), (1, 0)])),
        ("1 robot, 4 containers change places", docks(&[0], road, &[(0, 1), (1, 0), (0, 1), (1, 0)])),
        ("1 robot, 3 containers about 3 places", docks(&[0], ring, &[(0, 1), (1, 2), (2, 0)])),
        ("1 robot, 4 containers about 3 places", docks(&[0], ring, &[(0, 1), (1, 2), (2, 0), (0, 2)])),
        ("1 robot, 3 containers about 4 places", docks(&[0], square, &[(0, 2), (2, 0), (1, 3)])),
        ("2 robots, 2 containers, 3 places", docks(&[0, 1], ring, &[(0, 1); 2])),
        ("2 robots, 3 containers, 3 places", docks(&[0, 1], ring, &[(0, 1); 3])),
        ("2 robots, 3 containers about 3 places", docks(&[0, 1], ring, &[(0, 1), (1, 2), (2, 0)])),
        ("2 robots, 2 containers, 4 places", docks(&[0, 2], square, &[(0, 2), (1, 3)])),
        ("2 robots, 2 containers change places, 4 places", docks(&[1, 3], square, &[(0, 2), (2, 0)])),
    ];
    and_short(named.map(|(label, job)| (label.to_string(), job)).into())
}

// Refuelling planes (000)

struct Airline<'a> {
    /// Each from here to there.
    planes: &'a [(usize, usize)],
    /// Both ways.
    routes: &'a [(usize, usize)],
    /// How many routes a full tank is for.
    tank: usize,
    /// Airports with a pump, which fills one plane at a time.
    pumps: &'a [usize],
}

fn flights(airline: &Airline) -> Fitting {
    let mut world = World::default();
    for (p, (from, to)) in airline.planes.iter().enumerate() {
        world.start(&[("at", p, *from), ("fuel", p, airline.tank)]);
        world.goal(&[("at", p, *to)]);
        for left in 0..airline.tank {
            for (a, b) in airline.routes.iter().flat_map(|(a, b)| [(*a, *b), (*b, *a)]) {
                world.change(&[("at", p, a), ("fuel", p, left + 1)], &[("at", p, b), ("fuel", p, left)], &[]);
            }
            for pump in airline.pumps {
                let free = ("pump", *pump, 0);
                world.start(&[free]);
                world.change(&[("fuel", p, left), free], &[("fuel", p, airline.tank), free], &[("at", p, *pump)]);
            }
        }
    }
    world.job()
}

/// Planes have to fly one route more than they have fuel for, and there are some cans of fuel for them all.
fn cans(planes: usize, cans: usize) -> Fitting {
    let mut world = World::default();
    for p in 0..planes {
        world.start(&[("at", p, 0), ("fuel", p, 1)]);
        world.goal(&[("at", p, 2)]);
        for leg in 0..2 {
            world.change(&[("at", p, leg), ("fuel", p, 1)], &[("at", p, leg + 1), ("fuel", p, 0)], &[]);
        }
        for can in 0..cans {
            world.start(&[("can", can, 0)]);
            world.change(&[("fuel", p, 0), ("can", can, 0)], &[("fuel", p, 1)], &[]);
        }
    }
    world.job()
}

pub fn planes(_: &mut Random) -> Instances {
    let line: &[(usize, usize)] = &[(0, 1), (1, 2), (2, 3)];
    let short: &[(usize, usize)] = &[(0, 1), (1, 2)];
    let ring: &[(usize, usize)] = &[(0, 1), (1, 2), (2, 3), (3, 0)];
    let long: &[(usize, usize)] = &[(0, 1), (1, 2), (2, 3), (3, 4), (4, 5), (5, 6), (6, 7)];
    let air = |planes: &[_], routes, tank, pumps: &[_]| flights(&Airline { planes, routes, tank, pumps });
    let named = [
        ("1 plane, tank 1, 8 airports", air(&[(0, 7)], long, 1, &[0, 1, 2, 3, 4, 5, 6])),
        ("1 plane, tank 2, 8 airports, 1 pump", air(&[(0, 7)], long, 2, &[2])),
        ("2 planes, tank 2, 1 pump", air(&[(0, 3), (3, 0)], line, 2, &[1])),
        ("2 planes, tank 2, 2 pumps", air(&[(0, 3), (3, 0)], line, 2, &[1, 2])),
        ("2 planes, tank 1, pumps everywhere", air(&[(0, 3), (0, 3)], line, 1, &[0, 1, 2, 3])),
        ("2 planes, tank 2, no pump", air(&[(0, 3), (3, 0)], line, 2, &[])),
        ("3 planes, tank 1, 2 pumps", air(&[(0, 3), (0, 3), (0, 3)], line, 1, &[1, 2])),
        ("3 planes, tank 1, 1 pump", air(&[(0, 2), (0, 2), (2, 0)], short, 1, &[1])),
        ("3 planes on a ring, 2 pumps", air(&[(0, 2), (1, 3), (2, 0)], ring, 1, &[1, 2])),
        ("3 planes on a ring, 1 pump out of reach", air(&[(0, 2), (1, 3), (3, 1)], ring, 1, &[0])),
        ("4 planes, tank 1, 1 pump", air(&[(0, 2); 4], short, 1, &[1])),
        ("4 planes, tank 1, 2 pumps", air(&[(0, 2), (0, 2), (2, 0), (2, 0)], short, 1, &[0, 1])),
        ("5 planes, tank 1, 1 pump", air(&[(0, 2); 5], short, 1, &[1])),
        ("4 planes, 4 cans", cans(4, 4)),
    ];
    let mut instances = and_short(named.map(|(label, job)| (label.to_string(), job)).into());
    for planes in 3..=5 {
        instances.push(ask(format!("{planes} planes, {} cans", planes - 1), cans(planes, planes - 1)));
    }
    instances
}

// Logistics

/// A vehicle, first at one of its two places.
struct Vehicle {
    places: [usize; 2],
    at: usize,
}

/// Loaded onto the vehicle here and unloaded there.
type Leg = (usize, usize, usize);

/// Parcels go from the first place of their first leg to the last of their last. A vehicle has room for all of them, or
/// for one at a time.
fn parcels(vehicles: &[Vehicle], one_a_time: bool, routes: &[&[Leg]]) -> Fitting {
    let mut world = World::default();
    for (v, Vehicle { places: [a, b], at }) in vehicles.iter().enumerate() {
        world.start(&[("at", v, *at)]);
        world.change(&[("at", v, *a)], &[("at", v, *b)], &[]);
        world.change(&[("at", v, *b)], &[("at", v, *a)], &[]);
    }
    for (p, legs) in routes.iter().enumerate() {
        world.start(&[("lies", p, legs[0].1)]);
        world.goal(&[("lies", p, legs[legs.len() - 1].2)]);
        for (vehicle, from, to) in *legs {
            let room: &[Fact] = if one_a_time { &[("room", *vehicle, 0)] } else { &[] };
            let (here, there, on) = (("lies", p, *from), ("lies", p, *to), ("in", p, *vehicle));
            world.start(room);
            world.change(&[&[here], room].concat(), &[on], &[("at", *vehicle, *from)]);
            world.change(&[on], &[&[there], room].concat(), &[("at", *vehicle, *to)]);
        }
    }
    world.job()
}

/// Places 0 and 1 are of one town, 2 and 3 of another; a van in each, and a plane between places 1 and 2.
pub fn logistics(_: &mut Random) -> Instances {
    let vehicles = |a, b, c| [([0, 1], a), ([1, 2], b), ([2, 3], c)].map(|(places, at)| Vehicle { places, at });
    let near = vehicles(0, 1, 2);
    let far = vehicles(1, 2, 3);
    let there: &[Leg] = &[(0, 0, 1), (1, 1, 2), (2, 2, 3)];
    let back: &[Leg] = &[(2, 3, 2), (1, 2, 1), (0, 1, 0)];
    let only_flown: &[Leg] = &[(1, 1, 2)];
    let free: &[Leg] = &[(0, 1, 0), (1, 2, 1), (2, 3, 2), (0, 0, 1), (1, 1, 2), (2, 2, 3)];
    let named = [
        ("1 parcel", parcels(&near, false, &[there])),
        ("1 parcel, vehicles elsewhere", parcels(&far, false, &[there])),
        ("2 parcels", parcels(&near, false, &[there, there])),
        ("3 parcels", parcels(&near, false, &[there; 3])),
        ("2 parcels change places", parcels(&near, false, &[there, back])),
        ("3 parcels change places", parcels(&far, false, &[there, back, there])),
        ("1 parcel anywhere", parcels(&near, false, &[free])),
        ("2 parcels anywhere", parcels(&far, false, &[free, free])),
        ("2 parcels, one at a time", parcels(&near, true, &[there, there])),
        ("3 parcels, one at a time", parcels(&near, true, &[there; 3])),
        ("2 parcels change places, one at a time", parcels(&near, true, &[there, back])),
        ("3 parcels change places, one at a time", parcels(&far, true, &[there, back, back])),
        ("4 parcels flown, one at a time", parcels(&near, true, &[only_flown; 4])),
        ("5 parcels flown, one at a time", parcels(&near, true, &[only_flown; 5])),
    ];
    and_short(named.map(|(label, job)| (label.to_string(), job)).into())
}

// Rings

/// Chinese rings: a ring goes on or off if the one before it is on and all before that are off. The sets are of rings
/// that are on. Ring `fixed` can't be moved, if there is such a ring.
fn chinese(rings: usize, from: u64, to: u64, fixed: usize) -> Fitting {
    let mut world = World::default();
    let state = |r: usize, on: bool| (if on { "on" } else { "off" }, r, 0);
    for r in 0..rings {
        world.start(&[state(r, from >> r & 1 == 1)]);
        world.goal(&[state(r, to >> r & 1 == 1)]);
        let before: Vec<Fact> = (0..r).map(|e| state(e, e + 1 == r)).collect();
        for on in [true, false] {
            if r != fixed {
                world.change(&[state(r, on)], &[state(r, !on)], &before);
            }
        }
    }
    world.job()
}

/// Agents on a ring pass tools to a neighbour who has none. All of them are to have one.
fn tools(agents: usize, tools: usize) -> Fitting {
    let mut world = World::default();
    for a in 0..agents {
        world.start(&[(if a < tools { "has" } else { "lacks" }, a, 0)]);
        world.goal(&[("has", a, 0)]);
        for b in [(a + 1) % agents, (a + agents - 1) % agents] {
            let (before, after) = ([("has", a, 0), ("lacks", b, 0)], [("lacks", a, 0), ("has", b, 0)]);
            world.change(&before, &after, &[]);
        }
    }
    world.job()
}

/// Robot r is at place r of a ring, and goes on to the next place if that is free. The goal has a place a robot.
fn circle(places: usize, goal: &[usize]) -> Fitting {
    let mut world = World::default();
    for (r, to) in goal.iter().enumerate() {
        world.start(&[("at", r, r)]);
        world.goal(&[("at", r, *to)]);
        for p in 0..places {
            let q = (p + 1) % places;
            world.change(&[("at", r, p), ("free", q, 0)], &[("at", r, q), ("free", p, 0)], &[]);
        }
    }
    for p in goal.len()..places {
        world.start(&[("free", p, 0)]);
    }
    world.job()
}

pub fn rings(_: &mut Random) -> Instances {
    let mut instances = Vec::new();
    for n in [4, 5, 6, 8, 12, 16] {
        let all = (1 << n) - 1;
        let last = 1 << (n - 1);
        let mut cases = vec![("ring 1 fixed, all off", all, 0, 1), ("the last but one fixed", 0, last, n - 2)];
        if n > 4 {
            cases.extend([("all off", all, 0, n), ("only the last on", 0, last, n)]);
        }
        for (what, from, to, fixed) in cases {
            instances.push(ask(format!("{n} rings, {what}"), chinese(n, from, to, fixed)));
        }
    }
    for agents in [3, 4, 5, 6, 8, 12, 16] {
        instances.push(ask(format!("{agents} agents, {} tools", agents - 1), tools(agents, agents - 1)));
    }
    instances.push(ask("3 robots on a ring of 6 change places", circle(6, &[1, 0, 2])));
    instances.push(ask("4 robots on a ring of 6 change places", circle(6, &[1, 0, 2, 3])));
    instances.push(ask("5 robots on a full ring", circle(5, &[1, 2, 3, 4, 0])));
    instances
}

// Pigeons in rounds

/// Each hole lets one pigeon pass a round.
fn passing(pigeons: usize, holes: usize, horizon: usize) -> Fitting {
    let mut world = World::default();
    for p in 0..pigeons {
        world.goal(&[("past", p, 0)]);
        for h in 0..holes {
            let hole = ("hole", h, 0);
            world.start(&[hole]);
            world.change(&[hole], &[("past", p, 0), hole], &[]);
        }
    }
    Fitting { horizon, ..world.job() }
}

/// A pigeon sits down in a free hole. It stays there, or may leave it again.
fn sitting(pigeons: usize, holes: usize, leave: bool) -> Fitting {
    let mut world = World::default();
    for p in 0..pigeons {
        world.start(&[("flies", p, 0)]);
        world.goal(&[("sits", p, 0)]);
        for h in 0..holes {
            let (out, hole) = (("flies", p, 0), ("hole", h, 0));
            world.start(&[hole]);
            if leave {
                let there = [("sits", p, 0), ("in", p, h)];
                world.change(&[out, hole], &there, &[]);
                world.change(&there, &[out, hole], &[]);
            } else {
                world.change(&[out, hole], &[("sits", p, 0)], &[]);
            }
        }
    }
    world.job()
}

/// None has a plan. More pigeons through 2 holes are left out: 15 take us over 10 s.
pub fn pigeons(_: &mut Random) -> Instances {
    let mut instances = Vec::new();
    for (p, h) in [(4, 3), (5, 4), (6, 5), (8, 4), (7, 3), (8, 3), (10, 3), (7, 2), (9, 2), (11, 2), (13, 2)] {
        let horizon = (p - 1) / h;
        instances.push(ask(format!("{p} pass by {h} holes, horizon {horizon}"), passing(p, h, horizon)));
    }
    for p in 3..=6 {
        instances.push(ask(format!("{p} sit down in {} holes", p - 1), sitting(p, p - 1, false)));
    }
    for p in 3..=4 {
        instances.push(ask(format!("{p} sit down in {} holes or leave", p - 1), sitting(p, p - 1, true)));
    }
    instances
}

// Counters

/// Adds the steps of a counter that goes up by one a round from its start, and may go down by one.
fn counter(world: &mut World, name: usize, bits: usize, (from, to): (u64, u64), down: bool) {
    let bit = |i: usize, one: bool| (if one { "one" } else { "zero" }, name, i);
    for i in 0..bits {
        world.start(&[bit(i, from >> i & 1 == 1)]);
        world.goal(&[bit(i, to >> i & 1 == 1)]);
        let below: Vec<Fact> = (0..i).map(|j| bit(j, true)).chain([bit(i, false)]).collect();
        let above: Vec<Fact> = (0..i).map(|j| bit(j, false)).chain([bit(i, true)]).collect();
        world.change(&below, &above, &[]);
        if down {
            world.change(&above, &below, &[]);
        }
    }
}

fn counting(ways: &[(usize, (u64, u64))], down: bool) -> Fitting {
    let mut world = World::default();
    for (name, (bits, way)) in ways.iter().enumerate() {
        counter(&mut world, name, *bits, *way, down);
    }
    world.job()
}

/// Two counters of 4 bits that go up and down, from anywhere to anywhere.
pub fn drawn_counters(random: &mut Random) -> Fitting {
    let mut number = || random.below(16) as u64;
    let ways = [(4, (number(), number())), (4, (number(), number()))];
    counting(&ways, true)
}

pub fn counters(_: &mut Random) -> Instances {
    let mut named = Vec::new();
    for down in [false, true] {
        let mut add = |label: &str, ways: &[(usize, (u64, u64))]| {
            let also = if down { ", up and down" } else { "" };
            named.push((format!("{label}{also}"), counting(ways, down)));
        };
        add("3 bits", &[(3, (0, 7))]);
        add("4 bits", &[(4, (0, 15))]);
        add("5 bits, half", &[(5, (8, 24))]);
        add("5 bits", &[(5, (0, 31))]);
        add("3 and 4 bits", &[(3, (0, 7)), (4, (0, 15))]);
        add("twice 4 bits", &[(4, (0, 15)), (4, (1, 14))]);
    }
    and_short(named)
}

// Toggles

/// Lamps on a ring, all dark. A step switches `switched` neighbours, by the states that they have: any for two, and for
/// three those with an even count lit, since all would be too many steps.
fn lamps(count: usize, switched: usize, goal: u64) -> Fitting {
    let mut world = World::default();
    let lamp = |i: usize, lit: bool| (if lit { "lit" } else { "dark" }, i % count, 0);
    for i in 0..count {
        world.start(&[lamp(i, false)]);
        world.goal(&[lamp(i, goal >> i & 1 == 1)]);
        for state in (0u32..1 << switched).filter(|state| switched == 2 || state.count_ones() % 2 == 0) {
            let lit = |j: usize| state >> j & 1 == 1;
            let before: Vec<Fact> = (0..switched).map(|j| lamp(i + j, lit(j))).collect();
            let after: Vec<Fact> = (0..switched).map(|j| lamp(i + j, !lit(j))).collect();
            world.change(&before, &after, &[]);
        }
    }
    world.job()
}

/// With two lamps a step an odd count of lit lamps is out of reach; so there the goals are even, and one a size is odd.
pub fn toggles(random: &mut Random) -> Instances {
    let mut named = Vec::new();
    let mut odd = Vec::new();
    for switched in [2, 3] {
        for count in [5, 6, 8] {
            let label = |goal: u64| format!("{count} lamps, {switched} a step, goal {goal:0count$b}");
            for goal in goals(random, count, switched == 2) {
                named.push((label(goal), lamps(count, switched, goal)));
            }
            if switched == 2 {
                let goal = random.subset(3, count);
                odd.push(ask(label(goal), lamps(count, switched, goal)));
            }
        }
    }
    let mut instances = and_short(named);
    instances.extend(odd);
    instances
}

/// Five different goals.
fn goals(random: &mut Random, count: usize, even: bool) -> Vec<u64> {
    let mut goals = Vec::new();
    while goals.len() < 5 {
        let size = if even { 2 + 2 * random.below(count / 2) } else { 1 + random.below(count) };
        let goal = random.subset(size, count);
        if !goals.contains(&goal) {
            goals.push(goal);
        }
    }
    goals
}

/// Two lamps a step, and a goal at random with an odd count of lit lamps, which is out of reach, or an even one.
pub fn drawn_lamps(random: &mut Random, count: usize, odd: bool) -> Fitting {
    let goal = random.word() & ((1 << count) - 1);
    let other = (goal.count_ones() % 2 == 1) != odd;
    lamps(count, 2, goal ^ u64::from(other))
}

// Random jobs

fn members(set: u64) -> impl Iterator<Item = usize> {
    (0..64).filter(move |member| set >> member & 1 == 1)
}

/// 32 facts, and 32 steps that each lead from a fact to the next. A step may need facts before that, gives one more,
/// and takes some. Some facts hold first, and some are the goal.
pub fn chain(random: &mut Random, needs: usize, takes: usize, goals: usize) -> Fitting {
    let steps = (0..32usize)
        .map(|i| Step {
            needs: (random.subset(needs.min(i), i) | 1 << i) as u32,
            gives: (random.subset(1, 32) | 1 << ((i + 1) % 32)) as u32,
            takes: random.subset(takes, 32) as u32,
        })
        .collect();
    let (start, goal) = (1 | random.subset(3, 32) as u32, random.subset(goals, 32) as u32);
    Fitting { facts: 32, horizon: HORIZON, start, goal, steps }
}

/// Variables with values, a fact a value, and two steps for each: they change this value of the variable to another, if
/// `asked` other variables have the values that the step asks for. The goal has a value a variable.
pub fn valued(random: &mut Random, variables: usize, values: usize, asked: usize) -> Fitting {
    let fact = |variable: usize, value: usize| 1u32 << (values * variable + value);
    let mut steps = Vec::new();
    for (variable, from) in (0..2 * variables * values).map(|i| (i / 2 / values, i / 2 % values)) {
        let to = (from + 1 + random.below(values - 1)) % values;
        let others = members(random.subset(asked, variables - 1)).map(|other| (variable + 1 + other) % variables);
        let needs: u32 = others.map(|other| fact(other, random.below(values))).sum();
        let (before, after) = (fact(variable, from), fact(variable, to));
        steps.push(Step { needs: needs | before, gives: after, takes: before });
    }
    let mut state = || (0..variables).map(|variable| fact(variable, random.below(values))).sum();
    Fitting { facts: variables * values, horizon: HORIZON, start: state(), goal: state(), steps }
}

pub fn random_jobs(random: &mut Random) -> Instances {
    let mut instances = Vec::new();
    for (needs, takes, goals) in [(0, 4, 8), (1, 2, 6), (1, 4, 6), (2, 2, 6), (1, 8, 4)] {
        for i in 1..=5 {
            let label = format!("chain, needs {needs}, takes {takes}, goal {goals}, number {i}");
            instances.push(ask(label, chain(random, needs, takes, goals)));
        }
    }
    for (variables, values, asked) in [(8, 2, 1), (8, 2, 2), (8, 2, 3), (5, 3, 1), (5, 3, 2), (4, 4, 1), (4, 4, 2)] {
        for i in 1..=5 {
            let label = format!("{variables} variables of {values} values, {asked} asked for, number {i}");
            instances.push(ask(label, valued(random, variables, values, asked)));
        }
    }
    instances
}
