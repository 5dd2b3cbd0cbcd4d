//! Loads job files, chooses or plans, and prints the answer with the names of the articles or steps.
//!
//!     tools/library
//!     rustc --edition 2021 -L native=target/lib -l static=kitchen host/example.rs -o target/example_rs
//!     tools/job write jobs/kitchen.txt -o target/kitchen.job
//!     target/example_rs target/kitchen.job
//!
//! If the library is there already, in lib/, the first line falls away, and lib/ takes the place of target/lib/.
//!
//! Status: 1 if a file was refused or could not be read; else 3 if one has no kitchen or no plan; else 0. 2 is misuse.

use std::fs::File;
use std::io::{self, Read, Write};
use std::path::{Path, PathBuf};
use std::process::ExitCode;

// include/kitchen.h says what each of these is.
const FITTING: u8 = 70;
const NO_SELECTION: u32 = 14;
const NO_PLAN: u32 = 15;
const ARTICLES: usize = 64;
const ROUNDS: usize = 16;
const LONGEST: u64 = 3467;

extern "C" {
    fn kitchen_partition(file: *const u8, file_len: usize, groups: *mut u8, groups_len: usize, out: *mut u64) -> u32;
    fn kitchen_choose(
        file: *const u8,
        file_len: usize,
        groups: *const u8,
        groups_len: usize,
        goals: *const u64,
        goals_len: usize,
        floor: u64,
        out: *mut u64,
    ) -> u32;
    fn kitchen_plan(file: *const u8, file_len: usize, rounds: *mut u32, rounds_len: usize, out: *mut u64) -> u32;
    fn kitchen_name(file: *const u8, file_len: usize, number: u64, out: *mut u64) -> u32;
}

/// What a call returned that gave no value: its reason, and its place.
type Refusal = (u32, u64);

/// The two words of an answer.
fn called(call: impl FnOnce(*mut u64) -> u32) -> Result<[u64; 2], Refusal> {
    let mut out = [0; 2];
    match call(out.as_mut_ptr()) {
        0 => Ok(out),
        reason => Err((reason, out[0])),
    }
}

// The calls are safe: each slice has the length that is given, and no two overlap.

fn partition(file: &[u8]) -> Result<[u8; ARTICLES], Refusal> {
    let mut groups = [0; ARTICLES];
    called(|out| unsafe { kitchen_partition(file.as_ptr(), file.len(), groups.as_mut_ptr(), ARTICLES, out) })?;
    Ok(groups)
}

/// The selection and the set aside.
fn choose(file: &[u8], groups: &[u8], goals: &[u64], floor: u64) -> Result<[u64; 2], Refusal> {
    let (groups, groups_len, goals, goals_len) = (groups.as_ptr(), groups.len(), goals.as_ptr(), goals.len());
    called(|out| unsafe { kitchen_choose(file.as_ptr(), file.len(), groups, groups_len, goals, goals_len, floor, out) })
}

fn plan(file: &[u8]) -> Result<Vec<u32>, Refusal> {
    let mut rounds = vec![0; ROUNDS];
    let [count, _] =
        called(|out| unsafe { kitchen_plan(file.as_ptr(), file.len(), rounds.as_mut_ptr(), ROUNDS, out) })?;
    rounds.truncate(count as usize);
    Ok(rounds)
}

fn name(file: &[u8], number: u64) -> String {
    match called(|out| unsafe { kitchen_name(file.as_ptr(), file.len(), number, out) }) {
        Ok([start, len]) if len > 0 => String::from_utf8_lossy(&file[start as usize..][..len as usize]).into_owned(),
        _ => format!("number {number}"),
    }
}

fn names(file: &[u8], set: u64) -> String {
    (0..64).filter(|i| set >> i & 1 == 1).map(|i| format!(" {};", name(file, i))).collect()
}

/// Our own partition, the order as the only goal, and no floor. The order is in the bytes 3 to 10.
fn chosen(file: &[u8]) -> Result<String, Refusal> {
    let groups = partition(file)?;
    let order = file[3..11].iter().rev().fold(0, |order, byte| order << 8 | u64::from(*byte));
    let goals: &[u64] = if order == 0 { &[] } else { &[order] };
    let [selection, aside] = choose(file, &groups, goals, 0)?;
    Ok(format!("chosen:{}\nset aside:{}\n", names(file, selection), names(file, aside)))
}

fn rounds(file: &[u8]) -> Result<String, Refusal> {
    let rounds = plan(file)?.into_iter().enumerate();
    Ok(rounds.map(|(k, set)| format!("round {}:{}\n", k + 1, names(file, set.into()))).collect())
}

/// A file that is longer than a job file can be is read one byte too far: that is refused as the whole file would be.
fn load(path: &Path) -> io::Result<Vec<u8>> {
    let mut file = Vec::new();
    File::open(path)?.take(LONGEST + 1).read_to_end(&mut file)?;
    Ok(file)
}

/// What is printed of a file, and the status. 14 and 15 are answers: the file is in order, and there is none.
fn answer(file: &[u8]) -> (String, u8) {
    match if file.first() == Some(&FITTING) { rounds(file) } else { chosen(file) } {
        Ok(text) => (text, 0),
        Err((NO_SELECTION, _)) => ("no such kitchen\n".into(), 3),
        Err((NO_PLAN, _)) => ("no such plan\n".into(), 3),
        Err((reason, place)) => (format!("refused {reason} at {place}\n"), 1),
    }
}

fn told(path: &Path) -> io::Result<u8> {
    let (text, status) = answer(&load(path)?);
    io::stdout().write_all(text.as_bytes())?;
    Ok(status)
}

fn status_of(path: &Path) -> u8 {
    told(path).unwrap_or_else(|trouble| {
        eprintln!("{}: {trouble}", path.display());
        1
    })
}

fn main() -> ExitCode {
    let paths: Vec<PathBuf> = std::env::args_os().skip(1).map(PathBuf::from).collect();
    if paths.is_empty() {
        eprintln!("usage: example_rs JOB...");
        return ExitCode::from(2);
    }
    let seen: Vec<u8> = paths.iter().map(|path| status_of(path)).collect();
    ExitCode::from(if seen.contains(&1) { 1 } else { seen.into_iter().max().unwrap_or(0) })
}
