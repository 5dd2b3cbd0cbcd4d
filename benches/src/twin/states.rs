//! The states that single steps lead to from the start, if there are few.

use super::reader::Fitting;

const MOST: usize = 8192;
const SLOTS: usize = 32768;

/// Whether no plan exists at all: steps one after the other lead to few states, and none of them holds the goal.
pub fn hopeless(job: &Fitting) -> bool {
    let mut states = Vec::new();
    let mut slots = vec![0u16; SLOTS];
    insert(&mut states, &mut slots, job.start);
    let mut at = 0;
    while at < states.len() {
        let facts = states[at];
        if job.goal & !facts == 0 {
            return false;
        }
        for a in 0..job.n {
            if job.needs[a] & !facts == 0 && !insert(&mut states, &mut slots, facts & !job.takes[a] | job.gives[a]) {
                return false;
            }
        }
        at += 1;
    }
    true
}

/// Whether there was room for the state, if it is new.
fn insert(states: &mut Vec<u64>, slots: &mut [u16], state: u64) -> bool {
    let mut slot = (state * 0x9e37_79b1 / 0x100_0000) as usize % SLOTS;
    for _ in 0..16 {
        match slots[slot] as usize {
            0 if states.len() == MOST => return false,
            0 => {
                states.push(state);
                slots[slot] = states.len() as u16;
                return true;
            }
            i if states[i - 1] == state => return true,
            _ => slot = (slot + 1) % SLOTS,
        }
    }
    false
}
