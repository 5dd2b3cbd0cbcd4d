//! The proved library, through its C interface (include/kitchen.h).

extern "C" {
    fn kitchen_partition(file: *const u8, file_len: usize, groups: *mut u8, groups_len: usize, out: *mut u64) -> u32;
    fn kitchen_pass(
        file: *const u8,
        file_len: usize,
        groups: *const u8,
        groups_len: usize,
        live: u64,
        goal: u64,
        out: *mut u64,
    ) -> u32;
    fn kitchen_choose(
        file: *const u8,
        file_len: usize,
        groups: *const u8,
        groups_len: usize,
        goals: *const u64,
        goals_len: usize,
        floor: u64,
        out: *mut u64,
    ) -> u32;
    fn kitchen_fair(
        file: *const u8,
        file_len: usize,
        orders: *const u64,
        orders_len: usize,
        words: *mut u64,
        words_len: usize,
        out: *mut u64,
    ) -> u32;
    fn kitchen_save_order(
        file: *const u8,
        file_len: usize,
        order: u64,
        to: *mut u8,
        to_len: usize,
        out: *mut u64,
    ) -> u32;
    fn kitchen_price(file: *const u8, file_len: usize, rate: u64, out: *mut u64) -> u32;
    fn kitchen_plan(file: *const u8, file_len: usize, rounds: *mut u32, rounds_len: usize, out: *mut u64) -> u32;
}

/// A refusal's number and place.
pub type Refusal = (u32, u64);

/// A call returns 0 for an answer; otherwise the reason, and the place in the first word.
fn outcome<const WORDS: usize>(reason: u32, out: [u64; WORDS]) -> Result<[u64; WORDS], Refusal> {
    if reason == 0 {
        Ok(out)
    } else {
        Err((reason, out[0]))
    }
}

pub fn partition(file: &[u8], groups: &mut [u8]) -> Result<(), Refusal> {
    let mut out = [0; 2];
    let reason =
        unsafe { kitchen_partition(file.as_ptr(), file.len(), groups.as_mut_ptr(), groups.len(), out.as_mut_ptr()) };
    outcome(reason, out).map(|_| ())
}

/// Our own partition of a file that was drawn within the limits.
pub fn own_groups(file: &[u8]) -> [u8; 64] {
    let mut groups = [0; 64];
    partition(file, &mut groups).expect("what the families draw is a valid file");
    groups
}

/// What a pass leaves live, and the sum of the contributions.
pub fn pass(file: &[u8], groups: &[u8], live: u64, goal: u64) -> Result<(u64, u64), Refusal> {
    let mut out = [0; 2];
    let reason = unsafe {
        let (groups, groups_len) = (groups.as_ptr(), groups.len());
        kitchen_pass(file.as_ptr(), file.len(), groups, groups_len, live, goal, out.as_mut_ptr())
    };
    outcome(reason, out).map(|[live, sum]| (live, sum))
}

/// The selection and what is set aside.
pub fn choose(file: &[u8], groups: &[u8], goals: &[u64], floor: u64) -> Result<(u64, u64), Refusal> {
    let mut out = [0; 2];
    let reason = unsafe {
        let (groups, groups_len) = (groups.as_ptr(), groups.len());
        kitchen_choose(
            file.as_ptr(),
            file.len(),
            groups,
            groups_len,
            goals.as_ptr(),
            goals.len(),
            floor,
            out.as_mut_ptr(),
        )
    };
    outcome(reason, out).map(|[selection, aside]| (selection, aside))
}

/// Status, selection and set aside of each order, in three words.
pub fn fair(file: &[u8], orders: &[u64], words: &mut [u64]) -> Result<(), Refusal> {
    let mut out = [0; 2];
    let reason = unsafe {
        let (orders, orders_len) = (orders.as_ptr(), orders.len());
        let (words, words_len) = (words.as_mut_ptr(), words.len());
        kitchen_fair(file.as_ptr(), file.len(), orders, orders_len, words, words_len, out.as_mut_ptr())
    };
    outcome(reason, out).map(|_| ())
}

/// The length of the file with this order in place of its own.
pub fn save_order(file: &[u8], order: u64, to: &mut [u8]) -> Result<usize, Refusal> {
    let mut out = [0; 2];
    let reason =
        unsafe { kitchen_save_order(file.as_ptr(), file.len(), order, to.as_mut_ptr(), to.len(), out.as_mut_ptr()) };
    outcome(reason, out).map(|[length, _]| length as usize)
}

/// The cheapest selection, its total, and the tax on it.
pub fn price(file: &[u8], rate: u64) -> Result<(u64, i64, i64), Refusal> {
    let mut out = [0; 3];
    let reason = unsafe { kitchen_price(file.as_ptr(), file.len(), rate, out.as_mut_ptr()) };
    outcome(reason, out).map(|[selection, total, tax]| (selection, total as i64, tax as i64))
}

/// The count of rounds.
pub fn plan(file: &[u8], rounds: &mut [u32]) -> Result<u64, Refusal> {
    let mut out = [0; 2];
    let reason =
        unsafe { kitchen_plan(file.as_ptr(), file.len(), rounds.as_mut_ptr(), rounds.len(), out.as_mut_ptr()) };
    outcome(reason, out).map(|[count, _]| count)
}
