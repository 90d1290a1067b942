//! The functions of librybostan.a, as rybostan.h declares them.

// A host need not use all of it.
#![allow(dead_code)]

pub const WORDS: usize = 10514;

pub type Table = [u32; WORDS];

/// For each bench, how many of its events are known: the stamp of an event.
pub type Counts = [u32; 8];

/// Where the count of bench q's events stands that bench p knows of.
pub const fn count(p: usize, q: usize) -> usize {
    2258 + 8 * p + q
}

/// Where the count for bench a stands that the message in slot i of the channel from p to q brings.
pub const fn brought(p: usize, q: usize, i: usize, a: usize) -> usize {
    2322 + 8 * (16 * (8 * p + q) + i) + a
}

/// What `compare` gives: the first event happened before the second, after it, is the same, or
/// none of these.
pub const BEFORE: u32 = 0;
pub const AFTER: u32 = 1;
pub const SAME: u32 = 2;
pub const NEITHER: u32 = 3;

/// 0 and the bytes written; or a refusal with its line, which is 0 for 11 and 12, and 0 bytes.
#[repr(C)]
#[derive(Clone, Copy, Debug, PartialEq, Eq)]
pub struct Ran {
    pub answer: u32,
    pub line: usize,
    pub bytes: usize,
}

// A table and a stamp are lent whole, so these take every value that they can be given.
unsafe extern "C" {
    #[link_name = "rybostan_fresh"]
    pub safe fn fresh(table: &mut Table, benches: u32, capacity: u32, start: u32) -> u32;
    #[link_name = "rybostan_well_formed"]
    pub safe fn well_formed(table: &Table) -> bool;
    #[link_name = "rybostan_ask"]
    pub safe fn ask(table: &mut Table, bench: u32) -> u32;
    #[link_name = "rybostan_carry"]
    pub safe fn carry(table: &mut Table, sender: u32, receiver: u32) -> u32;
    #[link_name = "rybostan_enter"]
    pub safe fn enter(table: &mut Table, bench: u32) -> u32;
    #[link_name = "rybostan_leave"]
    pub safe fn leave(table: &mut Table, bench: u32) -> u32;
    #[link_name = "rybostan_mark"]
    pub safe fn mark(table: &mut Table, bench: u32) -> u32;
    #[link_name = "rybostan_counts"]
    pub safe fn counts(table: &Table, bench: u32, counts: &mut Counts) -> u32;
    #[link_name = "rybostan_compare"]
    pub safe fn compare(a: &Counts, b: &Counts) -> u32;

    fn rybostan_run(
        schedule: *const u8,
        schedule_length: usize,
        budget: usize,
        output: *mut u8,
        output_length: usize,
    ) -> Ran;
}

/// Runs the schedule, and writes the listing over the front of the output.
pub fn run(schedule: &[u8], budget: usize, output: &mut [u8]) -> Ran {
    // SAFETY: a slice's pointer and length, lent for the call.
    unsafe {
        rybostan_run(
            schedule.as_ptr(),
            schedule.len(),
            budget,
            output.as_mut_ptr(),
            output.len(),
        )
    }
}
