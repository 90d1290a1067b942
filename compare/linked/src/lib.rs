//! The library, as a host in Rust links it, in the terms of the independent version.

#[path = "../../../hosts/rybostan.rs"]
mod rybostan;

use independent::{Counts, Step, Words};

pub fn fresh(words: &mut Words, n: u32, capacity: u32, start: u32) -> u32 {
    rybostan::fresh(words, n, capacity, start)
}

pub fn well_formed(words: &Words) -> bool {
    rybostan::well_formed(words)
}

pub fn step(words: &mut Words, step: Step) -> u32 {
    match step {
        Step::Ask(p) => rybostan::ask(words, p),
        Step::Carry { from, to } => rybostan::carry(words, from, to),
        Step::Enter(p) => rybostan::enter(words, p),
        Step::Leave(p) => rybostan::leave(words, p),
        Step::Mark(p) => rybostan::mark(words, p),
    }
}

pub fn counts(words: &Words, p: u32, counts: &mut Counts) -> u32 {
    rybostan::counts(words, p, counts)
}

/// An order's number.
pub fn compare(a: &Counts, b: &Counts) -> u32 {
    rybostan::compare(a, b)
}

/// The answer, its line, and the bytes written.
pub fn run(schedule: &[u8], budget: usize, out: &mut [u8]) -> (u32, usize, usize) {
    let ran = rybostan::run(schedule, budget, out);
    (ran.answer, ran.line, ran.bytes)
}
