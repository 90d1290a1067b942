//! The schedules that both sides are timed on, all of nearly the longest length.

use independent::{LONGEST, Step};
use material::{Dice, Draft, hostile_step};

pub struct File {
    pub name: &'static str,
    draft: fn() -> Draft,
}

impl File {
    pub fn schedule(&self) -> Vec<u8> {
        (self.draft)().text
    }
}

pub const FILES: [File; 5] = [
    File {
        name: "2 benches take turns",
        draft: || progress(2, 4, 0),
    },
    File {
        name: "3 benches take turns",
        draft: || progress(3, 4, 0),
    },
    File {
        name: "3 benches, clocks of ten digits",
        draft: || progress(3, 4, 4_000_000_000),
    },
    File {
        name: "8 benches, channels often full",
        draft: crowded,
    },
    File {
        name: "8 benches, refusals and marks",
        draft: refusals,
    },
];

/// Steps that are done, and so benches that ask, enter and leave again and again.
fn progress(n: u32, capacity: u32, start: u32) -> Draft {
    let mut dice = Dice::new(2);
    let mut draft = Draft::new(n, capacity, start);
    draft.fill(LONGEST, |draft| draft.push_done(&mut dice));
    draft
}

/// Broadcasts to all and carries, through channels for two messages.
fn crowded() -> Draft {
    let mut dice = Dice::new(3);
    let mut draft = Draft::new(8, 2, 0);
    draft.fill(LONGEST, |draft| match dice.below(5) {
        0 => draft.push_random(&mut dice),
        _ => draft.push_done(&mut dice),
    });
    draft
}

/// Marks, and steps of which most are refused.
fn refusals() -> Draft {
    let mut dice = Dice::new(4);
    let mut draft = Draft::new(8, 4, 0);
    draft.fill(LONGEST, |draft| {
        let step = match dice.below(3) {
            0 => Step::Mark(dice.bench(8)),
            _ => hostile_step(&mut dice, 8),
        };
        draft.push(step);
    });
    draft
}
