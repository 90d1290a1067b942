//! What the test and the benchmark throw at both sides: dice, steps and schedules.

mod dice;
mod schedule;
mod steps;

pub use dice::Dice;
pub use schedule::{Draft, LONGEST_STEP, step_text};
pub use steps::{done_step, hostile_step, random_step, reached};
