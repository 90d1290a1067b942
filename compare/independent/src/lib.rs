//! Turn-taking between test benches, in plain Rust.
//!
//! Written from the requirements alone, to be compared with the library.

mod channel;
mod counts;
mod refusal;
mod rules;
mod run;
mod table;
mod words;

pub use channel::{Channel, Kind, Message, SLOTS, Stamp};
pub use counts::{Counts, Order, compare};
pub use refusal::Refusal;
pub use run::{LONGEST, ROOM, run};
pub use table::{Bench, MOST, Phase, Step, Table};
pub use words::{WORDS, Words, counts_in_words, fresh_words, place, step_words, well_formed};
