//! How many events one bench knows of.

use crate::table::MOST;

/// For each bench the number of its events that are known, in the order of the benches.
pub type Counts = [u32; MOST];

/// How one event's counts stand to another's, by the library's numbers.
#[derive(Clone, Copy, Debug, PartialEq, Eq)]
#[repr(u32)]
pub enum Order {
    Before = 0,
    After = 1,
    Same = 2,
    Neither = 3,
}

pub fn compare(a: &Counts, b: &Counts) -> Order {
    let smaller = a.iter().zip(b).any(|(a, b)| a < b);
    let larger = a.iter().zip(b).any(|(a, b)| a > b);
    match (smaller, larger) {
        (true, false) => Order::Before,
        (false, true) => Order::After,
        (false, false) => Order::Same,
        (true, true) => Order::Neither,
    }
}
