/// The numbers for no, in the order in which they are looked for.
#[derive(Clone, Copy, Debug, PartialEq, Eq)]
#[repr(u32)]
pub enum Refusal {
    NotWellFormed = 1,
    NoBench = 2,
    ToItself = 3,
    Phase = 4,
    EmptyChannel = 5,
    EntryRule = 6,
    FullChannel = 7,
    ClockSpent = 8,
    Sizes = 9,
    BadLine = 10,
    NoRoom = 11,
    TooLong = 12,
}

impl Refusal {
    /// The number of an outcome: 0 for done.
    pub fn answer(outcome: Result<(), Refusal>) -> u32 {
        outcome.map_or_else(|refusal| refusal as u32, |()| 0)
    }
}
