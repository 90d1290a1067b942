use crate::channel::{Channel, Message, SLOTS, Stamp};
use crate::counts::Counts;
use crate::refusal::Refusal;
use crate::rules::{self, Store};

/// The most benches of a table.
pub const MOST: usize = 8;

#[derive(Clone, Copy, Debug, Default, PartialEq, Eq)]
pub enum Phase {
    #[default]
    Idle,
    Waiting,
    Holding,
}

/// A step, with bench numbers as they were given: they need not exist.
#[derive(Clone, Copy, Debug, PartialEq, Eq)]
pub enum Step {
    Ask(u32),
    Carry { from: u32, to: u32 },
    Enter(u32),
    Leave(u32),
    Mark(u32),
}

impl Step {
    /// The bench whose clock the step advances: for carry the receiver.
    pub fn bench(self) -> u32 {
        match self {
            Step::Ask(p) | Step::Enter(p) | Step::Leave(p) | Step::Mark(p) => p,
            Step::Carry { to, .. } => to,
        }
    }
}

/// What one bench knows.
#[derive(Clone, Copy, Debug, Default)]
pub struct Bench {
    pub clock: u32,
    pub counts: Counts,
    pub phase: Phase,
    /// This bench's own queue: the stamp of each bench's request.
    pub queue: [Option<Stamp>; MOST],
    /// The largest stamp heard from each other bench.
    pub heard: [Option<Stamp>; MOST],
}

/// Sizes are in range and the table is well formed from its making on.
#[derive(Clone, Debug)]
pub struct Table {
    pub(crate) capacity: usize,
    pub(crate) n: usize,
    /// Those from n on stay as they were made.
    pub(crate) benches: [Bench; MOST],
    /// By sender, then by receiver. They take room for counts, so there are none of absent senders.
    pub(crate) channels: Vec<[Channel; MOST]>,
}

impl Table {
    pub fn fresh(n: u32, capacity: u32, start: u32) -> Result<Table, Refusal> {
        let (n, capacity) = sizes(n, capacity).ok_or(Refusal::Sizes)?;
        let mut table = Table::empty(n, capacity);
        for bench in &mut table.benches[..n] {
            bench.clock = start;
        }
        Ok(table)
    }

    pub(crate) fn empty(n: usize, capacity: usize) -> Table {
        Table {
            n,
            capacity,
            benches: Default::default(),
            channels: vec![Default::default(); n],
        }
    }

    /// The benches that there are.
    pub fn benches(&self) -> &[Bench] {
        &self.benches[..self.n]
    }

    /// The lowest bench that holds.
    pub fn holder(&self) -> Option<usize> {
        self.benches()
            .iter()
            .position(|bench| bench.phase == Phase::Holding)
    }

    /// The place of a waiting bench in its own queue, from 1.
    pub fn place(&self, p: usize) -> Option<usize> {
        rules::place(self, p)
    }

    /// Does a step; a refused one leaves the table as it was.
    pub fn step(&mut self, step: Step) -> Result<(), Refusal> {
        rules::step(self, step)
    }
}

impl Store for Table {
    fn n(&self) -> usize {
        self.n
    }

    fn capacity(&self) -> usize {
        self.capacity
    }

    fn clock(&self, p: usize) -> u32 {
        self.benches[p].clock
    }

    fn set_clock(&mut self, p: usize, clock: u32) {
        self.benches[p].clock = clock;
    }

    fn counts(&self, p: usize) -> &Counts {
        &self.benches[p].counts
    }

    fn counts_mut(&mut self, p: usize) -> &mut Counts {
        &mut self.benches[p].counts
    }

    fn phase(&self, p: usize) -> Phase {
        self.benches[p].phase
    }

    fn set_phase(&mut self, p: usize, phase: Phase) {
        self.benches[p].phase = phase;
    }

    fn entry(&self, p: usize, q: usize) -> Option<Stamp> {
        self.benches[p].queue[q]
    }

    fn set_entry(&mut self, p: usize, q: usize, entry: Option<Stamp>) {
        self.benches[p].queue[q] = entry;
    }

    fn heard(&self, p: usize, q: usize) -> Option<Stamp> {
        self.benches[p].heard[q]
    }

    fn set_heard(&mut self, p: usize, q: usize, heard: Option<Stamp>) {
        self.benches[p].heard[q] = heard;
    }

    fn length(&self, from: usize, to: usize) -> usize {
        self.channels[from][to].length()
    }

    fn oldest(&self, from: usize, to: usize) -> Option<Message> {
        self.channels[from][to].oldest()
    }

    fn brought(&self, from: usize, to: usize) -> &Counts {
        self.channels[from][to].brought()
    }

    fn take(&mut self, from: usize, to: usize) {
        self.channels[from][to].take();
    }

    fn send(&mut self, from: usize, to: usize, message: Message) {
        self.channels[from][to].send(message, &self.benches[from].counts);
    }
}

/// Both sizes, if they are in range.
pub(crate) fn sizes(n: u32, capacity: u32) -> Option<(usize, usize)> {
    let (n, capacity) = (n as usize, capacity as usize);
    ((1..=MOST).contains(&n) && (1..=SLOTS).contains(&capacity)).then_some((n, capacity))
}
