//! The five steps, for a table however it is kept.

use crate::channel::{Kind, Message, Stamp};
use crate::counts::Counts;
use crate::refusal::Refusal;
use crate::table::{Phase, Step};

/// A well-formed table, as the rules read and change it. Bench numbers are below n.
pub trait Store {
    fn n(&self) -> usize;
    fn capacity(&self) -> usize;

    fn clock(&self, p: usize) -> u32;
    fn set_clock(&mut self, p: usize, clock: u32);
    fn counts(&self, p: usize) -> &Counts;
    fn counts_mut(&mut self, p: usize) -> &mut Counts;
    fn phase(&self, p: usize) -> Phase;
    fn set_phase(&mut self, p: usize, phase: Phase);

    /// The entry for q in p's own queue.
    fn entry(&self, p: usize, q: usize) -> Option<Stamp>;
    fn set_entry(&mut self, p: usize, q: usize, entry: Option<Stamp>);
    /// The largest stamp that p has heard from q.
    fn heard(&self, p: usize, q: usize) -> Option<Stamp>;
    fn set_heard(&mut self, p: usize, q: usize, heard: Option<Stamp>);

    /// How many messages are in transit.
    fn length(&self, from: usize, to: usize) -> usize;
    fn oldest(&self, from: usize, to: usize) -> Option<Message>;
    /// The counts that the oldest message brings, if there is one.
    fn brought(&self, from: usize, to: usize) -> &Counts;
    /// Takes the oldest message out.
    fn take(&mut self, from: usize, to: usize);
    /// Puts a message behind the others; there is room for it. It brings its sender's counts.
    fn send(&mut self, from: usize, to: usize, message: Message);
}

/// Does a step; a refused one leaves the table as it was.
pub fn step(table: &mut impl Store, step: Step) -> Result<(), Refusal> {
    match step {
        Step::Ask(p) => ask(table, p),
        Step::Carry { from, to } => carry(table, from, to),
        Step::Enter(p) => enter(table, p),
        Step::Leave(p) => leave(table, p),
        Step::Mark(p) => mark(table, p),
    }
}

/// The place of a waiting bench in its own queue, from 1.
pub fn place(table: &impl Store, p: usize) -> Option<usize> {
    if table.phase(p) != Phase::Waiting {
        return None;
    }
    let own = table.entry(p, p)?;
    Some(1 + entries_before(table, p, own).count())
}

fn ask(table: &mut impl Store, p: u32) -> Result<(), Refusal> {
    let p = bench(table, p)?;
    admitted(table, p, Phase::Idle)?;
    room_to_all(table, p)?;
    let stamp = event(table, p)?;
    table.set_phase(p, Phase::Waiting);
    table.set_entry(p, p, Some(stamp));
    send_to_all(table, p, Kind::Request, stamp);
    Ok(())
}

fn carry(table: &mut impl Store, from: u32, to: u32) -> Result<(), Refusal> {
    let (p, q) = (bench(table, from)?, bench(table, to)?);
    if p == q {
        return Err(Refusal::ToItself);
    }
    let Message { kind, stamp } = table.oldest(p, q).ok_or(Refusal::EmptyChannel)?;
    if kind == Kind::Request {
        room(table, q, p)?;
    }
    let received = after(table.clock(q).max(stamp.get()))?;
    let counted = after(table.counts(q)[q])?;
    // The acknowledgement is an event of its own, after the receipt.
    let (last, own) = match kind {
        Kind::Request => (after(received.get())?, after(counted.get())?),
        Kind::Acknowledgement | Kind::Release => (received, counted),
    };

    let brought = *table.brought(p, q);
    let counts = table.counts_mut(q);
    for (count, brought) in counts.iter_mut().zip(brought) {
        *count = brought.max(*count);
    }
    // Its own events a bench counts itself, whatever others say.
    counts[q] = own.get();
    table.take(p, q);
    table.set_clock(q, last.get());
    table.set_heard(q, p, table.heard(q, p).max(Some(stamp)));
    match kind {
        Kind::Request => {
            table.set_entry(q, p, Some(stamp));
            let kind = Kind::Acknowledgement;
            table.send(q, p, Message { kind, stamp: last });
        }
        Kind::Release => table.set_entry(q, p, None),
        Kind::Acknowledgement => {}
    }
    Ok(())
}

fn enter(table: &mut impl Store, p: u32) -> Result<(), Refusal> {
    let p = bench(table, p)?;
    admitted(table, p, Phase::Waiting)?;
    if !may_enter(table, p) {
        return Err(Refusal::EntryRule);
    }
    event(table, p)?;
    table.set_phase(p, Phase::Holding);
    Ok(())
}

fn leave(table: &mut impl Store, p: u32) -> Result<(), Refusal> {
    let p = bench(table, p)?;
    admitted(table, p, Phase::Holding)?;
    room_to_all(table, p)?;
    let stamp = event(table, p)?;
    table.set_phase(p, Phase::Idle);
    table.set_entry(p, p, None);
    send_to_all(table, p, Kind::Release, stamp);
    Ok(())
}

fn mark(table: &mut impl Store, p: u32) -> Result<(), Refusal> {
    let p = bench(table, p)?;
    event(table, p)?;
    Ok(())
}

/// The bench of a number given from outside.
fn bench(table: &impl Store, p: u32) -> Result<usize, Refusal> {
    let p = p as usize;
    if p < table.n() {
        Ok(p)
    } else {
        Err(Refusal::NoBench)
    }
}

fn admitted(table: &impl Store, p: usize, phase: Phase) -> Result<(), Refusal> {
    if table.phase(p) == phase {
        Ok(())
    } else {
        Err(Refusal::Phase)
    }
}

/// An event that is no receipt, unless the clock or the count is spent: its stamp.
fn event(table: &mut impl Store, p: usize) -> Result<Stamp, Refusal> {
    let stamp = after(table.clock(p))?;
    let own = after(table.counts(p)[p])?;
    table.set_clock(p, stamp.get());
    table.counts_mut(p)[p] = own.get();
    Ok(stamp)
}

/// A clock or a count that has advanced by one.
fn after(figure: u32) -> Result<Stamp, Refusal> {
    Stamp::MIN.checked_add(figure).ok_or(Refusal::ClockSpent)
}

fn others<S: Store>(table: &S, p: usize) -> impl Iterator<Item = usize> + use<S> {
    (0..table.n()).filter(move |&q| q != p)
}

fn room(table: &impl Store, from: usize, to: usize) -> Result<(), Refusal> {
    if table.length(from, to) < table.capacity() {
        Ok(())
    } else {
        Err(Refusal::FullChannel)
    }
}

/// Room for a whole broadcast, before any part of it is sent.
fn room_to_all(table: &impl Store, p: usize) -> Result<(), Refusal> {
    others(table, p).try_for_each(|q| room(table, p, q))
}

/// Every copy carries the one stamp.
fn send_to_all(table: &mut impl Store, p: usize, kind: Kind, stamp: Stamp) {
    for q in others(table, p) {
        table.send(p, q, Message { kind, stamp });
    }
}

/// The entry rule: own request first, and something later heard from all others.
fn may_enter(table: &impl Store, p: usize) -> bool {
    let Some(own) = table.entry(p, p) else {
        return false;
    };
    entries_before(table, p, own).next().is_none()
        && others(table, p).all(|q| table.heard(p, q) > Some(own))
}

/// The other benches whose entry in p's queue comes before p's own, of this stamp.
fn entries_before(table: &impl Store, p: usize, own: Stamp) -> impl Iterator<Item = usize> {
    others(table, p).filter(move |&q| {
        let entry = table.entry(p, q);
        entry.is_some_and(|stamp| (stamp, q) < (own, p))
    })
}
