//! A table laid out in words that somebody else owns and lends for one call.

use crate::channel::{Channel, Kind, Message, SLOTS, Stamp};
use crate::counts::Counts;
use crate::refusal::Refusal;
use crate::rules::{self, Store};
use crate::table::{Bench, MOST, Phase, Step, Table, sizes};

pub const WORDS: usize = place::brought(MOST, 0, 0);

pub type Words = [u32; WORDS];

/// Where each part of a table stands.
pub mod place {
    use crate::channel::SLOTS;
    use crate::table::MOST;

    pub const N: usize = 0;
    pub const CAPACITY: usize = 1;

    pub const fn clock(p: usize) -> usize {
        2 + p
    }

    pub const fn phase(p: usize) -> usize {
        clock(MOST) + p
    }

    pub const fn entry(p: usize, q: usize) -> usize {
        phase(MOST) + MOST * p + q
    }

    pub const fn heard(p: usize, q: usize) -> usize {
        entry(MOST, 0) + MOST * p + q
    }

    pub const fn length(from: usize, to: usize) -> usize {
        heard(MOST, 0) + MOST * from + to
    }

    /// The kind of a message; its stamp is the word behind.
    pub const fn slot(from: usize, to: usize, slot: usize) -> usize {
        length(MOST, 0) + 2 * (SLOTS * (MOST * from + to) + slot)
    }

    /// A bench's own row of counts.
    pub const fn counts(p: usize) -> usize {
        slot(MOST, 0, 0) + MOST * p
    }

    /// The row of counts that a message brings.
    pub const fn brought(from: usize, to: usize, slot: usize) -> usize {
        counts(MOST) + MOST * (SLOTS * (MOST * from + to) + slot)
    }
}

/// Whether the words are a table.
pub fn well_formed(words: &Words) -> bool {
    let Some((n, capacity)) = sizes(words[place::N], words[place::CAPACITY]) else {
        return false;
    };
    (0..MOST).all(|p| bench_well_formed(words, n, p))
        && (0..n).all(|p| {
            (0..n).all(|q| channel_well_formed(words, n, p, q, if p == q { 0 } else { capacity }))
                && channels_empty(words, (p, n), (p, MOST))
        })
        && channels_empty(words, (n, 0), (MOST, 0))
}

fn bench_well_formed(words: &Words, n: usize, p: usize) -> bool {
    let clock = words[place::clock(p)];
    let phase = words[place::phase(p)];
    let queue = &words[place::entry(p, 0)..][..MOST];
    let heard = &words[place::heard(p, 0)..][..MOST];
    let counts = &words[place::counts(p)..][..MOST];
    if p < n {
        phase <= 2
            && (queue[p] != 0) == (phase != 0)
            && heard[p] == 0
            && all_zero(&queue[n..])
            && all_zero(&heard[n..])
            && all_zero(&counts[n..])
    } else {
        clock == 0 && phase == 0 && all_zero(queue) && all_zero(heard) && all_zero(counts)
    }
}

/// The channel of a bench to itself is one of capacity 0.
fn channel_well_formed(words: &Words, n: usize, from: usize, to: usize, capacity: usize) -> bool {
    let length = words[place::length(from, to)] as usize;
    if length > capacity {
        return false;
    }
    let slots = &words[place::slot(from, to, 0)..][..2 * SLOTS];
    let (used, unused) = slots.split_at(2 * length);
    let rows = &words[place::brought(from, to, 0)..][..MOST * SLOTS];
    let (used_rows, unused_rows) = rows.split_at(MOST * length);
    used.chunks_exact(2)
        .all(|slot| kind_of(slot[0]).is_some() && slot[1] != 0)
        && used_rows.chunks_exact(MOST).all(|row| all_zero(&row[n..]))
        && all_zero(unused)
        && all_zero(unused_rows)
}

/// Whether nothing stands in the channels from one on and before another, as they are laid out.
fn channels_empty(words: &Words, first: (usize, usize), end: (usize, usize)) -> bool {
    all_zero(&words[place::length(first.0, first.1)..place::length(end.0, end.1)])
        && all_zero(&words[place::slot(first.0, first.1, 0)..place::slot(end.0, end.1, 0)])
        && all_zero(&words[place::brought(first.0, first.1, 0)..place::brought(end.0, end.1, 0)])
}

/// Without an early way out, so that many words are looked at together.
fn all_zero(words: &[u32]) -> bool {
    words.iter().fold(0, |seen, word| seen | word) == 0
}

fn kind_of(word: u32) -> Option<Kind> {
    match word {
        0 => Some(Kind::Request),
        1 => Some(Kind::Acknowledgement),
        2 => Some(Kind::Release),
        _ => None,
    }
}

fn phase_of(word: u32) -> Option<Phase> {
    match word {
        0 => Some(Phase::Idle),
        1 => Some(Phase::Waiting),
        2 => Some(Phase::Holding),
        _ => None,
    }
}

fn stamp_word(stamp: Option<Stamp>) -> u32 {
    stamp.map_or(0, Stamp::get)
}

impl Table {
    /// None exactly when the words are not well formed.
    pub fn from_words(words: &Words) -> Option<Table> {
        if !well_formed(words) {
            return None;
        }
        let n = words[place::N] as usize;
        let mut table = Table::empty(n, words[place::CAPACITY] as usize);
        for p in 0..n {
            table.benches[p] = read_bench(words, p)?;
            for q in 0..n {
                read_channel(words, p, q, &mut table.channels[p][q])?;
            }
        }
        Some(table)
    }

    /// Writes every word.
    pub fn write_words(&self, words: &mut Words) {
        words.fill(0);
        words[place::N] = self.n as u32;
        words[place::CAPACITY] = self.capacity as u32;
        for p in 0..self.n {
            self.write_bench(p, words);
            self.write_channels_from(p, words);
        }
    }

    fn write_bench(&self, p: usize, words: &mut Words) {
        let bench = &self.benches[p];
        words[place::clock(p)] = bench.clock;
        words[place::phase(p)] = bench.phase as u32;
        for q in 0..self.n {
            words[place::entry(p, q)] = stamp_word(bench.queue[q]);
            words[place::heard(p, q)] = stamp_word(bench.heard[q]);
        }
        *row_mut(words, place::counts(p)) = bench.counts;
    }

    fn write_channels_from(&self, p: usize, words: &mut Words) {
        for q in 0..self.n {
            self.write_channel(p, q, words);
        }
    }

    fn write_channel(&self, from: usize, to: usize, words: &mut Words) {
        let channel = &self.channels[from][to];
        words[place::length(from, to)] = channel.length() as u32;
        for (slot, (message, counts)) in channel.messages().enumerate() {
            write_message(words, from, to, slot, message);
            *row_mut(words, place::brought(from, to, slot)) = *counts;
        }
    }
}

fn read_bench(words: &Words, p: usize) -> Option<Bench> {
    Some(Bench {
        clock: words[place::clock(p)],
        counts: *row(words, place::counts(p)),
        phase: phase_of(words[place::phase(p)])?,
        queue: std::array::from_fn(|q| Stamp::new(words[place::entry(p, q)])),
        heard: std::array::from_fn(|q| Stamp::new(words[place::heard(p, q)])),
    })
}

fn read_channel(words: &Words, from: usize, to: usize, channel: &mut Channel) -> Option<()> {
    for slot in 0..words[place::length(from, to)] as usize {
        let counts = row(words, place::brought(from, to, slot));
        channel.send(read_message(words, from, to, slot)?, counts);
    }
    Some(())
}

/// An unused slot has stamp 0, and so no message.
fn read_message(words: &Words, from: usize, to: usize, slot: usize) -> Option<Message> {
    let place = place::slot(from, to, slot);
    Some(Message {
        kind: kind_of(words[place])?,
        stamp: Stamp::new(words[place + 1])?,
    })
}

fn write_message(words: &mut Words, from: usize, to: usize, slot: usize, message: Message) {
    let place = place::slot(from, to, slot);
    words[place] = message.kind as u32;
    words[place + 1] = message.stamp.get();
}

fn row(words: &Words, place: usize) -> &Counts {
    words[place..]
        .first_chunk()
        .expect("a row ends in the table")
}

fn row_mut(words: &mut Words, place: usize) -> &mut Counts {
    words[place..]
        .first_chunk_mut()
        .expect("a row ends in the table")
}

/// Makes a fresh table in lent words. Bad sizes give 9 and zeros.
pub fn fresh_words(words: &mut Words, n: u32, capacity: u32, start: u32) -> u32 {
    let fresh = Table::fresh(n, capacity, start);
    match &fresh {
        Ok(table) => table.write_words(words),
        Err(_) => words.fill(0),
    }
    Refusal::answer(fresh.map(drop))
}

/// Does a step on lent words: 0, or a refusal from 1 to 8 that leaves them alone.
pub fn step_words(words: &mut Words, step: Step) -> u32 {
    if !well_formed(words) {
        return Refusal::NotWellFormed as u32;
    }
    Refusal::answer(rules::step(&mut Lent(words), step))
}

/// Hands a bench's counts over: 0, or a refusal 1 or 2 that writes nothing.
pub fn counts_in_words(words: &Words, bench: u32, counts: &mut Counts) -> u32 {
    if !well_formed(words) {
        return Refusal::NotWellFormed as u32;
    }
    if bench >= words[place::N] {
        return Refusal::NoBench as u32;
    }
    *counts = *row(words, place::counts(bench as usize));
    0
}

/// Well-formed words, worked on where they are.
struct Lent<'a>(&'a mut Words);

impl Store for Lent<'_> {
    fn n(&self) -> usize {
        self.0[place::N] as usize
    }

    fn capacity(&self) -> usize {
        self.0[place::CAPACITY] as usize
    }

    fn clock(&self, p: usize) -> u32 {
        self.0[place::clock(p)]
    }

    fn set_clock(&mut self, p: usize, clock: u32) {
        self.0[place::clock(p)] = clock;
    }

    fn counts(&self, p: usize) -> &Counts {
        row(self.0, place::counts(p))
    }

    fn counts_mut(&mut self, p: usize) -> &mut Counts {
        row_mut(self.0, place::counts(p))
    }

    fn phase(&self, p: usize) -> Phase {
        // A well-formed table has no other phases.
        phase_of(self.0[place::phase(p)]).unwrap_or_default()
    }

    fn set_phase(&mut self, p: usize, phase: Phase) {
        self.0[place::phase(p)] = phase as u32;
    }

    fn entry(&self, p: usize, q: usize) -> Option<Stamp> {
        Stamp::new(self.0[place::entry(p, q)])
    }

    fn set_entry(&mut self, p: usize, q: usize, entry: Option<Stamp>) {
        self.0[place::entry(p, q)] = stamp_word(entry);
    }

    fn heard(&self, p: usize, q: usize) -> Option<Stamp> {
        Stamp::new(self.0[place::heard(p, q)])
    }

    fn set_heard(&mut self, p: usize, q: usize, heard: Option<Stamp>) {
        self.0[place::heard(p, q)] = stamp_word(heard);
    }

    fn length(&self, from: usize, to: usize) -> usize {
        self.0[place::length(from, to)] as usize
    }

    fn oldest(&self, from: usize, to: usize) -> Option<Message> {
        read_message(self.0, from, to, 0)
    }

    fn brought(&self, from: usize, to: usize) -> &Counts {
        row(self.0, place::brought(from, to, 0))
    }

    fn take(&mut self, from: usize, to: usize) {
        let length = self.length(from, to);
        move_up(&mut self.0[place::slot(from, to, 0)..][..2 * length], 2);
        move_up(
            &mut self.0[place::brought(from, to, 0)..][..MOST * length],
            MOST,
        );
        self.0[place::length(from, to)] -= 1;
    }

    fn send(&mut self, from: usize, to: usize, message: Message) {
        let slot = self.length(from, to);
        let counts = *self.counts(from);
        write_message(self.0, from, to, slot, message);
        *row_mut(self.0, place::brought(from, to, slot)) = counts;
        self.0[place::length(from, to)] += 1;
    }
}

/// Moves everything up over the first words, and zeros what this frees.
fn move_up(words: &mut [u32], first: usize) {
    words.copy_within(first.., 0);
    let kept = words.len() - first;
    words[kept..].fill(0);
}
