use crate::counts::Counts;
use std::num::NonZeroU32;

/// The most messages that a channel can be made for.
pub const SLOTS: usize = 16;

/// A stamp is a clock after an advance, and so at least 1.
pub type Stamp = NonZeroU32;

#[derive(Clone, Copy, Debug, PartialEq, Eq)]
pub enum Kind {
    Request,
    Acknowledgement,
    Release,
}

#[derive(Clone, Copy, Debug, PartialEq, Eq)]
pub struct Message {
    pub kind: Kind,
    pub stamp: Stamp,
}

/// The messages in transit from one bench to another: a ring, oldest first.
#[derive(Clone, Copy, Debug, Default)]
pub struct Channel {
    slots: [Option<Message>; SLOTS],
    /// What the message in each slot brings; the rest is left over.
    brought: [Counts; SLOTS],
    first: usize,
    length: usize,
}

impl Channel {
    pub fn length(&self) -> usize {
        self.length
    }

    pub fn oldest(&self) -> Option<Message> {
        self.slots[self.first]
    }

    /// The counts that the oldest message brings, if there is one.
    pub fn brought(&self) -> &Counts {
        &self.brought[self.first]
    }

    /// Takes the oldest message out, if there is one.
    pub fn take(&mut self) -> Option<Message> {
        let taken = self.slots[self.first].take()?;
        self.first = (self.first + 1) % SLOTS;
        self.length -= 1;
        Some(taken)
    }

    /// Puts a message behind the others. The sender has made sure that there is room.
    pub fn send(&mut self, message: Message, counts: &Counts) {
        debug_assert!(self.length < SLOTS);
        let slot = (self.first + self.length) % SLOTS;
        self.slots[slot] = Some(message);
        self.brought[slot] = *counts;
        self.length += 1;
    }

    /// The messages with what they bring, oldest first.
    pub fn messages(&self) -> impl Iterator<Item = (Message, &Counts)> {
        (0..self.length)
            .map(|slot| (self.first + slot) % SLOTS)
            .filter_map(|slot| Some((self.slots[slot]?, &self.brought[slot])))
    }
}
