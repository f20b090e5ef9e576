//! A source: its registers, and one access at a time (docs/FORMATS.md, "The access tables").

use crate::event::{Entry, Slot};
use crate::layout::Layout;

/// The access that comes next.
enum Access {
    LoadSettled,
    /// Of the boot: the slot with this number.
    LookAtSlot(usize),
    LoadAcknowledged,
    LoadTail,
    LoadSlot,
    Publish,
    MoveTail,
    HelpTail,
    StoreSkipped,
    StoreAccepted,
}

pub struct Source {
    number: u8,
    thread: usize,
    next_access: Access,
    accepted: u32,
    reading: u32,
    tail: u64,
    /// Whether the boot found an own event with the count of the next one.
    is_published: bool,
}

impl Source {
    pub fn new(number: u8, thread: usize) -> Source {
        Source { number, thread, next_access: Access::LoadSettled, accepted: 0, reading: 0, tail: 0, is_published: false }
    }

    /// Makes the next access, if there is one.
    pub fn turn(&mut self, layout: &Layout, readings: &[u32], words: &mut [u64], journal: &mut Vec<Entry>) {
        let places = &layout.threads[self.thread];
        let count = (self.accepted % 64) as u8;
        self.next_access = match self.next_access {
            Access::LoadSettled => {
                let word = words[layout.sources + usize::from(self.number)];
                self.accepted = word as u32;
                self.reading = (word >> 32) as u32;
                Access::LookAtSlot(0)
            }
            Access::LookAtSlot(slot) => {
                let word = Slot(words[places.slots + slot]);
                self.is_published |= word.is_full() && word.source() == self.number && word.count() == count;
                if slot + 1 < places.places as usize {
                    Access::LookAtSlot(slot + 1)
                } else {
                    Access::LoadAcknowledged
                }
            }
            Access::LoadAcknowledged => {
                let acknowledged = words[layout.acks + usize::from(self.number)];
                let is_published = self.is_published || acknowledged == u64::from((count + 1) % 64);
                if is_published && (self.reading as usize) < readings.len() {
                    Access::StoreAccepted
                } else {
                    Access::LoadTail
                }
            }
            Access::LoadTail => {
                if self.reading as usize >= readings.len() {
                    return;
                }
                self.tail = words[places.tail];
                Access::LoadSlot
            }
            Access::LoadSlot => {
                let word = Slot(words[places.slot(self.tail)]);
                if word.0 == Slot::empty(self.tail).0 {
                    Access::Publish
                } else if self.tail >= places.places && word.is_full_at(self.tail - places.places) {
                    journal.push(Entry::Refuse(self.number));
                    Access::StoreSkipped
                } else {
                    Access::HelpTail
                }
            }
            Access::Publish => {
                let slot = &mut words[places.slot(self.tail)];
                if *slot == Slot::empty(self.tail).0 {
                    *slot = Slot::full(self.tail, self.number, count, readings[self.reading as usize]).0;
                    journal.push(Entry::Push(self.number));
                    Access::MoveTail
                } else {
                    Access::HelpTail
                }
            }
            Access::MoveTail => {
                self.move_tail(&mut words[places.tail]);
                Access::StoreAccepted
            }
            Access::HelpTail => {
                self.move_tail(&mut words[places.tail]);
                Access::LoadTail
            }
            Access::StoreSkipped => {
                self.reading += 1;
                self.store_settled(layout, words);
                journal.push(Entry::Skip(self.number));
                Access::LoadTail
            }
            Access::StoreAccepted => {
                self.accepted += 1;
                self.reading += 1;
                self.store_settled(layout, words);
                Access::LoadTail
            }
        };
    }

    fn move_tail(&self, tail: &mut u64) {
        if *tail == self.tail {
            *tail += 1;
        }
    }

    fn store_settled(&self, layout: &Layout, words: &mut [u64]) {
        words[layout.sources + usize::from(self.number)] = u64::from(self.reading) << 32 | u64::from(self.accepted);
    }
}
