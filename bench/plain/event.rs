//! Events, slots of queues, and the entries of a journal (docs/FORMATS.md, "The words of the FRAM"; docs/MODEL.md).

#[derive(Clone, Copy, PartialEq, Eq)]
pub enum Origin {
    /// A source, and the number of its accepted events before this one, modulo 64.
    Source(u8, u8),
    /// A pipe and an item's number.
    Pipe(u8, u32),
    /// A timer and its deadline.
    Timer(u8, u64),
}

#[derive(Clone, Copy, PartialEq, Eq)]
pub struct Event {
    pub origin: Origin,
    pub value: u32,
}

impl Origin {
    pub fn kind(self) -> u32 {
        match self {
            Origin::Source(..) => 1,
            Origin::Pipe(..) => 2,
            Origin::Timer(..) => 3,
        }
    }

    pub fn number(self) -> u32 {
        match self {
            Origin::Source(number, _) | Origin::Pipe(number, _) | Origin::Timer(number, _) => u32::from(number),
        }
    }

    /// The word h3 of an event's origin.
    pub fn word(self) -> u64 {
        match self {
            Origin::Source(source, count) => 1 << 56 | u64::from(source) << 16 | u64::from(count),
            Origin::Pipe(pipe, item) => 2 << 56 | u64::from(pipe) << 32 | u64::from(item),
            Origin::Timer(timer, deadline) => 3 << 56 | u64::from(timer) << 48 | deadline,
        }
    }

    /// The origin of a word h3.
    pub fn of_word(word: u64) -> Origin {
        match word >> 56 {
            1 => Origin::Source((word >> 16) as u8, word as u8),
            2 => Origin::Pipe((word >> 32) as u8, word as u32),
            _ => Origin::Timer((word >> 48) as u8, word & 0xffff_ffff_ffff),
        }
    }
}

/// A word of a queue's slot.
#[derive(Clone, Copy)]
pub struct Slot(pub u64);

impl Slot {
    /// The empty slot of a position.
    pub fn empty(position: u64) -> Slot {
        Slot(position << 42)
    }

    /// The full word of an event at a position.
    pub fn full(position: u64, source: u8, count: u8, value: u32) -> Slot {
        Slot(1 << 63 | position << 42 | u64::from(source) << 38 | u64::from(count) << 32 | u64::from(value))
    }

    pub fn is_full(self) -> bool {
        self.0 >> 63 == 1
    }

    pub fn is_full_at(self, position: u64) -> bool {
        self.0 >> 42 == 1 << 21 | position
    }

    pub fn source(self) -> u8 {
        (self.0 >> 38 & 15) as u8
    }

    pub fn count(self) -> u8 {
        (self.0 >> 32 & 63) as u8
    }

    pub fn value(self) -> u32 {
        self.0 as u32
    }

    pub fn event(self) -> Event {
        Event { origin: Origin::Source(self.source(), self.count()), value: self.value() }
    }
}

#[derive(Clone, Copy)]
pub enum Entry {
    Push(u8),
    Refuse(u8),
    Skip(u8),
    Tick(u32),
    Scan,
    Look(u8),
    Commit(u8),
    Release(u8),
}
