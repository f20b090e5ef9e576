//! Boards at which a run can begin, by chance: their words are an image of the program (docs/FORMATS.md, "Images").

use crate::event::{Event, Origin, Slot};
use crate::job::Program;
use crate::layout::{self, Layout};

/// Numbers that follow from a seed (SplitMix64).
pub struct Chance(u64);

impl Chance {
    pub fn new(seed: u64) -> Chance {
        Chance(seed)
    }

    fn next(&mut self) -> u64 {
        self.0 = self.0.wrapping_add(0x9e37_79b9_7f4a_7c15);
        let mixed = (self.0 ^ self.0 >> 30).wrapping_mul(0xbf58_476d_1ce4_e5b9);
        let mixed = (mixed ^ mixed >> 27).wrapping_mul(0x94d0_49bb_1331_11eb);
        mixed ^ mixed >> 31
    }

    pub fn below(&mut self, count: u64) -> u64 {
        self.next() % count
    }

    /// Once in so many times.
    pub fn once_in(&mut self, count: u64) -> bool {
        self.below(count) == 0
    }

    /// From 0 to the last, which comes often.
    fn up_to(&mut self, last: u64) -> u64 {
        if self.once_in(3) {
            last
        } else {
            self.below(last + 1)
        }
    }

    fn one_of<T: Copy>(&mut self, some: &[T]) -> Option<T> {
        (!some.is_empty()).then(|| some[self.below(some.len() as u64) as usize])
    }

    /// A number of 32 bits: small, near one of these, or any.
    fn number(&mut self, near: &[u32]) -> u32 {
        match self.below(4) {
            0 => self.below(4) as u32,
            1 => self.below(40) as u32,
            2 => self.one_of(near).unwrap_or(0).wrapping_add(self.below(3) as u32).wrapping_sub(1),
            _ => self.next() as u32,
        }
    }
}

pub struct Board {
    pub words: Vec<u64>,
    /// The readings of each source: in front those that are settled already.
    pub readings: Vec<Vec<u32>>,
}

/// What is chosen of a source before the words of its queue.
struct Accepted {
    released: u64,
    held: u64,
}

struct Maker<'a> {
    program: &'a Program,
    layout: &'a Layout,
    chance: &'a mut Chance,
    /// The numbers that the code has.
    near: Vec<u32>,
    words: Vec<u64>,
    clock: u64,
    sources: Vec<Accepted>,
    /// Whether a thread has a finished event: at most one does.
    has_finished: bool,
}

/// A random board of a program.
pub fn board(program: &Program, layout: &Layout, chance: &mut Chance) -> Board {
    let code = program.tasks.iter().flat_map(|task| &task.code);
    let near = code.filter(|instruction| instruction.operation() == 1).map(|instruction| instruction.number()).collect();
    let clock = if chance.once_in(4) { chance.below(1 << 45) } else { chance.below(3000) };
    let sources = program.sources.iter().map(|_| Accepted { released: chance.below(200), held: 0 }).collect();
    let words = layout.first_image(program);
    let mut maker = Maker { program, layout, chance, near, words, clock, sources, has_finished: false };
    maker.words[layout.clock] = clock;
    for thread in 0..program.threads.len() {
        maker.put_thread(thread);
    }
    maker.put_pipes();
    maker.put_timers();
    for thread in 0..program.threads.len() {
        let first = maker.put_queue(thread);
        maker.put_chain(thread, first);
    }
    let readings = maker.put_sources();
    Board { words: maker.words, readings }
}

impl Maker<'_> {
    /// Sets a word of a thread's committed copy.
    fn set(&mut self, thread: usize, word: usize, value: u64) {
        let places = &self.layout.threads[thread];
        let address = places.word(self.words[places.commit], word);
        self.words[address] = value;
    }

    fn get(&self, thread: usize, word: usize) -> u64 {
        let places = &self.layout.threads[thread];
        self.words[places.word(self.words[places.commit], word)]
    }

    /// Which copies are committed, counts, the log, the state.
    fn put_thread(&mut self, thread: usize) {
        let places = &self.layout.threads[thread];
        let threads = self.program.threads.len() as u64;
        self.words[places.commit] = self.chance.below(1 << self.program.pages(thread));
        let outputs = self.chance.up_to(self.program.threads[thread].log as u64);
        for number in 0..outputs {
            self.words[places.log + number as usize] = (threads * number + thread as u64 + 1) << 32;
        }
        self.set(thread, layout::STAMP, threads * (outputs + 1));
        self.set(thread, layout::OUTPUTS, outputs);
        for word in [layout::SERVED, layout::TRAPPED, layout::EXPIRED] {
            let count = self.chance.below(1000);
            self.set(thread, word, count);
        }
        for number in 0..self.program.threads[thread].state {
            let value = self.chance.number(&self.near);
            self.set(thread, layout::STATE + number, u64::from(value));
        }
    }

    fn put_pipes(&mut self) {
        for (number, pipe) in self.program.pipes.iter().enumerate() {
            let taken = self.chance.below(100);
            let items = self.chance.up_to(pipe.places as u64);
            self.set(pipe.to, layout::TAKEN + number, taken);
            self.set(pipe.from, layout::WRITTEN + number, taken + items);
            for item in taken..taken + items {
                let address = self.layout.rings[number] + item as usize % pipe.places;
                self.words[address] = u64::from(self.chance.number(&self.near));
            }
        }
    }

    /// A timer is off, due or due later.
    fn put_timers(&mut self) {
        for (number, timer) in self.program.timers.iter().enumerate() {
            let due = match self.chance.below(3) {
                0 => 0,
                1 => 1 + self.chance.below(self.clock + 1),
                _ => 1 + self.clock + self.chance.below(500),
            };
            let period = if self.chance.once_in(3) { 0 } else { 1 + self.chance.below(600) };
            self.set(timer.thread, layout::due_word(number), due);
            self.set(timer.thread, layout::period_word(number), period);
        }
    }

    /// The events of a thread's queue; answers the first of them, if it isn't finished.
    fn put_queue(&mut self, thread: usize) -> Option<Event> {
        let places = &self.layout.threads[thread];
        let own: Vec<usize> = (0..self.sources.len()).filter(|&source| self.program.sources[source] == thread).collect();
        let first = self.chance.below(300);
        let held = if own.is_empty() { 0 } else { self.chance.up_to(places.places) };
        let mut events = Vec::new();
        for position in first..first + held {
            let source = self.chance.one_of(&own).expect("the thread has a source");
            let count = ((self.sources[source].released + self.sources[source].held) % 64) as u8;
            self.sources[source].held += 1;
            let slot = Slot::full(position, source as u8, count, self.chance.number(&self.near));
            self.words[places.slot(position)] = slot.0;
            events.push(slot.event());
        }
        for position in first + held..first + places.places {
            self.words[places.slot(position)] = Slot::empty(position).0;
        }
        let is_behind = first + held > 0 && self.chance.once_in(4);
        self.words[places.tail] = first + held - u64::from(is_behind);
        let is_finished = held > 0 && !self.has_finished && self.chance.once_in(8);
        self.has_finished |= is_finished;
        self.set(thread, layout::FINISHED, first + u64::from(is_finished));
        events.first().copied().filter(|_| !is_finished)
    }

    /// The running chain, if the thread has one: its next task, its event, when it began. The first event of the queue is given, if it isn't finished.
    fn put_chain(&mut self, thread: usize, first: Option<Event>) {
        let is_finished = first.is_none() && self.is_held(thread);
        let mut events: Vec<Event> = first.into_iter().collect();
        for pipe in self.program.pipes_to(thread) {
            if let Some(item) = self.get(thread, layout::TAKEN + pipe).checked_sub(1) {
                let value = self.chance.number(&self.near);
                events.push(Event { origin: Origin::Pipe(pipe as u8, item as u32), value });
            }
        }
        for timer in self.program.timers_of(thread) {
            let deadline = self.chance.below(self.clock + 1);
            events.push(Event { origin: Origin::Timer(timer as u8, deadline), value: deadline as u32 });
        }
        let tasks: Vec<usize> = (0..self.program.tasks.len()).filter(|&task| self.program.tasks[task].thread == thread).collect();
        let (event, task) = (self.chance.one_of(&events), self.chance.one_of(&tasks));
        let (Some(event), Some(task), false) = (event, task, is_finished || self.chance.once_in(2)) else {
            return;
        };
        let ago = if self.chance.once_in(2) { self.chance.below(40) } else { self.chance.below(self.clock + 1) };
        self.set(thread, layout::NEXT_TASK, task as u64 + 1);
        self.set(thread, layout::BEGAN, self.clock.saturating_sub(ago));
        self.set(thread, layout::ORIGIN, event.origin.word());
        self.set(thread, layout::VALUE, u64::from(event.value));
    }

    /// Whether the queue holds a finished event.
    fn is_held(&self, thread: usize) -> bool {
        let places = &self.layout.threads[thread];
        let finished = self.get(thread, layout::FINISHED);
        finished > 0 && Slot(self.words[places.slot(finished - 1)]).is_full_at(finished - 1)
    }

    /// SRC and ACK of each source, and its readings.
    fn put_sources(&mut self) -> Vec<Vec<u32>> {
        let mut readings = Vec::new();
        for (number, source) in self.sources.iter().enumerate() {
            let accepted = source.released + source.held;
            let settled = accepted + self.chance.below(50);
            self.words[self.layout.acks + number] = source.released % 64;
            self.words[self.layout.sources + number] = settled << 32 | accepted;
            let listed = self.chance.below(30);
            readings.push((0..settled + listed).map(|_| self.chance.number(&self.near)).collect());
        }
        readings
    }
}
