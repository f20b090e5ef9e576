//! Where the words of a program stand, and the first image (docs/FORMATS.md, "The words of the FRAM").

use crate::event::Slot;
use crate::job::Program;

/// Words of a thread's header.
pub const STAMP: usize = 0;
pub const NEXT_TASK: usize = 1;
pub const BEGAN: usize = 2;
pub const ORIGIN: usize = 3;
pub const VALUE: usize = 4;
pub const FINISHED: usize = 5;
pub const SERVED: usize = 6;
pub const TRAPPED: usize = 7;
pub const EXPIRED: usize = 8;
pub const OUTPUTS: usize = 9;
pub const WRITTEN: usize = 10;
pub const TAKEN: usize = 18;
pub const TIMERS: usize = 26;
pub const UNUSED: usize = 42;
pub const STATE: usize = 48;

pub fn due_word(timer: usize) -> usize {
    TIMERS + 2 * timer
}

pub fn period_word(timer: usize) -> usize {
    TIMERS + 2 * timer + 1
}

pub struct ThreadPlaces {
    pub commit: usize,
    /// The first word of its pages.
    pub block: usize,
    pub log: usize,
    pub tail: usize,
    pub slots: usize,
    /// How many slots there are.
    pub places: u64,
}

pub struct Layout {
    /// The code of each task.
    pub code: Vec<usize>,
    pub threads: Vec<ThreadPlaces>,
    /// The ring of each pipe.
    pub rings: Vec<usize>,
    /// ACK of source 0; those of the others follow.
    pub acks: usize,
    pub clock: usize,
    /// SRC of source 0.
    pub sources: usize,
    pub size: usize,
}

impl ThreadPlaces {
    /// Where a word of the block stands in the copy that a mask names.
    pub fn word(&self, mask: u64, word: usize) -> usize {
        let page = word / 8;
        self.block + 16 * page + 8 * (mask >> page & 1) as usize + word % 8
    }

    pub fn slot(&self, position: u64) -> usize {
        self.slots + (position % self.places) as usize
    }
}

impl Layout {
    pub fn new(program: &Program) -> Layout {
        let mut size = 0;
        let mut take = |words: usize| {
            size += words;
            size - words
        };
        let code = program.tasks.iter().map(|task| take(task.code.len())).collect();
        let mut threads: Vec<ThreadPlaces> = (program.threads.iter().enumerate())
            .map(|(number, thread)| ThreadPlaces {
                commit: take(1),
                block: take(16 * program.pages(number)),
                log: take(thread.log),
                tail: 0,
                slots: 0,
                places: thread.places as u64,
            })
            .collect();
        let rings = program.pipes.iter().map(|pipe| take(pipe.places)).collect();
        for thread in &mut threads {
            thread.tail = take(1);
            thread.slots = take(thread.places as usize);
        }
        let acks = take(program.sources.len());
        let clock = take(1);
        let sources = take(program.sources.len());
        Layout { code, threads, rings, acks, clock, sources, size }
    }

    pub fn first_image(&self, program: &Program) -> Vec<u64> {
        let mut words = vec![0; self.size];
        for (task, &first) in program.tasks.iter().zip(&self.code) {
            for (offset, instruction) in task.code.iter().enumerate() {
                words[first + offset] = instruction.0;
            }
        }
        for places in &self.threads {
            for position in 0..places.places {
                words[places.slot(position)] = Slot::empty(position).0;
            }
        }
        for (number, timer) in program.timers.iter().enumerate() {
            let places = &self.threads[timer.thread];
            for mask in [0, !0] {
                words[places.word(mask, due_word(number))] = timer.due.map_or(0, |due| due + 1);
                words[places.word(mask, period_word(number))] = u64::from(timer.period);
            }
        }
        words
    }
}
