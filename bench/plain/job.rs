//! What a job is made of.

use crate::instruction::Instruction;

pub struct Thread {
    pub name: String,
    pub priority: u8,
    pub places: usize,
    pub state: usize,
    pub log: usize,
    /// After more ticks than these a chain is given up.
    pub expires: Option<u64>,
}

pub struct Pipe {
    pub name: String,
    pub places: usize,
    pub from: usize,
    pub to: usize,
}

pub struct Timer {
    pub name: String,
    pub thread: usize,
    pub due: Option<u64>,
    pub period: u32,
}

pub struct Task {
    pub name: String,
    pub thread: usize,
    pub limit: u32,
    pub code: Vec<Instruction>,
}

#[derive(Default)]
pub struct Program {
    pub threads: Vec<Thread>,
    /// The thread of each source.
    pub sources: Vec<usize>,
    pub pipes: Vec<Pipe>,
    pub timers: Vec<Timer>,
    pub tasks: Vec<Task>,
}

#[derive(Clone, Copy)]
pub enum Actor {
    Kernel,
    Clock,
    Source(usize),
}

/// So many turns of an actor.
pub struct Item {
    pub actor: Actor,
    pub count: u32,
}

pub struct Charge {
    pub off: u32,
    pub items: Vec<Item>,
}

pub struct Job {
    pub program: Program,
    /// The readings of each source, from number 0 on.
    pub readings: Vec<Vec<u32>>,
    pub charges: Vec<Charge>,
    /// The words that the run begins at, where they aren't those of the first image.
    pub start: Option<Vec<u64>>,
}

impl Program {
    /// The threads, a greater priority first.
    pub fn by_priority(&self) -> Vec<usize> {
        let mut order: Vec<usize> = (0..self.threads.len()).collect();
        order.sort_by_key(|&thread| std::cmp::Reverse(self.threads[thread].priority));
        order
    }

    pub fn first_task(&self, thread: usize) -> usize {
        self.tasks.iter().position(|task| task.thread == thread).expect("each thread has a task")
    }

    /// The pages of a thread's block.
    pub fn pages(&self, thread: usize) -> usize {
        6 + self.threads[thread].state.div_ceil(8)
    }

    /// The pipes that a thread reads.
    pub fn pipes_to(&self, thread: usize) -> Vec<usize> {
        (0..self.pipes.len()).filter(|&pipe| self.pipes[pipe].to == thread).collect()
    }

    /// The timers of a thread.
    pub fn timers_of(&self, thread: usize) -> Vec<usize> {
        (0..self.timers.len()).filter(|&timer| self.timers[timer].thread == thread).collect()
    }
}
