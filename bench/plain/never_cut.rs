//! The never-cut kernel: a journal is replayed on it, entry by entry (docs/MODEL.md).

use std::collections::VecDeque;

use crate::event::{Entry, Event, Origin};
use crate::instruction::Act;
use crate::job::{Job, Program};

pub struct Chain {
    pub task: usize,
    pub event: Event,
    /// The time of its first commit.
    pub began: u64,
}

#[derive(Default)]
pub struct Thread {
    pub state: Vec<u32>,
    pub chain: Option<Chain>,
    /// The events of its queue that aren't released.
    pub held: VecDeque<Event>,
    /// Whether the first of them is finished.
    pub is_finished: bool,
    pub served: u64,
    pub trapped: u64,
    pub expired: u64,
    /// How many outputs its log has.
    pub outputs: usize,
}

#[derive(Default)]
pub struct Pipe {
    pub items: VecDeque<u32>,
    pub taken: u64,
}

#[derive(Clone, Copy)]
pub struct Timer {
    pub due: Option<u64>,
    pub period: u32,
}

#[derive(Default)]
pub struct Source {
    pub next: usize,
    pub accepted: u64,
    pub is_refused: bool,
    /// How often the entries Push and Refuse were made.
    pub pushed: u64,
    pub refused: u64,
}

pub struct Output {
    pub stamp: u64,
    pub thread: usize,
    pub value: u32,
}

struct Scan {
    time: u64,
    /// A bit for each thread whose queue was found without an event.
    looked: u32,
}

pub struct State {
    pub threads: Vec<Thread>,
    pub pipes: Vec<Pipe>,
    pub timers: Vec<Timer>,
    pub sources: Vec<Source>,
    pub clock: u64,
    pub outputs: Vec<Output>,
    pub commits: u64,
    scan: Option<Scan>,
}

enum Outcome {
    Next(usize),
    Done,
    Trap,
}

/// What a task changes, besides the state of its thread.
#[derive(Default)]
struct Effects {
    state: Vec<u32>,
    outputs: Vec<u32>,
    sent: Vec<(usize, u32)>,
    timers: Vec<(usize, Timer)>,
}

/// An entry that isn't legal in its place.
#[derive(Debug)]
pub struct NotLegal;

pub struct Replay<'a> {
    job: &'a Job,
    order: Vec<usize>,
    first_tasks: Vec<usize>,
    reads: Vec<Vec<usize>>,
    timers: Vec<Vec<usize>>,
    effects: Effects,
    pub state: State,
}

impl State {
    /// The state of the first image.
    pub fn new(program: &Program) -> State {
        State {
            threads: (program.threads.iter())
                .map(|thread| Thread { state: vec![0; thread.state], ..Thread::default() })
                .collect(),
            pipes: program.pipes.iter().map(|_| Pipe::default()).collect(),
            timers: program.timers.iter().map(|timer| Timer { due: timer.due, period: timer.period }).collect(),
            sources: program.sources.iter().map(|_| Source::default()).collect(),
            clock: 0,
            outputs: Vec::new(),
            commits: 0,
            scan: None,
        }
    }
}

fn require(is_legal: bool) -> Result<(), NotLegal> {
    if is_legal {
        Ok(())
    } else {
        Err(NotLegal)
    }
}

impl<'a> Replay<'a> {
    pub fn new(job: &'a Job, state: State) -> Replay<'a> {
        let program = &job.program;
        let threads = 0..program.threads.len();
        Replay {
            job,
            order: program.by_priority(),
            first_tasks: threads.clone().map(|thread| program.first_task(thread)).collect(),
            reads: threads.clone().map(|thread| program.pipes_to(thread)).collect(),
            timers: threads.map(|thread| program.timers_of(thread)).collect(),
            effects: Effects::default(),
            state,
        }
    }

    /// Judges an entry, and does what it does.
    pub fn enter(&mut self, entry: Entry) -> Result<(), NotLegal> {
        match entry {
            Entry::Push(number) => self.push(number),
            Entry::Refuse(number) => {
                require(self.has_reading(number) && self.is_full(number))?;
                let source = &mut self.state.sources[usize::from(number)];
                source.is_refused = true;
                source.refused += 1;
                Ok(())
            }
            Entry::Skip(number) => {
                let source = &mut self.state.sources[usize::from(number)];
                require(source.is_refused)?;
                source.is_refused = false;
                source.next += 1;
                Ok(())
            }
            Entry::Tick(ticks) => {
                self.state.clock += u64::from(ticks);
                require(self.state.clock < 1 << 47)
            }
            Entry::Scan => {
                require(!self.state.threads.iter().any(|thread| thread.is_finished))?;
                self.state.scan = Some(Scan { time: self.state.clock, looked: 0 });
                Ok(())
            }
            Entry::Look(number) => {
                let thread = &self.state.threads[usize::from(number)];
                let scan = self.state.scan.as_mut().ok_or(NotLegal)?;
                require(scan.looked >> number & 1 == 0 && thread.chain.is_none() && thread.held.is_empty())?;
                scan.looked |= 1 << number;
                Ok(())
            }
            Entry::Commit(number) => self.commit(usize::from(number)),
            Entry::Release(number) => {
                let thread = &mut self.state.threads[usize::from(number)];
                require(thread.is_finished)?;
                thread.held.pop_front();
                thread.is_finished = false;
                Ok(())
            }
        }
    }

    fn has_reading(&self, source: u8) -> bool {
        self.state.sources[usize::from(source)].next < self.job.readings[usize::from(source)].len()
    }

    fn is_full(&self, source: u8) -> bool {
        let thread = self.job.program.sources[usize::from(source)];
        self.state.threads[thread].held.len() >= self.job.program.threads[thread].places
    }

    fn push(&mut self, number: u8) -> Result<(), NotLegal> {
        require(self.has_reading(number) && !self.is_full(number))?;
        let source = &mut self.state.sources[usize::from(number)];
        let origin = Origin::Source(number, (source.accepted % 64) as u8);
        let value = self.job.readings[usize::from(number)][source.next];
        source.next += 1;
        source.accepted += 1;
        source.is_refused = false;
        source.pushed += 1;
        self.state.threads[self.job.program.sources[usize::from(number)]].held.push_back(Event { origin, value });
        Ok(())
    }

    /// The first item that a thread may take from its pipes, or else the first of its timers that is due.
    fn pending_of_devices(&self, thread: usize, time: u64) -> Option<Event> {
        for &number in &self.reads[thread] {
            let pipe = &self.state.pipes[number];
            if let Some(&value) = pipe.items.front() {
                return Some(Event { origin: Origin::Pipe(number as u8, pipe.taken as u32), value });
            }
        }
        for &number in &self.timers[thread] {
            if let Some(due) = self.state.timers[number].due.filter(|&due| due <= time) {
                return Some(Event { origin: Origin::Timer(number as u8, due), value: due as u32 });
            }
        }
        None
    }

    /// The event that a thread serves next, where it runs no chain.
    fn pending(&self, number: usize, scan: &Scan) -> Option<Event> {
        if scan.looked >> number & 1 == 1 {
            return self.pending_of_devices(number, scan.time);
        }
        let thread = &self.state.threads[number];
        thread.held.get(usize::from(thread.is_finished)).copied()
    }

    fn commit(&mut self, number: usize) -> Result<(), NotLegal> {
        let scan = self.state.scan.take().ok_or(NotLegal)?;
        for &above in self.order.iter().take_while(|&&above| above != number) {
            let has_nothing = self.state.threads[above].chain.is_none() && self.pending_of_devices(above, scan.time).is_none();
            require(scan.looked >> above & 1 == 1 && has_nothing)?;
        }
        let chain = self.state.threads[number].chain.take();
        let (event, began, task) = match &chain {
            Some(chain) => (chain.event, chain.began, chain.task),
            None => {
                let event = self.pending(number, &scan).ok_or(NotLegal)?;
                self.consume(event.origin);
                (event, scan.time, self.first_tasks[number])
            }
        };
        self.state.commits += 1;
        let is_expired = match self.job.program.threads[number].expires {
            Some(expires) => chain.is_some() && scan.time - began > expires,
            None => false,
        };
        if is_expired {
            self.state.threads[number].expired += 1;
        } else {
            match self.run_task(task, event, scan.time) {
                Outcome::Next(task) => {
                    self.apply(number);
                    self.state.threads[number].chain = Some(Chain { task, event, began });
                    return Ok(());
                }
                Outcome::Done => {
                    self.apply(number);
                    self.state.threads[number].served += 1;
                }
                Outcome::Trap => self.state.threads[number].trapped += 1,
            }
        }
        if let Origin::Source(..) = event.origin {
            self.state.threads[number].is_finished = true;
        }
        Ok(())
    }

    /// Takes an item from its pipe, or sets a timer on.
    fn consume(&mut self, origin: Origin) {
        match origin {
            Origin::Source(..) => {}
            Origin::Pipe(number, _) => {
                let pipe = &mut self.state.pipes[usize::from(number)];
                pipe.items.pop_front();
                pipe.taken += 1;
            }
            Origin::Timer(number, deadline) => {
                let timer = &mut self.state.timers[usize::from(number)];
                timer.due = (timer.period > 0).then_some(deadline + u64::from(timer.period));
            }
        }
    }

    /// What a task means: it is run over lists, from zero registers on.
    fn run_task(&mut self, task: usize, event: Event, time: u64) -> Outcome {
        let program = &self.job.program;
        let task = &program.tasks[task];
        let log_room = program.threads[task.thread].log - self.state.threads[task.thread].outputs;
        let effects = &mut self.effects;
        effects.state.clone_from(&self.state.threads[task.thread].state);
        effects.outputs.clear();
        effects.sent.clear();
        effects.timers.clear();
        let mut registers = [0; 16];
        let mut offset = 0;
        for _ in 0..task.limit {
            let instruction = task.code[offset as usize];
            let number = instruction.number() as usize;
            let a = registers[instruction.a()];
            let b = registers[instruction.b()];
            match instruction.act(offset, &mut registers, &event, time) {
                Act::Go(to) => {
                    offset = to;
                    continue;
                }
                Act::Load => match effects.state.get(b as usize) {
                    Some(&value) => registers[instruction.a()] = value,
                    None => return Outcome::Trap,
                },
                Act::Store => match effects.state.get_mut(b as usize) {
                    Some(value) => *value = a,
                    None => return Outcome::Trap,
                },
                Act::Out if effects.outputs.len() < log_room => effects.outputs.push(a),
                Act::Send => {
                    let sent = effects.sent.iter().filter(|(pipe, _)| *pipe == number).count();
                    let has_room = self.state.pipes[number].items.len() + sent < program.pipes[number].places;
                    registers[instruction.a()] = u32::from(has_room);
                    if has_room {
                        effects.sent.push((number, b));
                    }
                }
                Act::Arm => effects.timers.push((number, Timer { due: Some(time + u64::from(a)), period: b })),
                Act::Stop => {
                    let last = effects.timers.iter().rev().find(|(timer, _)| *timer == number);
                    let period = last.map_or(self.state.timers[number].period, |(_, timer)| timer.period);
                    effects.timers.push((number, Timer { due: None, period }));
                }
                Act::Next(next) => return Outcome::Next(next as usize),
                Act::Done => return Outcome::Done,
                Act::Out | Act::Trap => return Outcome::Trap,
            }
            offset += 1;
        }
        Outcome::Trap
    }

    /// Does what the last task did, by its thread.
    fn apply(&mut self, number: usize) {
        let thread = &mut self.state.threads[number];
        std::mem::swap(&mut thread.state, &mut self.effects.state);
        thread.outputs += self.effects.outputs.len();
        for &value in &self.effects.outputs {
            self.state.outputs.push(Output { stamp: self.state.commits, thread: number, value });
        }
        for &(pipe, value) in &self.effects.sent {
            self.state.pipes[pipe].items.push_back(value);
        }
        for &(timer, set) in &self.effects.timers {
            self.state.timers[timer] = set;
        }
    }
}
