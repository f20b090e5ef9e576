//! The kernel: its registers, and one access at a time (docs/FORMATS.md, "The access tables").

use crate::event::{Entry, Event, Origin, Slot};
use crate::instruction::{Act, Instruction, Registers};
use crate::job::Program;
use crate::layout::{self, Layout, ThreadPlaces};

/// The access that comes next. Of a thread it is one to the thread at hand.
enum Access {
    BootCommit,
    BootStamp,
    BootFinished,
    BootSlot,
    BootAcknowledge,
    BootRelease,
    Clock,
    Commit,
    NextTask,
    Finished,
    Origin,
    Value,
    Began,
    Slot,
    /// Of the pipe at hand: its taken items, its writer's commit word, its written items, the item.
    PipeTaken,
    PipeCommit,
    PipeWritten,
    PipeItem,
    TimerDue,
    Fetch,
    LoadState,
    LogLength,
    StoreOutput,
    ReaderCommit,
    ReaderTaken,
    SendWritten,
    StoreItem,
    TimerPeriod,
    CountOfEnds,
    /// The copy of a page: the load and the store of the word with this number.
    CopyLoad(usize),
    CopyStore(usize),
    Write,
    StoreCommit,
    Acknowledge,
    Release,
}

/// What follows a write.
#[derive(Clone, Copy)]
enum Then {
    WriteOrigin,
    WriteValue,
    Consume,
    Run,
    NextInstruction,
    WritePeriod,
    AfterNextTask,
    CountEnd,
    WriteStamp,
    Commit,
}

#[derive(Clone, Copy)]
enum Ending {
    Goes(usize),
    Served,
    Trapped,
    Expired,
}

/// What the kernel knows of a thread, besides the places of its words.
struct Owner {
    first_task: usize,
    expires: Option<u64>,
    state: usize,
    log: u64,
    reads: Vec<usize>,
    timers: Vec<usize>,
}

/// What never changes while a program runs.
pub struct Plan<'a> {
    program: &'a Program,
    layout: &'a Layout,
    owners: Vec<Owner>,
    order: Vec<usize>,
}

pub struct Kernel {
    next_access: Access,
    thread: usize,
    /// The place of the thread in the order of priorities.
    rank: usize,
    /// The number of the last commit.
    stamp: u64,
    time: u64,
    mask: u64,
    /// The pages that are written in this service.
    dirty: u64,
    /// The running chain's next task, and when it began.
    chain: Option<usize>,
    began: u64,
    event: Event,
    /// The number of finished events of the thread's queue.
    position: u64,
    /// Which of the thread's pipes or timers is looked at.
    device: usize,
    /// How many items of a pipe are taken; how many are written, or how many outputs there are.
    taken: u64,
    written: u64,
    /// The commit word of a pipe's other thread.
    other_mask: u64,
    task: usize,
    offset: u32,
    executed: u32,
    registers: Registers,
    instruction: Instruction,
    ending: Ending,
    /// The word of the block that is written, and its new value.
    word: usize,
    value: u64,
    then: Then,
    copied: u64,
}

impl<'a> Plan<'a> {
    pub fn new(program: &'a Program, layout: &'a Layout) -> Plan<'a> {
        let owner = |number: usize| Owner {
            first_task: program.first_task(number),
            expires: program.threads[number].expires,
            state: program.threads[number].state,
            log: program.threads[number].log as u64,
            reads: program.pipes_to(number),
            timers: program.timers_of(number),
        };
        Plan { program, layout, owners: (0..program.threads.len()).map(owner).collect(), order: program.by_priority() }
    }
}

impl Kernel {
    pub fn new() -> Kernel {
        Kernel {
            next_access: Access::BootCommit,
            thread: 0,
            rank: 0,
            stamp: 0,
            time: 0,
            mask: 0,
            dirty: 0,
            chain: None,
            began: 0,
            event: Event { origin: Origin::Source(0, 0), value: 0 },
            position: 0,
            device: 0,
            taken: 0,
            written: 0,
            other_mask: 0,
            task: 0,
            offset: 0,
            executed: 0,
            registers: [0; 16],
            instruction: Instruction(0),
            ending: Ending::Served,
            word: 0,
            value: 0,
            then: Then::Run,
            copied: 0,
        }
    }

    /// From the pick of an event to the commit of its service the task that the thread at hand begins or goes on with.
    #[allow(dead_code)] // costs.rs alone asks for it
    pub fn served_task(&self, plan: &Plan) -> Option<usize> {
        use Access::*;
        match self.next_access {
            BootCommit | BootStamp | BootFinished | BootSlot | BootAcknowledge | BootRelease => None,
            Clock | Commit | NextTask | Finished | Origin | Value | Began | Slot => None,
            PipeTaken | PipeCommit | PipeWritten | PipeItem | TimerDue | Acknowledge | Release => None,
            _ => Some(self.chain.unwrap_or(plan.owners[self.thread].first_task)),
        }
    }

    /// Makes the next access.
    pub fn turn(&mut self, plan: &Plan, words: &mut [u64], journal: &mut Vec<Entry>) {
        let layout = plan.layout;
        let places = &layout.threads[self.thread];
        match self.next_access {
            Access::BootCommit => {
                self.mask = words[places.commit];
                self.next_access = Access::BootStamp;
            }
            Access::BootStamp => {
                self.stamp = self.stamp.max(words[places.word(self.mask, layout::STAMP)]);
                self.next_access = Access::BootFinished;
            }
            Access::BootFinished => {
                self.position = words[places.word(self.mask, layout::FINISHED)];
                if self.position > 0 {
                    self.position -= 1;
                    self.next_access = Access::BootSlot;
                } else {
                    self.boot_next_thread(plan);
                }
            }
            Access::BootSlot => {
                let word = Slot(words[places.slot(self.position)]);
                if word.is_full_at(self.position) {
                    self.event = word.event();
                    self.next_access = Access::BootAcknowledge;
                } else {
                    self.boot_next_thread(plan);
                }
            }
            Access::BootAcknowledge => {
                self.acknowledge(layout, words);
                self.next_access = Access::BootRelease;
            }
            Access::BootRelease => {
                self.release(places, words, journal);
                self.boot_next_thread(plan);
            }
            Access::Clock => {
                self.time = words[layout.clock];
                journal.push(Entry::Scan);
                self.ending = Ending::Served;
                self.rank = 0;
                self.thread = plan.order[0];
                self.next_access = Access::Commit;
            }
            Access::Commit => {
                self.mask = words[places.commit];
                self.dirty = 0;
                self.next_access = Access::NextTask;
            }
            Access::NextTask => {
                self.chain = (words[places.word(self.mask, layout::NEXT_TASK)] as usize).checked_sub(1);
                self.next_access = Access::Finished;
            }
            Access::Finished => {
                self.position = words[places.word(self.mask, layout::FINISHED)];
                self.next_access = if self.chain.is_some() { Access::Origin } else { Access::Slot };
            }
            Access::Origin => {
                self.event.origin = Origin::of_word(words[places.word(self.mask, layout::ORIGIN)]);
                self.next_access = Access::Value;
            }
            Access::Value => {
                self.event.value = words[places.word(self.mask, layout::VALUE)] as u32;
                if plan.owners[self.thread].expires.is_some() {
                    self.next_access = Access::Began;
                } else {
                    self.run(plan);
                }
            }
            Access::Began => {
                self.began = words[places.word(self.mask, layout::BEGAN)];
                self.run(plan);
            }
            Access::Slot => {
                let word = Slot(words[places.slot(self.position)]);
                if word.is_full_at(self.position) {
                    self.event = word.event();
                    self.open();
                } else {
                    journal.push(Entry::Look(self.thread as u8));
                    self.device = 0;
                    self.look_at_pipe(plan);
                }
            }
            Access::PipeTaken => {
                let pipe = plan.owners[self.thread].reads[self.device];
                self.taken = words[places.word(self.mask, layout::TAKEN + pipe)];
                self.next_access = Access::PipeCommit;
            }
            Access::PipeCommit => {
                let pipe = plan.owners[self.thread].reads[self.device];
                self.other_mask = words[layout.threads[plan.program.pipes[pipe].from].commit];
                self.next_access = Access::PipeWritten;
            }
            Access::PipeWritten => {
                let pipe = plan.owners[self.thread].reads[self.device];
                let writer = &layout.threads[plan.program.pipes[pipe].from];
                if words[writer.word(self.other_mask, layout::WRITTEN + pipe)] > self.taken {
                    self.next_access = Access::PipeItem;
                } else {
                    self.device += 1;
                    self.look_at_pipe(plan);
                }
            }
            Access::PipeItem => {
                let pipe = plan.owners[self.thread].reads[self.device];
                let item = words[layout.rings[pipe] + self.taken as usize % plan.program.pipes[pipe].places];
                self.event = Event { origin: Origin::Pipe(pipe as u8, self.taken as u32), value: item as u32 };
                self.open();
            }
            Access::TimerDue => {
                let timer = plan.owners[self.thread].timers[self.device];
                let word = words[places.word(self.mask, layout::due_word(timer))];
                if word != 0 && word - 1 <= self.time {
                    self.event = Event { origin: Origin::Timer(timer as u8, word - 1), value: (word - 1) as u32 };
                    self.open();
                } else {
                    self.device += 1;
                    self.look_at_timer(plan);
                }
            }
            Access::Fetch => {
                self.instruction = Instruction(words[layout.code[self.task] + self.offset as usize]);
                self.executed += 1;
                self.execute(plan);
            }
            Access::LoadState => {
                let word = layout::STATE + self.registers[self.instruction.b()] as usize;
                self.registers[self.instruction.a()] = words[self.newest(places, word)] as u32;
                self.next_instruction(plan);
            }
            Access::LogLength => {
                self.written = words[self.newest(places, layout::OUTPUTS)];
                if self.written < plan.owners[self.thread].log {
                    self.next_access = Access::StoreOutput;
                } else {
                    self.end(Ending::Trapped);
                }
            }
            Access::StoreOutput => {
                let value = u64::from(self.registers[self.instruction.a()]);
                words[places.log + self.written as usize] = (self.stamp + 1) << 32 | value;
                self.write(layout::OUTPUTS, self.written + 1, Then::NextInstruction);
            }
            Access::ReaderCommit => {
                let pipe = self.instruction.number() as usize;
                self.other_mask = words[layout.threads[plan.program.pipes[pipe].to].commit];
                self.next_access = Access::ReaderTaken;
            }
            Access::ReaderTaken => {
                let pipe = self.instruction.number() as usize;
                let reader = &layout.threads[plan.program.pipes[pipe].to];
                self.taken = words[reader.word(self.other_mask, layout::TAKEN + pipe)];
                self.next_access = Access::SendWritten;
            }
            Access::SendWritten => {
                let pipe = self.instruction.number() as usize;
                self.written = words[self.newest(places, layout::WRITTEN + pipe)];
                if self.written - self.taken < plan.program.pipes[pipe].places as u64 {
                    self.next_access = Access::StoreItem;
                } else {
                    self.registers[self.instruction.a()] = 0;
                    self.next_instruction(plan);
                }
            }
            Access::StoreItem => {
                let pipe = self.instruction.number() as usize;
                let item = u64::from(self.registers[self.instruction.b()]);
                words[layout.rings[pipe] + self.written as usize % plan.program.pipes[pipe].places] = item;
                self.registers[self.instruction.a()] = 1;
                self.write(layout::WRITTEN + pipe, self.written + 1, Then::NextInstruction);
            }
            Access::TimerPeriod => {
                if let Origin::Timer(timer, deadline) = self.event.origin {
                    let period = words[self.newest(places, layout::period_word(usize::from(timer)))];
                    let due = if period == 0 { 0 } else { deadline + 1 + period };
                    self.write(layout::due_word(usize::from(timer)), due, Then::Run);
                }
            }
            Access::CountOfEnds => {
                let word = match self.ending {
                    Ending::Trapped => layout::TRAPPED,
                    Ending::Expired => layout::EXPIRED,
                    _ => layout::SERVED,
                };
                let ends = words[self.newest(places, word)];
                self.write(word, ends + 1, Then::WriteStamp);
            }
            Access::CopyLoad(number) => {
                self.copied = words[places.word(self.mask, self.word & !7 | number)];
                self.next_access = Access::CopyStore(number);
            }
            Access::CopyStore(number) => {
                words[places.word(!self.mask, self.word & !7 | number)] = self.copied;
                if number < 7 {
                    self.next_access = Access::CopyLoad(number + 1);
                } else {
                    self.dirty |= 1 << (self.word / 8);
                    self.next_access = Access::Write;
                }
            }
            Access::Write => {
                words[places.word(!self.mask, self.word)] = self.value;
                self.go_on(plan);
            }
            Access::StoreCommit => {
                words[places.commit] = self.mask ^ self.dirty;
                self.stamp += 1;
                journal.push(Entry::Commit(self.thread as u8));
                let is_over = !matches!(self.ending, Ending::Goes(_));
                let is_of_queue = matches!(self.event.origin, Origin::Source(..));
                self.next_access = if is_over && is_of_queue { Access::Acknowledge } else { Access::Clock };
            }
            Access::Acknowledge => {
                self.acknowledge(layout, words);
                self.next_access = Access::Release;
            }
            Access::Release => {
                self.release(places, words, journal);
                self.next_access = Access::Clock;
            }
        }
    }

    /// Where a word of the block stands that is read in a service.
    fn newest(&self, places: &ThreadPlaces, word: usize) -> usize {
        places.word(self.mask ^ self.dirty, word)
    }

    fn acknowledge(&self, layout: &Layout, words: &mut [u64]) {
        if let Origin::Source(source, count) = self.event.origin {
            words[layout.acks + usize::from(source)] = u64::from((count + 1) % 64);
        }
    }

    fn release(&self, places: &ThreadPlaces, words: &mut [u64], journal: &mut Vec<Entry>) {
        words[places.slot(self.position)] = Slot::empty(self.position + places.places).0;
        journal.push(Entry::Release(self.thread as u8));
    }

    fn boot_next_thread(&mut self, plan: &Plan) {
        self.thread += 1;
        self.next_access = if self.thread < plan.owners.len() { Access::BootCommit } else { Access::Clock };
        self.thread %= plan.owners.len();
    }

    fn look_at_pipe(&mut self, plan: &Plan) {
        if self.device < plan.owners[self.thread].reads.len() {
            self.next_access = Access::PipeTaken;
        } else {
            self.device = 0;
            self.look_at_timer(plan);
        }
    }

    fn look_at_timer(&mut self, plan: &Plan) {
        if self.device < plan.owners[self.thread].timers.len() {
            self.next_access = Access::TimerDue;
        } else if self.rank + 1 < plan.order.len() {
            self.rank += 1;
            self.thread = plan.order[self.rank];
            self.next_access = Access::Commit;
        } else {
            self.next_access = Access::Clock;
        }
    }

    /// Begins the service of an event, also behind a trap.
    fn open(&mut self) {
        self.dirty = 0;
        self.write(layout::BEGAN, self.time, Then::WriteOrigin);
    }

    fn write(&mut self, word: usize, value: u64, then: Then) {
        self.word = word;
        self.value = value;
        self.then = then;
        let is_dirty = self.dirty >> (word / 8) & 1 == 1;
        self.next_access = if is_dirty { Access::Write } else { Access::CopyLoad(0) };
    }

    fn go_on(&mut self, plan: &Plan) {
        match self.then {
            Then::WriteOrigin => self.write(layout::ORIGIN, self.event.origin.word(), Then::WriteValue),
            Then::WriteValue => self.write(layout::VALUE, u64::from(self.event.value), Then::Consume),
            Then::Consume => match self.event.origin {
                Origin::Source(..) => self.run(plan),
                Origin::Pipe(pipe, item) => self.write(layout::TAKEN + usize::from(pipe), u64::from(item) + 1, Then::Run),
                Origin::Timer(..) => self.next_access = Access::TimerPeriod,
            },
            Then::Run => self.run(plan),
            Then::NextInstruction => self.next_instruction(plan),
            Then::WritePeriod => {
                let period = u64::from(self.registers[self.instruction.b()]);
                self.write(layout::period_word(self.instruction.number() as usize), period, Then::NextInstruction);
            }
            Then::AfterNextTask => match (self.ending, self.event.origin) {
                (Ending::Goes(_), _) => self.write_stamp(),
                (_, Origin::Source(..)) => self.write(layout::FINISHED, self.position + 1, Then::CountEnd),
                _ => self.next_access = Access::CountOfEnds,
            },
            Then::CountEnd => self.next_access = Access::CountOfEnds,
            Then::WriteStamp => self.write_stamp(),
            Then::Commit => self.next_access = Access::StoreCommit,
        }
    }

    /// Runs a task, or gives an expired chain up; behind a trap ends the service.
    fn run(&mut self, plan: &Plan) {
        if let Ending::Trapped = self.ending {
            self.write_next_task();
            return;
        }
        let owner = &plan.owners[self.thread];
        if let (Some(_), Some(expires)) = (self.chain, owner.expires) {
            if self.time - self.began > expires {
                self.end(Ending::Expired);
                return;
            }
        }
        self.task = self.chain.unwrap_or(owner.first_task);
        self.offset = 0;
        self.executed = 0;
        self.registers = [0; 16];
        self.next_access = Access::Fetch;
    }

    fn execute(&mut self, plan: &Plan) {
        let instruction = self.instruction;
        let a = self.registers[instruction.a()];
        let b = self.registers[instruction.b()] as usize;
        match instruction.act(self.offset, &mut self.registers, &self.event, self.time) {
            Act::Go(offset) => {
                self.offset = offset;
                self.count_instruction(plan);
            }
            Act::Load if b < plan.owners[self.thread].state => self.next_access = Access::LoadState,
            Act::Store if b < plan.owners[self.thread].state => {
                self.write(layout::STATE + b, u64::from(a), Then::NextInstruction);
            }
            Act::Load | Act::Store | Act::Trap => self.end(Ending::Trapped),
            Act::Out => self.next_access = Access::LogLength,
            Act::Send => self.next_access = Access::ReaderCommit,
            Act::Arm => {
                let due = self.time + u64::from(a) + 1;
                self.write(layout::due_word(instruction.number() as usize), due, Then::WritePeriod);
            }
            Act::Stop => self.write(layout::due_word(instruction.number() as usize), 0, Then::NextInstruction),
            Act::Next(task) => self.end(Ending::Goes(task as usize)),
            Act::Done => self.end(Ending::Served),
        }
    }

    fn next_instruction(&mut self, plan: &Plan) {
        self.offset += 1;
        self.count_instruction(plan);
    }

    fn count_instruction(&mut self, plan: &Plan) {
        if self.executed < plan.program.tasks[self.task].limit {
            self.next_access = Access::Fetch;
        } else {
            self.end(Ending::Trapped);
        }
    }

    fn end(&mut self, ending: Ending) {
        self.ending = ending;
        match ending {
            Ending::Trapped => {
                self.dirty = 0;
                if self.chain.is_none() {
                    self.open();
                } else {
                    self.write_next_task();
                }
            }
            _ => self.write_next_task(),
        }
    }

    fn write_next_task(&mut self) {
        let word = match self.ending {
            Ending::Goes(task) => task as u64 + 1,
            _ => 0,
        };
        self.write(layout::NEXT_TASK, word, Then::AfterNextTask);
    }

    fn write_stamp(&mut self) {
        self.write(layout::STAMP, self.stamp + 1, Then::Commit);
    }
}
