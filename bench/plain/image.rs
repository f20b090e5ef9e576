//! The section of an image: its words, the checks that they meet, and the state that is read off them (docs/FORMATS.md, "Images").

use std::collections::HashSet;

use crate::event::{Event, Origin, Slot};
use crate::fault::{fault, Cause, Fault};
use crate::job::Program;
use crate::layout::{self, Layout};
use crate::lines::{is_header, Lines};
use crate::never_cut::{Chain, Output, Pipe, Source, State, Thread, Timer};

const POSITIONS: u64 = 1 << 21;
const WORN_COUNT: u64 = 1 << 31;
const WORN_CLOCK: u64 = 1 << 46;
const WORN_POSITION: u64 = 1_048_560;
const WORN_READING: u64 = 65535;

#[derive(Clone, Copy, PartialEq, Eq)]
pub enum Form {
    Today,
    Earlier,
}

/// A held event of a queue, where its slot stands, and its count, or in the earlier form the number of its reading.
struct Held {
    address: usize,
    source: usize,
    count: u64,
    value: u32,
}

/// What the slots of a queue tell.
struct Queue {
    /// The position of the first event that isn't released.
    first: u64,
    is_finished: bool,
    held: Vec<Held>,
}

struct Image<'a> {
    form: Form,
    program: &'a Program,
    layout: &'a Layout,
    words: &'a [u64],
}

/// Holds, or names the address of a word.
type Check = Result<(), usize>;

fn require(holds: bool, address: usize) -> Check {
    if holds {
        Ok(())
    } else {
        Err(address)
    }
}

/// Reads the words behind the header of an image, in today's form. Each source gets zeros in front of its readings, as many as it has settled.
pub fn read_start(lines: &mut Lines, form: Form, program: &Program, readings: &mut [Vec<u32>]) -> Result<Vec<u64>, Fault> {
    let header = lines.line;
    let (mut words, line_of) = read_words(lines)?;
    let layout = Layout::new(program);
    if words.len() != layout.size {
        return fault(header, Cause::WrongShape);
    }
    let image = Image { form, program, layout: &layout, words: &words };
    let queues = match image.check() {
        Ok(queues) => queues,
        Err(address) => return fault(line_of[address], Cause::NotStanding),
    };
    if image.is_worn(&queues, readings) {
        return fault(header, Cause::Worn);
    }
    let next: Vec<u64> = (0..readings.len()).map(|source| image.settled(&queues, source).1).collect();
    if form == Form::Earlier {
        words = image.renewed(&queues, &next);
    }
    for (listed, &settled) in readings.iter_mut().zip(&next) {
        listed.splice(0..0, std::iter::repeat_n(0, settled as usize));
    }
    Ok(words)
}

/// Whether words are an image of the program.
#[allow(dead_code)] // costs.rs alone asks for it
pub fn stands(program: &Program, layout: &Layout, words: &[u64]) -> bool {
    Image { form: Form::Today, program, layout, words }.check().is_ok()
}

fn read_words(lines: &mut Lines) -> Result<(Vec<u64>, Vec<usize>), Fault> {
    let (mut words, mut line_of) = (Vec::new(), Vec::new());
    let mut bad = None;
    while let Some(first) = lines.next() {
        if is_header(first) {
            return lines.fault(Cause::BadSection);
        }
        let mut next = Some(first);
        while let Some(word) = next {
            match hexadecimal(word) {
                Some(value) => words.push(value),
                None if bad.is_none() => bad = Some(lines.line),
                None => {}
            }
            line_of.push(lines.line);
            next = lines.word();
        }
    }
    match bad {
        Some(line) => fault(line, Cause::BadWord),
        None => Ok((words, line_of)),
    }
}

fn hexadecimal(word: &[u8]) -> Option<u64> {
    if word.len() != 16 || !word.iter().all(u8::is_ascii_hexdigit) {
        return None;
    }
    u64::from_str_radix(std::str::from_utf8(word).ok()?, 16).ok()
}

impl Image<'_> {
    /// Where a word of a thread's committed copy stands.
    fn address(&self, thread: usize, word: usize) -> usize {
        let places = &self.layout.threads[thread];
        places.word(self.words[places.commit], word)
    }

    fn header(&self, thread: usize, word: usize) -> u64 {
        self.words[self.address(thread, word)]
    }

    fn clock(&self) -> u64 {
        self.words[self.layout.clock]
    }

    fn threads(&self) -> std::ops::Range<usize> {
        0..self.program.threads.len()
    }

    fn check(&self) -> Result<Vec<Queue>, usize> {
        self.check_code()?;
        for thread in self.threads() {
            let commit = self.layout.threads[thread].commit;
            require(self.words[commit] >> self.program.pages(thread) == 0, commit)?;
        }
        for thread in self.threads() {
            self.check_copy(thread)?;
        }
        for pipe in 0..self.program.pipes.len() {
            self.check_pipe(pipe)?;
        }
        self.check_logs()?;
        let mut queues = Vec::new();
        for thread in self.threads() {
            let queue = self.check_queue(thread, &queues)?;
            queues.push(queue);
        }
        for source in 0..self.program.sources.len() {
            match self.form {
                Form::Today => self.check_source(source, &queues)?,
                Form::Earlier => self.check_earlier_source(source, &queues)?,
            }
        }
        Ok(queues)
    }

    fn check_code(&self) -> Check {
        for (task, &first) in self.program.tasks.iter().zip(&self.layout.code) {
            for (offset, instruction) in task.code.iter().enumerate() {
                require(self.words[first + offset] == instruction.0, first + offset)?;
            }
        }
        Ok(())
    }

    fn check_copy(&self, thread: usize) -> Check {
        for word in 0..8 * self.program.pages(thread) {
            let value = self.header(thread, word);
            require(self.fits(thread, word, value), self.address(thread, word))?;
        }
        Ok(())
    }

    fn fits(&self, thread: usize, word: usize, value: u64) -> bool {
        let runs = self.header(thread, layout::NEXT_TASK) != 0;
        match word {
            layout::NEXT_TASK => {
                value == 0 || self.program.tasks.get(value as usize - 1).is_some_and(|task| task.thread == thread)
            }
            layout::BEGAN => value <= self.clock(),
            layout::ORIGIN => !runs || self.is_origin(thread, value),
            layout::VALUE => !runs || self.is_value(thread, value),
            layout::OUTPUTS => value <= self.program.threads[thread].log as u64,
            layout::WRITTEN..layout::TAKEN => {
                value == 0 || self.program.pipes.get(word - layout::WRITTEN).is_some_and(|pipe| pipe.from == thread)
            }
            layout::TAKEN..layout::TIMERS => {
                value == 0 || self.program.pipes.get(word - layout::TAKEN).is_some_and(|pipe| pipe.to == thread)
            }
            layout::TIMERS..layout::UNUSED => {
                let is_due = (word - layout::TIMERS).is_multiple_of(2);
                let timer = self.program.timers.get((word - layout::TIMERS) / 2);
                let is_own = timer.is_some_and(|timer| timer.thread == thread);
                value == 0 || is_own && if is_due { value <= 1 << 48 } else { value < 1 << 32 }
            }
            layout::UNUSED..layout::STATE => value == 0,
            layout::STATE.. if word - layout::STATE < self.program.threads[thread].state => value < 1 << 32,
            layout::STATE.. => value == 0,
            _ => true,
        }
    }

    fn is_origin(&self, thread: usize, word: u64) -> bool {
        let number = |shift: u32| (word >> shift & 0xff) as usize;
        match word >> 56 {
            1 => {
                let count = word & 0xffff;
                let is_own = self.program.sources.get(number(16)) == Some(&thread);
                word >> 24 & 0xffff_ffff == 0 && is_own && (count < 64 || self.form == Form::Earlier)
            }
            2 => {
                let is_own = self.program.pipes.get(number(32)).is_some_and(|pipe| pipe.to == thread);
                let item = word & 0xffff_ffff;
                word >> 40 & 0xffff == 0 && is_own && self.header(thread, layout::TAKEN + number(32)) == item + 1
            }
            3 => self.program.timers.get(number(48)).is_some_and(|timer| timer.thread == thread),
            _ => false,
        }
    }

    fn is_value(&self, thread: usize, value: u64) -> bool {
        let origin = self.header(thread, layout::ORIGIN);
        if origin >> 56 == 3 {
            value == origin & 0xffff_ffff
        } else {
            value < 1 << 32
        }
    }

    fn check_pipe(&self, number: usize) -> Check {
        let pipe = &self.program.pipes[number];
        let written = self.header(pipe.from, layout::WRITTEN + number);
        let taken = self.header(pipe.to, layout::TAKEN + number);
        let fits = written >= taken && written - taken <= pipe.places as u64;
        require(fits, self.address(pipe.from, layout::WRITTEN + number))?;
        for item in taken..written {
            let address = self.layout.rings[number] + (item % pipe.places as u64) as usize;
            require(self.words[address] < 1 << 32, address)?;
        }
        Ok(())
    }

    /// Where the outputs of a thread stand.
    fn outputs(&self, thread: usize) -> std::ops::Range<usize> {
        let log = self.layout.threads[thread].log;
        log..log + self.header(thread, layout::OUTPUTS) as usize
    }

    fn check_logs(&self) -> Check {
        let mut earlier = HashSet::new();
        for thread in self.threads() {
            let mut last = 1;
            for address in self.outputs(thread) {
                let stamp = self.words[address] >> 32;
                let fits = last <= stamp && stamp <= self.header(thread, layout::STAMP);
                require(fits && !earlier.contains(&stamp), address)?;
                last = stamp;
            }
            earlier.extend(self.outputs(thread).map(|address| self.words[address] >> 32));
        }
        Ok(())
    }

    /// The event of a full word at a position of a thread's queue.
    fn held_at(&self, thread: usize, position: u64) -> Option<Held> {
        let address = self.layout.threads[thread].slot(position);
        let word = self.words[address];
        if position >= POSITIONS {
            return None;
        }
        match self.form {
            Form::Today => {
                let slot = Slot(word);
                slot.is_full_at(position).then(|| Held {
                    address,
                    source: usize::from(slot.source()),
                    count: u64::from(slot.count()),
                    value: slot.value(),
                })
            }
            Form::Earlier => (word >> 36 == 1 << 21 | position).then_some(Held {
                address,
                source: (word >> 32 & 15) as usize,
                count: word >> 16 & 0xffff,
                value: (word & 0xffff) as u32,
            }),
        }
    }

    fn is_empty_at(&self, thread: usize, position: u64) -> bool {
        let word = self.words[self.layout.threads[thread].slot(position)];
        let shift = if self.form == Form::Today { 42 } else { 36 };
        position < POSITIONS && word == position << shift
    }

    fn check_queue(&self, thread: usize, earlier: &[Queue]) -> Result<Queue, usize> {
        let places = &self.layout.threads[thread];
        let finished = self.header(thread, layout::FINISHED);
        let is_finished = finished > 0 && self.held_at(thread, finished - 1).is_some();
        let first = finished - u64::from(is_finished);
        let mut held: Vec<Held> = Vec::new();
        for number in 0..places.places {
            let position = first.saturating_add(number);
            match self.held_at(thread, position) {
                Some(event) if held.len() as u64 == number && self.program.sources.get(event.source) == Some(&thread) => {
                    held.push(event);
                }
                _ => require(self.is_empty_at(thread, position), places.slot(position))?,
            }
        }
        let published = first + held.len() as u64;
        let tail = self.words[places.tail];
        require(tail == published || tail + 1 == published, places.tail)?;
        let is_running = self.header(thread, layout::NEXT_TASK) != 0;
        if is_finished {
            let is_first = !earlier.iter().any(|queue| queue.is_finished);
            require(is_first, self.address(thread, layout::FINISHED))?;
            require(!is_running, self.address(thread, layout::NEXT_TASK))?;
        }
        let origin = self.header(thread, layout::ORIGIN);
        if is_running && origin >> 56 == 1 {
            let serves_first = held.first().is_some_and(|event| {
                origin == 1 << 56 | (event.source as u64) << 16 | event.count
                    && self.header(thread, layout::VALUE) == u64::from(event.value)
            });
            require(serves_first, self.address(thread, layout::ORIGIN))?;
        }
        Ok(Queue { first, is_finished, held })
    }

    /// Whether the first event of its queue is a source's, and finished.
    fn has_finished(&self, queues: &[Queue], source: usize) -> bool {
        let queue = &queues[self.program.sources[source]];
        queue.is_finished && queue.held.first().is_some_and(|event| event.source == source)
    }

    fn held_of<'q>(&self, queues: &'q [Queue], source: usize) -> impl Iterator<Item = &'q Held> {
        queues[self.program.sources[source]].held.iter().filter(move |event| event.source == source)
    }

    /// How many readings of a source are accepted and settled.
    fn settled(&self, queues: &[Queue], source: usize) -> (u64, u64) {
        let word = self.words[self.layout.sources + source];
        let acknowledged = self.words[self.layout.acks + source];
        match self.form {
            Form::Today => {
                let (accepted, next) = (word & 0xffff_ffff, word >> 32);
                let is_behind =
                    self.held_of(queues, source).any(|event| event.count == accepted % 64) || acknowledged == (accepted + 1) % 64;
                (accepted + u64::from(is_behind), next + u64::from(is_behind))
            }
            Form::Earlier => {
                let of_events = self.held_of(queues, source).map(|event| event.count + 1).max().unwrap_or(0);
                (self.held_of(queues, source).count() as u64, word.max(acknowledged).max(of_events))
            }
        }
    }

    fn check_source(&self, source: usize, queues: &[Queue]) -> Check {
        let (accepted, next) = self.settled(queues, source);
        require(accepted <= next, self.layout.sources + source)?;
        let held = self.held_of(queues, source).count() as u64;
        for (number, event) in self.held_of(queues, source).enumerate() {
            let fits = held <= accepted && event.count == (accepted - held + number as u64) % 64;
            require(fits, event.address)?;
        }
        let address = self.layout.acks + source;
        let (acknowledged, released) = (self.words[address], accepted - held);
        let is_one_more = self.has_finished(queues, source) && acknowledged == (released + 1) % 64;
        require(acknowledged == released % 64 || is_one_more, address)
    }

    fn check_earlier_source(&self, source: usize, queues: &[Queue]) -> Check {
        let mut last = None;
        for event in self.held_of(queues, source) {
            require(last.is_none_or(|reading| reading < event.count), event.address)?;
            last = Some(event.count);
        }
        let address = self.layout.acks + source;
        match self.held_of(queues, source).next() {
            Some(event) => {
                let greatest = event.count + u64::from(self.has_finished(queues, source));
                require(self.words[address] <= greatest, address)
            }
            None => Ok(()),
        }
    }

    fn is_worn(&self, queues: &[Queue], readings: &[Vec<u32>]) -> bool {
        let listed = |source: usize| readings[source].len() as u64;
        let is_source_worn =
            (0..readings.len()).any(|source| self.settled(queues, source).1.saturating_add(listed(source)) > WORN_READING);
        let is_thread_worn = self.threads().any(|thread| {
            let counts = [layout::STAMP, layout::SERVED, layout::TRAPPED, layout::EXPIRED];
            let devices = layout::WRITTEN..layout::TIMERS;
            let queue = &queues[thread];
            let own = (0..readings.len()).filter(|&source| self.program.sources[source] == thread);
            let positions = queue.first + queue.held.len() as u64 + own.map(listed).sum::<u64>();
            counts.into_iter().chain(devices).any(|word| self.header(thread, word) >= WORN_COUNT) || positions > WORN_POSITION
        });
        is_source_worn || is_thread_worn || self.clock() >= WORN_CLOCK
    }

    /// The words of an earlier image in today's form.
    fn renewed(&self, queues: &[Queue], next: &[u64]) -> Vec<u64> {
        let mut words = self.words.to_vec();
        for (thread, queue) in queues.iter().enumerate() {
            let places = &self.layout.threads[thread];
            let mut counts = [0; 16];
            for (position, event) in (queue.first..).zip(&queue.held) {
                words[event.address] = Slot::full(position, event.source as u8, counts[event.source], event.value).0;
                counts[event.source] += 1;
            }
            for number in queue.held.len() as u64..places.places {
                words[places.slot(queue.first + number)] = Slot::empty(queue.first + number).0;
            }
            if self.header(thread, layout::NEXT_TASK) != 0 && self.header(thread, layout::ORIGIN) >> 56 == 1 {
                words[self.address(thread, layout::ORIGIN)] &= !0xffff;
            }
        }
        for (source, &next) in next.iter().enumerate() {
            words[self.layout.sources + source] = next << 32 | self.settled(queues, source).0;
            words[self.layout.acks + source] = 0;
        }
        words
    }
}

/// The state that is read off the words of an image.
pub fn state_of(program: &Program, layout: &Layout, words: &[u64]) -> State {
    let image = Image { form: Form::Today, program, layout, words };
    let queues = image.check().expect("the words are an image");
    let mut state = State::new(program);
    let mut outputs = Vec::new();
    for (thread, queue) in queues.iter().enumerate() {
        state.threads[thread] = thread_of(&image, thread, queue);
        state.commits = state.commits.max(image.header(thread, layout::STAMP));
        outputs.extend(image.outputs(thread).map(|address| Output {
            stamp: words[address] >> 32,
            thread,
            value: words[address] as u32,
        }));
    }
    outputs.sort_by_key(|output| output.stamp);
    state.outputs = outputs;
    for (number, pipe) in program.pipes.iter().enumerate() {
        let taken = image.header(pipe.to, layout::TAKEN + number);
        let items = taken..image.header(pipe.from, layout::WRITTEN + number);
        let item = |item: u64| words[layout.rings[number] + (item % pipe.places as u64) as usize] as u32;
        state.pipes[number] = Pipe { items: items.map(item).collect(), taken };
    }
    for (number, timer) in program.timers.iter().enumerate() {
        state.timers[number] = Timer {
            due: image.header(timer.thread, layout::due_word(number)).checked_sub(1),
            period: image.header(timer.thread, layout::period_word(number)) as u32,
        };
    }
    for number in 0..program.sources.len() {
        let (accepted, next) = image.settled(&queues, number);
        state.sources[number] = Source { next: next as usize, accepted, ..Source::default() };
    }
    state.clock = image.clock();
    state
}

fn thread_of(image: &Image, thread: usize, queue: &Queue) -> Thread {
    let event = |held: &Held| Event { origin: Origin::Source(held.source as u8, held.count as u8), value: held.value };
    let origin = Origin::of_word(image.header(thread, layout::ORIGIN));
    let value = image.header(thread, layout::VALUE) as u32;
    let began = image.header(thread, layout::BEGAN);
    let task = (image.header(thread, layout::NEXT_TASK) as usize).checked_sub(1);
    let state = 0..image.program.threads[thread].state;
    Thread {
        state: state.map(|number| image.header(thread, layout::STATE + number) as u32).collect(),
        chain: task.map(|task| Chain { task, event: Event { origin, value }, began }),
        held: queue.held.iter().map(event).collect(),
        is_finished: queue.is_finished,
        served: image.header(thread, layout::SERVED),
        trapped: image.header(thread, layout::TRAPPED),
        expired: image.header(thread, layout::EXPIRED),
        outputs: image.header(thread, layout::OUTPUTS) as usize,
    }
}
