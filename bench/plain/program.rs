//! The section of a program (docs/FORMATS.md, "The job text" and "The first fault").

use std::collections::HashMap;

use crate::fault::{fault, Cause, Fault};
use crate::instruction::{Instruction, DONE, JMP, JNZ, JZ, NEXT};
use crate::job::{Pipe, Program, Task, Thread, Timer};
use crate::lines::{indexed, is_header, line_behind, name, Lines};

const THREADS: usize = 16;
const SOURCES: usize = 16;
const PIPES: usize = 8;
const TIMERS: usize = 8;
const TASKS: usize = 256;
const INSTRUCTIONS: usize = 4096;
pub const TICKS: u64 = 2_147_483_647;

/// The operands of an instruction, as they stand behind its word.
#[derive(Clone, Copy)]
enum Operands {
    None,
    A,
    Ab,
    Abc,
    Number,
    Label,
    ALabel,
    Pipe,
    TimerAb,
    Timer,
    Task,
}

fn form_of(word: &[u8]) -> Option<(u8, Operands)> {
    Some(match word {
        b"li" => (1, Operands::Number),
        b"mov" => (2, Operands::Ab),
        b"add" => (3, Operands::Abc),
        b"sub" => (4, Operands::Abc),
        b"mul" => (5, Operands::Abc),
        b"and" => (6, Operands::Abc),
        b"or" => (7, Operands::Abc),
        b"xor" => (8, Operands::Abc),
        b"shl" => (9, Operands::Abc),
        b"shr" => (10, Operands::Abc),
        b"divu" => (11, Operands::Abc),
        b"remu" => (12, Operands::Abc),
        b"ltu" => (13, Operands::Abc),
        b"eq" => (14, Operands::Abc),
        b"jmp" => (JMP, Operands::Label),
        b"jz" => (JZ, Operands::ALabel),
        b"jnz" => (JNZ, Operands::ALabel),
        b"ev" => (18, Operands::A),
        b"kind" => (19, Operands::A),
        b"num" => (20, Operands::A),
        b"now" => (21, Operands::A),
        b"ld" => (22, Operands::Ab),
        b"st" => (23, Operands::Ab),
        b"out" => (24, Operands::A),
        b"send" => (25, Operands::Pipe),
        b"arm" => (26, Operands::TimerAb),
        b"stop" => (27, Operands::Timer),
        b"next" => (NEXT, Operands::Task),
        b"done" => (DONE, Operands::None),
        _ => return None,
    })
}

/// A jump or a `next`, whose target is looked up behind the last line of the section.
struct Target<'a> {
    line: usize,
    task: usize,
    offset: usize,
    name: &'a str,
}

struct Draft<'a> {
    program: Program,
    thread_lines: Vec<usize>,
    task_lines: Vec<usize>,
    /// The line of each instruction, task by task.
    lines: Vec<Vec<usize>>,
    instructions: usize,
    is_open: bool,
    labels: Vec<HashMap<&'a str, u32>>,
    targets: Vec<Target<'a>>,
}

/// Reads the program of a text, up to the header `[sensors]`.
pub fn read_program<'a>(text: &'a [u8], lines: &mut Lines<'a>) -> Result<Program, Fault> {
    match lines.first() {
        Some(b"[program]") => lines.end()?,
        Some(_) => return lines.fault(Cause::BadSection),
        None => return fault(line_behind(text), Cause::Missing),
    }
    let header = lines.line;
    let mut draft = Draft {
        program: Program::default(),
        thread_lines: Vec::new(),
        task_lines: Vec::new(),
        lines: Vec::new(),
        instructions: 0,
        is_open: false,
        labels: Vec::new(),
        targets: Vec::new(),
    };
    loop {
        let Some(word) = lines.next() else {
            return fault(line_behind(text), Cause::Missing);
        };
        if is_header(word) {
            if draft.is_open {
                return lines.fault(Cause::Missing);
            }
            if word != b"[sensors]" {
                return lines.fault(Cause::BadSection);
            }
            break;
        }
        if draft.is_open {
            draft.read_inside(word, lines)?;
        } else {
            draft.read_declaration(word, lines)?;
        }
    }
    draft.find_targets()?;
    draft.check_whole(header)?;
    Ok(draft.program)
}

fn below(count: usize, limit: usize, lines: &Lines) -> Result<(), Fault> {
    if count < limit {
        Ok(())
    } else {
        lines.fault(Cause::OverLimit)
    }
}

/// A new name, which none of these has.
fn new_name<'a>(lines: &mut Lines, mut taken: impl Iterator<Item = &'a String>) -> Result<String, Fault> {
    let name = lines.name()?;
    if taken.any(|it| it == name) {
        return lines.fault(Cause::Duplicate);
    }
    Ok(name.to_string())
}

/// The number of the one of these that the next word names.
fn declared<'a>(lines: &mut Lines, mut names: impl Iterator<Item = &'a String>) -> Result<usize, Fault> {
    let word = lines.needed()?;
    match names.position(|name| name.as_bytes() == word) {
        Some(number) => Ok(number),
        None => lines.fault(Cause::UnknownWord),
    }
}

fn register(lines: &mut Lines) -> Result<u8, Fault> {
    match indexed(lines.needed()?, b'r') {
        Some(number) if number < 16 => Ok(number as u8),
        _ => lines.fault(Cause::UnknownWord),
    }
}

impl<'a> Draft<'a> {
    fn thread(&self, lines: &mut Lines) -> Result<usize, Fault> {
        declared(lines, self.program.threads.iter().map(|thread| &thread.name))
    }

    fn read_declaration(&mut self, word: &[u8], lines: &mut Lines<'a>) -> Result<(), Fault> {
        match word {
            b"thread" => self.read_thread(lines)?,
            b"source" => {
                below(self.program.sources.len(), SOURCES, lines)?;
                let thread = self.thread(lines)?;
                self.program.sources.push(thread);
            }
            b"pipe" => self.read_pipe(lines)?,
            b"timer" => self.read_timer(lines)?,
            b"task" => self.read_task(lines)?,
            _ => return lines.fault(Cause::UnknownWord),
        }
        lines.end()
    }

    fn read_thread(&mut self, lines: &mut Lines) -> Result<(), Fault> {
        below(self.program.threads.len(), THREADS, lines)?;
        let name = new_name(lines, self.program.threads.iter().map(|thread| &thread.name))?;
        lines.fixed("priority")?;
        let priority = lines.number(0, 255)? as u8;
        if self.program.threads.iter().any(|thread| thread.priority == priority) {
            return lines.fault(Cause::Duplicate);
        }
        lines.fixed("queue")?;
        let places = lines.number(2, 32)? as usize;
        lines.fixed("state")?;
        let state = lines.number(0, 256)? as usize;
        lines.fixed("log")?;
        let log = lines.number(1, 4096)? as usize;
        let expires = match lines.word() {
            None => None,
            Some(b"expires") => Some(lines.number(0, TICKS)?),
            Some(_) => return lines.fault(Cause::UnknownWord),
        };
        self.program.threads.push(Thread { name, priority, places, state, log, expires });
        self.thread_lines.push(lines.line);
        Ok(())
    }

    fn read_pipe(&mut self, lines: &mut Lines) -> Result<(), Fault> {
        below(self.program.pipes.len(), PIPES, lines)?;
        let name = new_name(lines, self.program.pipes.iter().map(|pipe| &pipe.name))?;
        let places = lines.number(1, 64)? as usize;
        lines.fixed("from")?;
        let from = self.thread(lines)?;
        lines.fixed("to")?;
        let to = self.thread(lines)?;
        if from == to {
            return lines.fault(Cause::BadOwner);
        }
        self.program.pipes.push(Pipe { name, places, from, to });
        Ok(())
    }

    fn read_timer(&mut self, lines: &mut Lines) -> Result<(), Fault> {
        below(self.program.timers.len(), TIMERS, lines)?;
        let name = new_name(lines, self.program.timers.iter().map(|timer| &timer.name))?;
        lines.fixed("thread")?;
        let thread = self.thread(lines)?;
        let (due, period) = match lines.needed()? {
            b"off" => (None, 0),
            b"due" => {
                let due = lines.number(0, TICKS)?;
                lines.fixed("period")?;
                (Some(due), lines.number(0, TICKS)? as u32)
            }
            _ => return lines.fault(Cause::UnknownWord),
        };
        self.program.timers.push(Timer { name, thread, due, period });
        Ok(())
    }

    fn read_task(&mut self, lines: &mut Lines) -> Result<(), Fault> {
        below(self.program.tasks.len(), TASKS, lines)?;
        let name = new_name(lines, self.program.tasks.iter().map(|task| &task.name))?;
        lines.fixed("thread")?;
        let thread = self.thread(lines)?;
        lines.fixed("limit")?;
        let limit = lines.number(1, 4096)? as u32;
        self.program.tasks.push(Task { name, thread, limit, code: Vec::new() });
        self.task_lines.push(lines.line);
        self.lines.push(Vec::new());
        self.labels.push(HashMap::new());
        self.is_open = true;
        Ok(())
    }

    /// A line of the open task, which is the last one.
    fn read_inside(&mut self, word: &'a [u8], lines: &mut Lines<'a>) -> Result<(), Fault> {
        let task = self.program.tasks.len() - 1;
        if word == b"end" {
            self.is_open = false;
        } else if let Some(label) = word.strip_suffix(b":").and_then(name) {
            let offset = self.program.tasks[task].code.len() as u32;
            if self.labels[task].insert(label, offset).is_some() {
                return lines.fault(Cause::Duplicate);
            }
        } else if let Some((operation, operands)) = form_of(word) {
            below(self.instructions, INSTRUCTIONS, lines)?;
            let instruction = self.read_operands(operation, operands, lines)?;
            self.program.tasks[task].code.push(instruction);
            self.lines[task].push(lines.line);
            self.instructions += 1;
        } else {
            return lines.fault(Cause::UnknownWord);
        }
        lines.end()
    }

    fn read_operands(&mut self, operation: u8, operands: Operands, lines: &mut Lines<'a>) -> Result<Instruction, Fault> {
        let (mut a, mut b, mut c, mut number) = (0, 0, 0, 0);
        match operands {
            Operands::None => {}
            Operands::A => a = register(lines)?,
            Operands::Ab => (a, b) = (register(lines)?, register(lines)?),
            Operands::Abc => (a, b, c) = (register(lines)?, register(lines)?, register(lines)?),
            Operands::Number => (a, number) = (register(lines)?, lines.number(0, u64::from(u32::MAX))? as u32),
            Operands::Label | Operands::Task => self.read_target(lines)?,
            Operands::ALabel => {
                a = register(lines)?;
                self.read_target(lines)?;
            }
            Operands::Pipe => {
                number = self.own_pipe(lines)? as u32;
                (a, b) = (register(lines)?, register(lines)?);
            }
            Operands::TimerAb => {
                number = self.own_timer(lines)? as u32;
                (a, b) = (register(lines)?, register(lines)?);
            }
            Operands::Timer => number = self.own_timer(lines)? as u32,
        }
        Ok(Instruction::new(operation, a, b, c, number))
    }

    fn read_target(&mut self, lines: &mut Lines<'a>) -> Result<(), Fault> {
        let name = lines.name()?;
        let task = self.program.tasks.len() - 1;
        self.targets.push(Target { line: lines.line, task, offset: self.program.tasks[task].code.len(), name });
        Ok(())
    }

    fn own_pipe(&self, lines: &mut Lines) -> Result<usize, Fault> {
        let number = declared(lines, self.program.pipes.iter().map(|pipe| &pipe.name))?;
        let task = self.program.tasks.last().expect("a task is open");
        if self.program.pipes[number].from == task.thread {
            Ok(number)
        } else {
            lines.fault(Cause::BadOwner)
        }
    }

    fn own_timer(&self, lines: &mut Lines) -> Result<usize, Fault> {
        let number = declared(lines, self.program.timers.iter().map(|timer| &timer.name))?;
        let task = self.program.tasks.last().expect("a task is open");
        if self.program.timers[number].thread == task.thread {
            Ok(number)
        } else {
            lines.fault(Cause::BadOwner)
        }
    }

    fn find_targets(&mut self) -> Result<(), Fault> {
        let tasks: HashMap<String, u32> =
            (self.program.tasks.iter().zip(0..)).map(|(task, number)| (task.name.clone(), number)).collect();
        for target in &self.targets {
            let instruction = &mut self.program.tasks[target.task].code[target.offset];
            let found = if instruction.is_jump() { self.labels[target.task].get(target.name) } else { tasks.get(target.name) };
            match found {
                Some(&number) => *instruction = instruction.with_number(number),
                None => return fault(target.line, Cause::BadTarget),
            }
        }
        Ok(())
    }

    /// The faults of the program as a whole.
    fn check_whole(&self, header: usize) -> Result<(), Fault> {
        let program = &self.program;
        if program.threads.is_empty() {
            return fault(header, Cause::Missing);
        }
        for (number, &line) in self.thread_lines.iter().enumerate() {
            if !program.tasks.iter().any(|task| task.thread == number) {
                return fault(line, Cause::Missing);
            }
        }
        for (number, task) in program.tasks.iter().enumerate() {
            for (instruction, &line) in task.code.iter().zip(&self.lines[number]) {
                let target = instruction.number() as usize;
                if instruction.is_jump() && target >= task.code.len() {
                    return fault(line, Cause::BadTarget);
                }
                if instruction.operation() == NEXT && program.tasks[target].thread != task.thread {
                    return fault(line, Cause::BadOwner);
                }
            }
            if !task.code.last().is_some_and(|last| matches!(last.operation(), JMP | NEXT | DONE)) {
                return fault(self.task_lines[number], Cause::Missing);
            }
        }
        Ok(())
    }
}
