//! The text of a run (docs/FORMATS.md, "The text of a run" and "The bounds of a charge").

use std::io::{self, Write};

use crate::event::Entry;
use crate::job::{Job, Program};
use crate::never_cut::State;

#[derive(Default)]
pub struct Flags {
    pub journal: bool,
    pub json: bool,
    pub bounds: bool,
    pub image: bool,
}

/// Writes the text of a run that ended in a state, with this journal and these words.
pub fn write_run(
    out: &mut impl Write,
    job: &Job,
    flags: &Flags,
    state: &State,
    journal: &[Entry],
    words: &[u64],
) -> io::Result<()> {
    let program = &job.program;
    for output in &state.outputs {
        writeln!(out, "{} {} {}", output.stamp, program.threads[output.thread].name, output.value)?;
    }
    if flags.json {
        write_json(out, job, flags, state)?;
    } else {
        write_account(out, job, flags, state)?;
    }
    if flags.journal {
        writeln!(out, "[journal]")?;
        for &entry in journal {
            write_entry(out, program, entry)?;
        }
    }
    if flags.image {
        write_image(out, words)?;
    }
    Ok(())
}

/// How many accesses a boot takes at most, and a scan with a service.
fn bounds(program: &Program) -> (usize, usize) {
    let threads = program.threads.len();
    let service = |task: &crate::job::Task| 32 * program.pages(task.thread) + 6 * task.limit as usize + 18;
    let greatest = program.tasks.iter().map(service).max().unwrap_or(0);
    (4 * threads + 2, 4 * threads + 3 * program.pipes.len() + program.timers.len() + 3 + greatest)
}

fn write_account(out: &mut impl Write, job: &Job, flags: &Flags, state: &State) -> io::Result<()> {
    for (thread, named) in state.threads.iter().zip(&job.program.threads) {
        let (name, held) = (&named.name, thread.held.len());
        writeln!(
            out,
            "thread {name} served {} trapped {} expired {} held {held}",
            thread.served, thread.trapped, thread.expired
        )?;
    }
    for (number, source) in state.sources.iter().enumerate() {
        writeln!(out, "source S{number} next {} pushed {} refused {}", source.next, source.pushed, source.refused)?;
    }
    writeln!(out, "clock {} commits {} charges {}", state.clock, state.commits, job.charges.len())?;
    if flags.bounds {
        let (boot, round) = bounds(&job.program);
        writeln!(out, "bounds boot {boot} round {round}")?;
    }
    Ok(())
}

fn write_json(out: &mut impl Write, job: &Job, flags: &Flags, state: &State) -> io::Result<()> {
    let (boot, round) = bounds(&job.program);
    write!(out, "{{")?;
    if flags.bounds {
        write!(out, "\"boot\":{boot},")?;
    }
    write!(out, "\"charges\":{},\"clock\":{},\"commits\":{},", job.charges.len(), state.clock, state.commits)?;
    if flags.bounds {
        write!(out, "\"round\":{round},")?;
    }
    write!(out, "\"sources\":[")?;
    for (number, source) in state.sources.iter().enumerate() {
        let comma = if number > 0 { "," } else { "" };
        write!(out, "{comma}{{\"next\":{},\"pushed\":{},\"refused\":{}}}", source.next, source.pushed, source.refused)?;
    }
    write!(out, "],\"threads\":[")?;
    for (number, thread) in state.threads.iter().enumerate() {
        let comma = if number > 0 { "," } else { "" };
        let (name, held) = (&job.program.threads[number].name, thread.held.len());
        write!(out, "{comma}{{\"expired\":{},\"held\":{held},\"name\":\"{name}\",", thread.expired)?;
        write!(out, "\"served\":{},\"trapped\":{}}}", thread.served, thread.trapped)?;
    }
    writeln!(out, "]}}")
}

fn write_entry(out: &mut impl Write, program: &Program, entry: Entry) -> io::Result<()> {
    let name = |thread: u8| &program.threads[usize::from(thread)].name;
    match entry {
        Entry::Push(source) => writeln!(out, "Push S{source}"),
        Entry::Refuse(source) => writeln!(out, "Refuse S{source}"),
        Entry::Skip(source) => writeln!(out, "Skip S{source}"),
        Entry::Tick(ticks) => writeln!(out, "Tick {ticks}"),
        Entry::Scan => writeln!(out, "Scan"),
        Entry::Look(thread) => writeln!(out, "Look {}", name(thread)),
        Entry::Commit(thread) => writeln!(out, "Commit {}", name(thread)),
        Entry::Release(thread) => writeln!(out, "Release {}", name(thread)),
    }
}

fn write_image(out: &mut impl Write, words: &[u64]) -> io::Result<()> {
    writeln!(out, "[image2]")?;
    for line in words.chunks(8) {
        for (number, word) in line.iter().enumerate() {
            let space = if number > 0 { " " } else { "" };
            write!(out, "{space}{word:016x}")?;
        }
        writeln!(out)?;
    }
    Ok(())
}
