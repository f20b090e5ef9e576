//! A plain program that does what `ink_board run` does, written from docs/FORMATS.md: bench/run compares what the two of them cost.

mod board;
mod event;
mod fault;
mod image;
mod instruction;
mod job;
mod kernel;
mod layout;
mod lines;
mod never_cut;
mod program;
mod reading;
mod source;
mod text;

use std::ffi::OsString;
use std::io::{self, Read, Write};
use std::process::ExitCode;

use layout::Layout;
use never_cut::{Replay, State};
use text::Flags;

/// The longest text of a job.
const BYTES: u64 = 4_194_304;

/// Why nothing, or not all, was written.
enum Failure {
    Usage,
    Refused(fault::Fault),
    ReadFault,
    WriteFault,
    TooLong,
}

impl Failure {
    fn status(&self) -> u8 {
        match self {
            Failure::Usage => 2,
            Failure::Refused(_) => 3,
            Failure::ReadFault => 4,
            Failure::WriteFault => 5,
            Failure::TooLong => 7,
        }
    }
}

impl std::fmt::Display for Failure {
    fn fmt(&self, out: &mut std::fmt::Formatter) -> std::fmt::Result {
        match self {
            Failure::Usage => write!(out, "usage: ink_board MODE [--journal] [--json] [--bounds] [--image] [--seed N]"),
            Failure::Refused(fault) => write!(out, "ink_board: {fault}"),
            Failure::ReadFault => write!(out, "ink_board: read fault"),
            Failure::WriteFault => write!(out, "ink_board: write fault"),
            Failure::TooLong => write!(out, "ink_board: job too long"),
        }
    }
}

/// The flags of a command that is `run`, once, and flags in any order.
fn read_words(words: impl Iterator<Item = OsString>) -> Option<Flags> {
    let mut flags = Flags::default();
    let mut is_run = false;
    for word in words {
        let asked = match word.to_str()? {
            "run" => &mut is_run,
            "--journal" => &mut flags.journal,
            "--json" => &mut flags.json,
            "--bounds" => &mut flags.bounds,
            "--image" => &mut flags.image,
            _ => return None,
        };
        if *asked {
            return None;
        }
        *asked = true;
    }
    is_run.then_some(flags)
}

fn run() -> Result<(), Failure> {
    let flags = read_words(std::env::args_os().skip(1)).ok_or(Failure::Usage)?;
    let mut text = Vec::new();
    io::stdin().take(BYTES + 1).read_to_end(&mut text).map_err(|_| Failure::ReadFault)?;
    if text.len() as u64 > BYTES {
        return Err(Failure::TooLong);
    }
    let job = reading::read_job(&text).map_err(Failure::Refused)?;
    let layout = Layout::new(&job.program);
    let (words, state) = match &job.start {
        Some(words) => (words.clone(), image::state_of(&job.program, &layout, words)),
        None => (layout.first_image(&job.program), State::new(&job.program)),
    };
    let run = board::run(&job, &layout, words);
    let mut replay = Replay::new(&job, state);
    for &entry in &run.journal {
        replay.enter(entry).expect("each entry is legal in its place");
    }
    let mut out = Vec::new();
    text::write_run(&mut out, &job, &flags, &replay.state, &run.journal, &run.words).map_err(|_| Failure::WriteFault)?;
    io::stdout().write_all(&out).and_then(|()| io::stdout().flush()).map_err(|_| Failure::WriteFault)
}

fn main() -> ExitCode {
    match run() {
        Ok(()) => ExitCode::SUCCESS,
        Err(failure) => {
            eprintln!("{failure}");
            ExitCode::from(failure.status())
        }
    }
}
