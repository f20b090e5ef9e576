//! The board: its words, and the run of a job's charges (docs/FORMATS.md, "The access tables").

use crate::event::Entry;
use crate::job::{Actor, Job};
use crate::kernel::{Kernel, Plan};
use crate::layout::Layout;
use crate::source::Source;

/// What a run leaves.
pub struct Run {
    pub words: Vec<u64>,
    pub journal: Vec<Entry>,
}

/// Makes each cut and each turn that the job lists, from these words on.
pub fn run(job: &Job, layout: &Layout, mut words: Vec<u64>) -> Run {
    let program = &job.program;
    let plan = Plan::new(program, layout);
    let mut journal = Vec::new();
    for charge in &job.charges {
        words[layout.clock] += u64::from(charge.off);
        journal.push(Entry::Tick(charge.off));
        let mut kernel = Kernel::new();
        let mut sources: Vec<Source> =
            (program.sources.iter().enumerate()).map(|(number, &thread)| Source::new(number as u8, thread)).collect();
        for item in &charge.items {
            match item.actor {
                Actor::Kernel => {
                    for _ in 0..item.count {
                        kernel.turn(&plan, &mut words, &mut journal);
                    }
                }
                Actor::Clock => {
                    for _ in 0..item.count {
                        words[layout.clock] += 1;
                        journal.push(Entry::Tick(1));
                    }
                }
                Actor::Source(number) => {
                    for _ in 0..item.count {
                        sources[number].turn(layout, &job.readings[number], &mut words, &mut journal);
                    }
                }
            }
        }
    }
    Run { words, journal }
}
