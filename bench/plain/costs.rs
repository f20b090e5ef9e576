//! Looks for the dearest services of a job's program: runs the plain kernel from many random states, by random turns and cuts, and tells for each
//! task how many services were made and how many accesses the dearest of them took, from the pick of its event to the commit.
//!
//!     bench/plain/out/costs RUNS SEED < JOB
#![allow(dead_code)] // the rest of the plain program

mod event;
mod fault;
mod image;
mod instruction;
mod job;
mod kernel;
mod layout;
mod lines;
mod never_cut;
mod program;
mod random;
mod reading;
mod source;

use std::io::Read;

use job::Program;
use kernel::{Kernel, Plan};
use layout::Layout;
use random::{Board, Chance};
use source::Source;

/// The turns of one run.
const TURNS: u64 = 2000;

/// What was seen of the services of a task.
#[derive(Clone, Copy, Default)]
struct Seen {
    services: u64,
    dearest: u64,
}

/// The service that is under way: its task, and the accesses since the pick.
type Service = Option<(usize, u64)>;

/// One turn of the kernel.
fn turn(kernel: &mut Kernel, plan: &Plan, words: &mut [u64], service: &mut Service, seen: &mut [Seen]) {
    if let Some(task) = kernel.served_task(plan) {
        let (_, accesses) = service.get_or_insert((task, 0));
        *accesses += 1;
    }
    kernel.turn(plan, words, &mut Vec::new());
    if kernel.served_task(plan).is_none() {
        if let Some((task, accesses)) = service.take() {
            seen[task].services += 1;
            seen[task].dearest = seen[task].dearest.max(accesses);
        }
    }
}

fn new_sources(program: &Program) -> Vec<Source> {
    (program.sources.iter().enumerate()).map(|(number, &thread)| Source::new(number as u8, thread)).collect()
}

/// A run from a random state: turns of the kernel, mostly, of sources and the clock, and cuts.
fn run(program: &Program, layout: &Layout, chance: &mut Chance, seen: &mut [Seen]) {
    let Board { mut words, readings } = random::board(program, layout, chance);
    assert!(image::stands(program, layout, &words), "the random words are no image");
    let plan = Plan::new(program, layout);
    let (mut kernel, mut sources, mut service) = (Kernel::new(), new_sources(program), None);
    let mut left = TURNS;
    while left > 0 {
        let turns = (1 + chance.below(200)).min(left);
        left -= turns;
        match chance.below(40) {
            0 => {
                words[layout.clock] += chance.below(200);
                (kernel, sources, service) = (Kernel::new(), new_sources(program), None);
            }
            1..=5 => words[layout.clock] += turns,
            6..=12 if !readings.is_empty() => {
                let number = chance.below(readings.len() as u64) as usize;
                (0..turns).for_each(|_| sources[number].turn(layout, &readings[number], &mut words, &mut Vec::new()));
            }
            _ => (0..turns).for_each(|_| turn(&mut kernel, &plan, &mut words, &mut service, seen)),
        }
    }
}

fn main() {
    let mut words = std::env::args().skip(1).map(|word| word.parse().expect("a number"));
    let (Some(runs), Some(seed)) = (words.next(), words.next()) else {
        panic!("usage: costs RUNS SEED < JOB");
    };
    let mut text = Vec::new();
    std::io::stdin().read_to_end(&mut text).expect("standard input is read");
    let program = reading::read_job(&text).expect("a job").program;
    let layout = Layout::new(&program);
    let mut seen = vec![Seen::default(); program.tasks.len()];
    let mut chance = Chance::new(seed);
    for _ in 0..runs {
        run(&program, &layout, &mut chance, &mut seen);
    }
    for (task, Seen { services, dearest }) in program.tasks.iter().zip(seen) {
        println!("task {} services {services} dearest {dearest}", task.name);
    }
}
