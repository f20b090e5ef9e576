//! A job of its text, or the first fault (docs/FORMATS.md, "The job text" and "The first fault").

use crate::fault::{fault, Cause, Fault};
use crate::image::{self, Form};
use crate::job::{Actor, Charge, Item, Job, Program};
use crate::lines::{check_bytes, indexed, is_header, line_behind, Lines};
use crate::program::{read_program, TICKS};

const READINGS: usize = 65535;
const CHARGES: usize = 4096;
const TURNS: u64 = 4_194_304;

pub fn read_job(text: &[u8]) -> Result<Job, Fault> {
    check_bytes(text)?;
    let mut lines = Lines::new(text);
    let program = read_program(text, &mut lines)?;
    let mut readings = read_sensors(text, &mut lines, &program)?;
    let (charges, form) = read_power(text, &mut lines, &program)?;
    let start = match form {
        Some(form) => Some(image::read_start(&mut lines, form, &program, &mut readings)?),
        None => None,
    };
    Ok(Job { program, readings, charges, start })
}

fn read_sensors(text: &[u8], lines: &mut Lines, program: &Program) -> Result<Vec<Vec<u32>>, Fault> {
    lines.end()?;
    let mut readings = vec![Vec::new(); program.sources.len()];
    loop {
        let Some(word) = lines.next() else {
            return fault(line_behind(text), Cause::Missing);
        };
        if word == b"[power]" {
            return Ok(readings);
        }
        if is_header(word) {
            return lines.fault(Cause::BadSection);
        }
        let Some(of_source) = indexed(word, b'S').and_then(|number| readings.get_mut(number)) else {
            return lines.fault(Cause::UnknownWord);
        };
        while let Some(word) = lines.word() {
            let value = lines.number_of(word, 0, u64::from(u32::MAX))?;
            if of_source.len() == READINGS {
                return lines.fault(Cause::OverLimit);
            }
            of_source.push(value as u32);
        }
    }
}

/// The charges, and the form of the image whose header ends them.
fn read_power(text: &[u8], lines: &mut Lines, program: &Program) -> Result<(Vec<Charge>, Option<Form>), Fault> {
    lines.end()?;
    let mut charges = Vec::new();
    let mut turns = 0;
    while let Some(word) = lines.next() {
        if is_header(word) {
            let form = match word {
                b"[image2]" => Form::Today,
                b"[image1]" => Form::Earlier,
                _ => return lines.fault(Cause::BadSection),
            };
            if charges.is_empty() {
                return lines.fault(Cause::Missing);
            }
            lines.end()?;
            return Ok((charges, Some(form)));
        }
        if word != b"charge" {
            return lines.fault(Cause::UnknownWord);
        }
        if charges.len() == CHARGES {
            return lines.fault(Cause::OverLimit);
        }
        let off = lines.number(0, TICKS)? as u32;
        let mut items = Vec::new();
        while let Some(word) = lines.word() {
            let item = read_item(word, lines, program)?;
            turns += u64::from(item.count);
            if turns > TURNS {
                return lines.fault(Cause::OverLimit);
            }
            items.push(item);
        }
        charges.push(Charge { off, items });
    }
    if charges.is_empty() {
        return fault(line_behind(text), Cause::Missing);
    }
    Ok((charges, None))
}

fn read_item(word: &[u8], lines: &Lines, program: &Program) -> Result<Item, Fault> {
    let (name, count) = match word.iter().position(|&byte| byte == b'*') {
        Some(at) => (&word[..at], Some(&word[at + 1..])),
        None => (word, None),
    };
    let actor = match name {
        b"K" => Actor::Kernel,
        b"T" => Actor::Clock,
        _ => match indexed(name, b'S').filter(|&number| number < program.sources.len()) {
            Some(number) => Actor::Source(number),
            None => return lines.fault(Cause::UnknownWord),
        },
    };
    let count = match count {
        Some(digits) => lines.number_of(digits, 0, TURNS)? as u32,
        None => 1,
    };
    Ok(Item { actor, count })
}
