//! Why a text is no job: its line and the cause (docs/FORMATS.md, "The first fault").

use std::fmt;

#[derive(Clone, Copy, Debug, PartialEq, Eq)]
pub enum Cause {
    BadByte,
    BadSection,
    UnknownWord,
    Missing,
    BadNumber,
    OverLimit,
    Duplicate,
    BadOwner,
    BadTarget,
    BadWord,
    WrongShape,
    NotStanding,
    Worn,
}

#[derive(Clone, Copy, Debug)]
pub struct Fault {
    pub line: usize,
    pub cause: Cause,
}

pub fn fault<T>(line: usize, cause: Cause) -> Result<T, Fault> {
    Err(Fault { line, cause })
}

impl fmt::Display for Fault {
    fn fmt(&self, out: &mut fmt::Formatter) -> fmt::Result {
        write!(out, "line {}: {:?}", self.line, self.cause)
    }
}
