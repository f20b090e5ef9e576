//! Lines and words of a text, numbers and names (docs/FORMATS.md, "The job text").

use crate::fault::{fault, Cause, Fault};

/// Where a reader is in a text.
pub struct Lines<'a> {
    text: &'a [u8],
    at: usize,
    /// The number of the line, from 1 on.
    pub line: usize,
}

fn is_allowed(byte: u8) -> bool {
    matches!(byte, b' '..=b'~' | b'\t' | b'\r' | b'\n')
}

fn is_blank(byte: u8) -> bool {
    matches!(byte, b' ' | b'\t' | b'\r')
}

fn is_in_word(byte: u8) -> bool {
    !is_blank(byte) && byte != b'\n' && byte != b'#'
}

/// The first byte that no text may have.
pub fn check_bytes(text: &[u8]) -> Result<(), Fault> {
    match text.iter().position(|&byte| !is_allowed(byte)) {
        Some(at) => fault(1 + text[..at].iter().filter(|&&byte| byte == b'\n').count(), Cause::BadByte),
        None => Ok(()),
    }
}

/// The line behind the last one.
pub fn line_behind(text: &[u8]) -> usize {
    let feeds = text.iter().filter(|&&byte| byte == b'\n').count();
    let has_rest = text.last().is_some_and(|&byte| byte != b'\n');
    feeds + usize::from(has_rest) + 1
}

impl<'a> Lines<'a> {
    pub fn new(text: &'a [u8]) -> Lines<'a> {
        Lines { text, at: 0, line: 1 }
    }

    /// The next word of the line.
    pub fn word(&mut self) -> Option<&'a [u8]> {
        while self.at < self.text.len() && is_blank(self.text[self.at]) {
            self.at += 1;
        }
        let start = self.at;
        while self.at < self.text.len() && is_in_word(self.text[self.at]) {
            self.at += 1;
        }
        if start < self.at {
            Some(&self.text[start..self.at])
        } else {
            None
        }
    }

    /// The first word of the next line that has one, where the words of this line, or what is left of them, are passed over.
    fn next_line(&mut self) -> Option<&'a [u8]> {
        while self.at < self.text.len() {
            while self.at < self.text.len() && self.text[self.at] != b'\n' {
                self.at += 1;
            }
            self.at += 1;
            self.line += 1;
            if let Some(word) = self.word() {
                return Some(word);
            }
        }
        None
    }

    /// The first word of the text.
    pub fn first(&mut self) -> Option<&'a [u8]> {
        self.word().or_else(|| self.next_line())
    }

    /// The first word of the next line that has one.
    pub fn next(&mut self) -> Option<&'a [u8]> {
        self.next_line()
    }

    pub fn fault<T>(&self, cause: Cause) -> Result<T, Fault> {
        fault(self.line, cause)
    }

    /// The next word, which has to be there.
    pub fn needed(&mut self) -> Result<&'a [u8], Fault> {
        match self.word() {
            Some(word) => Ok(word),
            None => self.fault(Cause::Missing),
        }
    }

    /// The next word is this one.
    pub fn fixed(&mut self, wanted: &str) -> Result<(), Fault> {
        if self.needed()? == wanted.as_bytes() {
            Ok(())
        } else {
            self.fault(Cause::UnknownWord)
        }
    }

    /// The line has no further word.
    pub fn end(&mut self) -> Result<(), Fault> {
        match self.word() {
            None => Ok(()),
            Some(_) => self.fault(Cause::UnknownWord),
        }
    }

    /// The number that the next word says, between two limits.
    pub fn number(&mut self, least: u64, greatest: u64) -> Result<u64, Fault> {
        let word = self.needed()?;
        self.number_of(word, least, greatest)
    }

    pub fn number_of(&self, word: &[u8], least: u64, greatest: u64) -> Result<u64, Fault> {
        match number(word) {
            None => self.fault(Cause::BadNumber),
            Some(value) if value < least || value > greatest => self.fault(Cause::OverLimit),
            Some(value) => Ok(value),
        }
    }

    /// The next word, which has to be a name.
    pub fn name(&mut self) -> Result<&'a str, Fault> {
        let word = self.needed()?;
        match name(word) {
            Some(name) => Ok(name),
            None => self.fault(Cause::UnknownWord),
        }
    }
}

/// The number that 1 to 10 digits say.
pub fn number(word: &[u8]) -> Option<u64> {
    if word.is_empty() || word.len() > 10 {
        return None;
    }
    let mut value = 0;
    for &byte in word {
        if !byte.is_ascii_digit() {
            return None;
        }
        value = 10 * value + u64::from(byte - b'0');
    }
    Some(value)
}

/// A letter, and then at most 15 letters, digits or `_`.
pub fn name(word: &[u8]) -> Option<&str> {
    let (first, rest) = word.split_first()?;
    let is_name =
        first.is_ascii_alphabetic() && rest.len() <= 15 && rest.iter().all(|&byte| byte.is_ascii_alphanumeric() || byte == b'_');
    if is_name {
        std::str::from_utf8(word).ok()
    } else {
        None
    }
}

/// The number behind a letter, written without leading zeros.
pub fn indexed(word: &[u8], letter: u8) -> Option<usize> {
    let (&first, digits) = word.split_first()?;
    if first != letter || digits.len() > 1 && digits[0] == b'0' {
        return None;
    }
    number(digits).map(|value| value as usize)
}

pub fn is_header(word: &[u8]) -> bool {
    word[0] == b'['
}
