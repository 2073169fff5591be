//! Answers taken apart.

use std::fmt;

use crate::raw::Answer;
use crate::VERDICT_BYTES;

/// Why a call was turned away: one of seventeen numbers (1 to 17), the sheet (0 library, 1 user) and
/// the byte where the record begins.
#[derive(Clone, Copy, Debug, PartialEq, Eq)]
pub struct Refusal {
    pub number: u8,
    pub sheet: u8,
    pub byte: usize,
}

impl fmt::Display for Refusal {
    fn fmt(&self, f: &mut fmt::Formatter) -> fmt::Result {
        let (number, sheet, byte) = (self.number, self.sheet, self.byte);
        write!(f, "refused {number} sheet {sheet} byte {byte}")
    }
}

impl std::error::Error for Refusal {}

/// User classes, and those whose verdict is not clean.
#[derive(Clone, Copy, Debug, PartialEq, Eq)]
pub struct Counts {
    pub classes: usize,
    pub faulted: usize,
}

/// A part of one of the sheets (0 library, 1 user).
#[derive(Clone, Copy, Debug, PartialEq, Eq)]
pub struct Part {
    pub sheet: u8,
    pub start: usize,
    pub length: usize,
}

impl Part {
    /// Its bytes in the sheets that it was found in.
    pub fn bytes<'a>(&self, library: &'a [u8], user: &'a [u8]) -> &'a [u8] {
        let sheet = if self.sheet == 0 { library } else { user };
        &sheet[self.start..self.start + self.length]
    }
}

/// The lowest rule that a class breaks, and where its first fault sits: the number of a record, and
/// the class whose record it is. All 0 for a clean class.
#[derive(Clone, Copy, Debug, PartialEq, Eq)]
pub struct Verdict {
    pub rule: u8,
    pub record: u8,
    pub class: u8,
}

impl Verdict {
    pub fn is_clean(self) -> bool {
        self.rule == 0
    }
}

/// The verdicts of a row; one or two bytes that are left at its end belong to none.
pub fn verdicts(row: &[u8]) -> impl Iterator<Item = Verdict> + '_ {
    row.chunks_exact(VERDICT_BYTES).map(|line| Verdict {
        rule: line[0],
        record: line[1],
        class: line[2],
    })
}

impl Answer {
    /// The value, or the refusal. The header promises that a refusal has none; an archive that
    /// gives one is not the one that was proved, so there is no going on.
    pub(crate) fn accepted(self) -> Result<u64, Refusal> {
        if self.status == 0 {
            return Ok(self.value);
        }
        assert_eq!(self.value, 0, "a refusal has no value");
        Err(Refusal {
            number: self.status as u8,
            sheet: (self.status >> 8) as u8,
            byte: (self.status >> 16) as usize,
        })
    }
}

impl Counts {
    pub(crate) fn from_value(value: u64) -> Counts {
        Counts {
            classes: value as u32 as usize,
            faulted: (value >> 32) as usize,
        }
    }
}

impl Part {
    pub(crate) fn from_value(value: u64) -> Part {
        Part {
            sheet: value as u8,
            start: (value >> 8 & 0xFF_FFFF) as usize,
            length: (value >> 32) as usize,
        }
    }
}
