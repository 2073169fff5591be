//! What has been met of canonical forms, and what has to be.

use std::fmt;

use sheets::kinds::{BUILDS, FIELD, IMPLEMENTS, LOCAL, REFERS, USES};
use sheets::{is_of_set, kind, number, records};

use crate::lent::Side;

/// One more than the highest kind.
const KINDS: usize = REFERS + 1;
/// Kinds of which a group holds a set, and those whose records stay as they stand.
const SETS: [(usize, &str); 4] = [
    (IMPLEMENTS, "IMPLEMENTS"),
    (USES, "USES"),
    (BUILDS, "BUILDS"),
    (REFERS, "REFERS"),
];
const ROWS: [(usize, &str); 2] = [(FIELD, "FIELD"), (LOCAL, "LOCAL")];

const CHANGED: &str = "canonical forms of other bytes";
const MOVED: &str = "verdicts of another record in a canonical form";
const COPIES: &str = "sheets of other bytes that mean the same";

const LEAST_CHANGED: u64 = 100_000;
const LEAST_OF_A_KIND: u64 = 1_000;
const LEAST_MOVED: u64 = 1_000;
const LEAST_COPIES: u64 = 10_000;

#[derive(Default)]
pub struct Forms {
    /// Accepted sheets whose form was written.
    all: u64,
    /// Those whose form has other bytes.
    changed: u64,
    /// By kind: those whose form has its records in another order.
    reordered: [u64; KINDS],
    /// By kind: those whose form has fewer of them.
    shortened: [u64; KINDS],
    /// By kind: those whose form has two equal ones side by side.
    repeating: [u64; KINDS],
    /// Those whose form was looked at closely.
    pub examined: u64,
    /// Verdicts that are the same in the form but for the record.
    pub moved: u64,
    /// Other sheets that mean the same.
    pub copies: u64,
}

impl Forms {
    /// Counts an accepted sheet, given its form.
    pub fn count(&mut self, sheet: &[u8], form: &[u8]) {
        self.all += 1;
        self.changed += (sheet != form) as u64;
        let (before, after) = (Kinds::of(sheet), Kinds::of(form));
        for kind in 0..KINDS {
            self.reordered[kind] += before.falling[kind] as u64;
            self.shortened[kind] += (after.records[kind] < before.records[kind]) as u64;
            self.repeating[kind] += after.repeating[kind] as u64;
        }
    }

    pub fn add(&mut self, other: &Forms) {
        self.all += other.all;
        self.changed += other.changed;
        for kind in 0..KINDS {
            self.reordered[kind] += other.reordered[kind];
            self.shortened[kind] += other.shortened[kind];
            self.repeating[kind] += other.repeating[kind];
        }
        self.examined += other.examined;
        self.moved += other.moved;
        self.copies += other.copies;
    }

    /// Asks of what has been met whether that is enough.
    pub fn require(&self, require: &mut impl FnMut(String, u64, u64)) {
        require(CHANGED.into(), self.changed, LEAST_CHANGED);
        require(MOVED.into(), self.moved, LEAST_MOVED);
        require(COPIES.into(), self.copies, LEAST_COPIES);
        for (kind, name) in SETS {
            let (order, repeats) = (self.reordered[kind], self.shortened[kind]);
            require(format!("{name} in another order"), order, LEAST_OF_A_KIND);
            require(format!("{name} without repeats"), repeats, LEAST_OF_A_KIND);
        }
        for (kind, name) in ROWS {
            let repeats = self.repeating[kind];
            require(format!("{name} with repeats"), repeats, LEAST_OF_A_KIND);
        }
    }
}

impl fmt::Display for Forms {
    fn fmt(&self, f: &mut fmt::Formatter) -> fmt::Result {
        writeln!(f, "| kind       | reordered | shortened | repeating |")?;
        writeln!(f, "|:-----------|----------:|----------:|----------:|")?;
        for (kind, name) in SETS.into_iter().chain(ROWS) {
            let (order, fewer) = (self.reordered[kind], self.shortened[kind]);
            let repeats = self.repeating[kind];
            writeln!(f, "| {name:10} | {order:9} | {fewer:9} | {repeats:9} |")?;
        }
        writeln!(f)?;
        let (all, examined) = (self.all, self.examined);
        writeln!(f, "canonical forms {all}, looked at closely {examined}")?;
        writeln!(f, "{CHANGED} {}", self.changed)?;
        writeln!(f, "{MOVED} {}", self.moved)?;
        writeln!(f, "{COPIES} {}", self.copies)
    }
}

/// The length of the sheets' canonical form; nothing where they are refused.
pub fn form_length(side: &Side) -> Option<usize> {
    let (library, user) = (side.library.part(), side.user.part());
    let mut out = vec![0; user.len()];
    reference::canonical(library, user, side.used, &mut out).ok()
}

/// The records of an accepted sheet by kind.
#[derive(Default)]
struct Kinds {
    records: [usize; KINDS],
    /// Does one of a set have lower numbers than the one before it?
    falling: [bool; KINDS],
    /// Are two side by side equal?
    repeating: [bool; KINDS],
}

impl Kinds {
    fn of(sheet: &[u8]) -> Kinds {
        let mut kinds = Kinds::default();
        let mut before: &[u8] = &[0; 4];
        for record in records(sheet) {
            let kind_of = kind(record);
            kinds.records[kind_of] += 1;
            if kind(before) == kind_of {
                let falls = is_of_set(record) && numbers(record).lt(numbers(before));
                kinds.falling[kind_of] |= falls;
                kinds.repeating[kind_of] |= record == before;
            }
            before = record;
        }
        kinds
    }
}

/// A body's numbers: a class, or a class and an index.
fn numbers(record: &[u8]) -> impl Iterator<Item = usize> + '_ {
    (4..record.len())
        .step_by(2)
        .map(|place| number(record, place))
}
