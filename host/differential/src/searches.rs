//! What has been met of names looked up in accepted sheets, and what has to be.

use std::fmt;

use kerdzhusi::INDEX_PLACES;

use crate::names::{home, ABSENT};

/// In a place that no class has taken.
const EMPTY: u16 = 65_535;

const WAYS: [&str; 3] = ["all", "past a taken place", "round to place 0"];

const LEAST_FOUND: [u64; WAYS.len()] = [1_000_000, 50_000, 10_000];
const LEAST_ABSENT: [u64; WAYS.len()] = [500_000, 50_000, 2_000];
const LEAST_OF_A_KIND: u64 = 50_000;

#[derive(Default)]
pub struct Searches {
    /// Accepted sheets whose index was filled.
    pub indexes: u64,
    /// Those of which every name was looked up.
    pub whole: u64,
    /// Names that a class has, by the way to it.
    found: [u64; WAYS.len()],
    /// Names that no class has, by the way to the place that says so.
    absent: [u64; WAYS.len()],
    /// The latter by what was done to make them.
    kinds: [u64; ABSENT.len()],
}

impl Searches {
    /// Counts a name that a class has.
    pub fn count_found(&mut self, places: &[u16], name: &[u8], class: usize) {
        count(&mut self.found, places, home(name), class as u16);
    }

    /// Counts a name that no class has.
    pub fn count_absent(&mut self, places: &[u16], name: &[u8], kind: usize) {
        count(&mut self.absent, places, home(name), EMPTY);
        self.kinds[kind] += 1;
    }

    pub fn add(&mut self, other: &Searches) {
        self.indexes += other.indexes;
        self.whole += other.whole;
        add_rows(&mut self.found, &other.found);
        add_rows(&mut self.absent, &other.absent);
        add_rows(&mut self.kinds, &other.kinds);
    }

    /// Asks of what has been met whether that is enough.
    pub fn require(&self, require: &mut impl FnMut(String, u64, u64)) {
        for (way, name) in WAYS.iter().enumerate() {
            let (found, absent) = (self.found[way], self.absent[way]);
            require(format!("names found, {name}"), found, LEAST_FOUND[way]);
            require(format!("names absent, {name}"), absent, LEAST_ABSENT[way]);
        }
        for ((_, name), met) in ABSENT.iter().zip(self.kinds) {
            require(format!("names absent, {name}"), met, LEAST_OF_A_KIND);
        }
    }
}

/// The way from a name's home to the place that holds this.
fn count(ways: &mut [u64; WAYS.len()], places: &[u16], home: usize, goal: u16) {
    let mut way = home..home + INDEX_PLACES;
    let end = way.find(|place| places[place % INDEX_PLACES] == goal);
    let end = end.expect("a place for each class, and an empty one");
    ways[0] += 1;
    ways[1] += (end > home) as u64;
    ways[2] += (end >= INDEX_PLACES) as u64;
}

fn add_rows(sums: &mut [u64], counts: &[u64]) {
    for (sum, count) in sums.iter_mut().zip(counts) {
        *sum += count;
    }
}

impl fmt::Display for Searches {
    fn fmt(&self, f: &mut fmt::Formatter) -> fmt::Result {
        write!(f, "| names  |")?;
        for way in WAYS {
            write!(f, " {way:>18} |")?;
        }
        writeln!(
            f,
            "\n|:-------|{}",
            "-------------------:|".repeat(WAYS.len())
        )?;
        for (name, row) in [("found", self.found), ("absent", self.absent)] {
            write!(f, "| {name:6} |")?;
            for count in row {
                write!(f, " {count:18} |")?;
            }
            writeln!(f)?;
        }
        writeln!(f)?;
        let (indexes, whole) = (self.indexes, self.whole);
        writeln!(f, "indexes {indexes}, every name looked up in {whole}")?;
        for ((_, name), met) in ABSENT.iter().zip(self.kinds) {
            writeln!(f, "names absent, {name} {met}")?;
        }
        Ok(())
    }
}
