//! Names to look up: those of classes, and some that no class has (document 02, C-17).

use kerdzhusi::INDEX_PLACES;
use reference::fingerprint;
use sheets::build::NAME_LIMIT;
use sheets::{class_name, groups, Random};

use crate::lent::Side;

/// Names that mostly no class has.
#[derive(Clone, Copy)]
pub enum Absent {
    Empty,
    Long,
    OutOfRange,
    Prefix,
    Changed,
    /// With the home of a class's name.
    OfSameHome,
}

pub const ABSENT: [(Absent, &str); 6] = [
    (Absent::Empty, "empty"),
    (Absent::Long, "over 100 bytes"),
    (Absent::OutOfRange, "a byte out of range"),
    (Absent::Prefix, "a prefix of a name"),
    (Absent::Changed, "one byte of a name changed"),
    (Absent::OfSameHome, "of the home of a name"),
];

/// The name of each class, as far as the sheets are whole.
pub fn class_names(sheets: &Side) -> Vec<&[u8]> {
    let library = groups(sheets.library.part()).into_iter();
    let all = library.chain(groups(sheets.user_sheet()));
    all.map(class_name).collect()
}

/// The place of an index where a name is looked for first.
pub fn home(name: &[u8]) -> usize {
    fingerprint(name) as usize % INDEX_PLACES
}

impl Absent {
    /// Such a name, made from that of a class.
    pub fn draw(self, random: &mut Random, name: &[u8]) -> Vec<u8> {
        // Damaged sheets may have an empty one.
        let mut name = if name.is_empty() { b"A" } else { name }.to_vec();
        let at = random.below(name.len());
        match self {
            Absent::Empty => name.clear(),
            Absent::Long => name.resize(NAME_LIMIT + 1 + random.below(200), in_range(random)),
            Absent::OutOfRange => name[at] = random.pick(&[0, 10, 32, 127, 128, 255]),
            Absent::Prefix => name.truncate(at),
            Absent::Changed => name[at] = in_range(random),
            Absent::OfSameHome => return of_same_home(random, &name),
        }
        name
    }
}

/// Another one, mostly, that ends in other bytes.
fn of_same_home(random: &mut Random, name: &[u8]) -> Vec<u8> {
    const ENDING: usize = 3;
    let kept = name.len().min(NAME_LIMIT - ENDING);
    let mut other = name[..kept].to_vec();
    other.resize(kept + ENDING, 0);
    while home(&other) != home(name) {
        other[kept..].fill_with(|| in_range(random));
    }
    other
}

fn in_range(random: &mut Random) -> u8 {
    33 + random.below(126 - 32) as u8
}
