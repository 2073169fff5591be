//! Which classes name a class, and which depend on it?

use crate::class_set::{reaching, ClassSet};
use crate::pair::{Pair, MOST_CLASSES};
use crate::record::{Record, NO_CLASS};

/// The classes from which a chain of references leads to `class`, itself counted.
pub fn dependents(pair: &Pair, class: usize) -> ClassSet {
    let mut named_by = [ClassSet::EMPTY; MOST_CLASSES];
    let mut everything = ClassSet::EMPTY;
    for referrer in 0..pair.classes.len() {
        everything.insert(referrer);
        for (_, record) in pair.group(referrer) {
            for named in references(&record).into_iter().flatten() {
                named_by[named].insert(referrer);
            }
        }
    }
    let mut target = ClassSet::EMPTY;
    target.insert(class);
    reaching(&named_by, target, everything, ClassSet::EMPTY)
}

/// Does a record of another class name this one?
pub fn named_by_another(pair: &Pair, class: usize) -> bool {
    let others = (0..pair.classes.len()).filter(|&other| other != class);
    let mut records = others.flat_map(|other| pair.group(other));
    records.any(|(_, record)| references(&record).contains(&Some(class)))
}

/// The classes that a record names: at most two.
fn references(record: &Record) -> [Option<usize>; 2] {
    match *record {
        Record::Class(ref class) => [class.superclass, class.encloser]
            .map(|named| (named != NO_CLASS).then_some(named as usize)),
        Record::Field { ty, .. } | Record::Local { ty } => [ty.class(), None],
        Record::Implements { class }
        | Record::Builds { class }
        | Record::Uses { class, .. }
        | Record::Refers { class, .. } => [Some(class), None],
        Record::Member => [None, None],
    }
}
