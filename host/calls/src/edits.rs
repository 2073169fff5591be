//! Groups to add and to put in a class's place.

use kerdzhusi::{SCRATCH_BYTES, VERDICT_BYTES};
use sheets::build::CLASS_LIMIT;
use sheets::kinds::{BUILDS, FIELD, LOCAL};
use sheets::{class_name, groups, kind, number, records, Family};

/// The user sheet without its last class, and that class's group. Only types and BUILDS of lower
/// classes can name it; they name their own class instead.
pub fn without_last(family: &Family) -> (Vec<u8>, Vec<u8>) {
    let last = (family.classes - 1) as u16;
    let mut present = groups(&family.user);
    let group = present.pop().unwrap_or_default().to_vec();
    let first = family.classes - present.len() - 1;
    let mut sheet = Vec::new();
    for (line, group) in present.into_iter().enumerate() {
        for record in records(group) {
            let own = (first + line) as u16;
            sheet.extend(renamed(record, last, own));
        }
    }
    (sheet, group)
}

/// The record, one class's number put in the place of another's.
fn renamed(record: &[u8], old: u16, new: u16) -> Vec<u8> {
    let mut record = record.to_vec();
    let place = match kind(&record) {
        FIELD if record[7] == 0 => 8,
        LOCAL if record[5] == 0 => 6,
        BUILDS => 4,
        _ => return record,
    };
    if number(&record, place) == old as usize {
        record[place..place + 2].copy_from_slice(&new.to_le_bytes());
    }
    record
}

/// The group of a user class.
pub fn own_group(family: &Family, class: usize) -> &[u8] {
    let present = groups(&family.user);
    present[class - (family.classes - present.len())]
}

/// The name of the last class.
pub fn last_name(family: &Family) -> &[u8] {
    class_name(own_group(family, family.classes - 1))
}

/// The user class that the most classes depend on, and how many do.
pub fn most_needed(family: &Family) -> (usize, usize) {
    let users = groups(&family.user).len();
    let (mut user, mut used) = (family.user.clone(), family.user.len());
    let mut verdicts = vec![0; CLASS_LIMIT * VERDICT_BYTES];
    let mut scratch = vec![0; SCRATCH_BYTES];
    let mut best = (0, 0);
    for class in family.classes - users..family.classes {
        let answer = reference::replace(
            &family.library,
            &mut user,
            &mut used,
            class,
            own_group(family, class),
            &mut verdicts,
            &mut scratch,
        );
        let dependents = answer.unwrap_or_else(|refusal| panic!("{}: {refusal}", family.name));
        if dependents > best.1 {
            best = (class, dependents);
        }
    }
    best
}
