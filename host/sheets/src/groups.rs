//! Random groups that take the place of a class or come after the last, and a sheet's groups in
//! bytes that mean the same.

use crate::build::{Sheet, GROUP_LIMIT, SHEET_LIMIT};
use crate::kinds::{BUILDS, CLASS, FIELD, LOCAL};
use crate::plan::{Plan, OWN};
use crate::random::{damage, Random};
use crate::read::{groups, is_of_set, kind, ordered, records};

/// A new group for a user class of an accepted pair, or for the one after the last. Mostly it is
/// accepted.
pub fn fitting_group(random: &mut Random, library: &[u8], user: &[u8], class: usize) -> Vec<u8> {
    let mut plan = Plan::read(library, user);
    plan.redraw(random, class);
    let mut sheet = Sheet::new();
    plan.write_group(random, class, &mut sheet);
    sheet.into_bytes()
}

/// A whole group with one or two small changes; mostly it is as good as before. Its pair has so
/// many classes.
pub fn edited_group(random: &mut Random, group: &[u8], classes: usize) -> Vec<u8> {
    let mut rows: Vec<_> = records(group).map(<[u8]>::to_vec).collect();
    for _ in 0..1 + random.below(2) {
        edit(random, &mut rows, classes);
    }
    let group = rows.concat();
    // What was doubled or shuffled stays where it is now and then.
    if random.percent(15) {
        group
    } else {
        ordered(&group)
    }
}

/// Something that is no group, mostly: nothing, a part, two groups, records without a CLASS.
pub fn broken_group(random: &mut Random, group: &[u8]) -> Vec<u8> {
    let rows: Vec<_> = records(group).collect();
    match random.below(6) {
        0 => Vec::new(),
        1 => group[..random.below(group.len().max(1))].to_vec(),
        2 => [group, group].concat(),
        3 => rows.iter().skip(1).copied().collect::<Vec<_>>().concat(),
        4 => rows.iter().rev().copied().collect::<Vec<_>>().concat(),
        _ => damage(random.number(), group),
    }
}

/// An accepted user sheet in bytes that mean the same (document 02, C-15): in each group the
/// records of the sets shuffled, some of them once more, as far as group and sheet have room.
pub fn shuffled_sets(random: &mut Random, user: &[u8]) -> Vec<u8> {
    let most = if random.percent(1) { GROUP_LIMIT } else { 3 };
    let mut room = SHEET_LIMIT - user.len();
    let mut copy = Vec::with_capacity(user.len());
    for group in groups(user) {
        let (mut sets, mut rows): (Vec<_>, Vec<_>) =
            records(group).partition(|record| is_of_set(record));
        let spare = GROUP_LIMIT - rows.len() - sets.len();
        for _ in 0..random.below(most + 1).min(spare) {
            if let Some(again) = repeat(random, &sets, room) {
                room -= again.len();
                sets.push(again);
            }
        }
        random.shuffle(&mut sets);
        rows.extend(sets);
        // The CLASS has the lowest kind.
        rows.sort_by_key(|record| kind(record));
        for record in rows {
            copy.extend_from_slice(record);
        }
    }
    copy
}

/// One of the rows, if there is any and it has room.
fn repeat<'a>(random: &mut Random, rows: &[&'a [u8]], room: usize) -> Option<&'a [u8]> {
    let row = *rows.get(random.below(rows.len().max(1)))?;
    (row.len() <= room).then_some(row)
}

/// The first row is the CLASS and stays there.
fn edit(random: &mut Random, rows: &mut Vec<Vec<u8>>, classes: usize) {
    let at = random.below(rows.len());
    match random.below(7) {
        0 => rows[0][6] = random.pick(&OWN),
        1 => rows[0][4] ^= 1 << (2 + random.below(6)),
        2 if at > 0 => {
            rows.remove(at);
        }
        3 if at > 0 => rows.insert(1 + random.below(rows.len()), rows[at].clone()),
        4 => random.shuffle(&mut rows[1..]),
        _ => retouch(random, &mut rows[at], classes),
    }
}

/// Another flag, type or class in one record.
fn retouch(random: &mut Random, record: &mut [u8], classes: usize) {
    let class = (random.below(classes) as u16).to_le_bytes();
    match kind(record) {
        CLASS => record[6] ^= 1 << random.below(8),
        FIELD if random.percent(50) => record[4] ^= 1 << random.below(3),
        FIELD => record[6..10].copy_from_slice(&[0, 0, class[0], class[1]]),
        LOCAL => record[4..8].copy_from_slice(&[0, 0, class[0], class[1]]),
        BUILDS => record[4..6].copy_from_slice(&class),
        _ => {}
    }
}
