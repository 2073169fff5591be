//! Taking sheets apart again.

use crate::kinds::*;

/// The number in two bytes.
pub fn number(bytes: &[u8], at: usize) -> usize {
    u16::from_le_bytes([bytes[at], bytes[at + 1]]) as usize
}

pub fn kind(record: &[u8]) -> usize {
    number(record, 2)
}

/// Is this an IMPLEMENTS, USES, BUILDS or REFERS? Of each a group holds a set: neither order nor
/// repeats mean anything (document 02, C-15).
pub fn is_of_set(record: &[u8]) -> bool {
    [IMPLEMENTS, USES, BUILDS, REFERS].contains(&kind(record))
}

/// The records of a sheet, up to the first that is not whole.
pub fn records(mut sheet: &[u8]) -> impl Iterator<Item = &[u8]> {
    std::iter::from_fn(move || {
        let length = if sheet.len() < 4 { 0 } else { number(sheet, 0) };
        if length < 4 || length > sheet.len() {
            return None;
        }
        let (record, rest) = sheet.split_at(length);
        sheet = rest;
        Some(record)
    })
}

/// Do kinds never fall inside a group?
pub fn is_in_order(sheet: &[u8]) -> bool {
    let kinds: Vec<_> = records(sheet).map(kind).collect();
    kinds
        .windows(2)
        .all(|two| two[1] == CLASS || two[0] <= two[1])
}

/// A group with its records in order of kind, those of one kind as they stood.
pub fn ordered(group: &[u8]) -> Vec<u8> {
    let mut rows: Vec<_> = records(group).collect();
    // The first one is the CLASS; a wrong record may have a lower kind.
    rows[1..].sort_by_key(|record| kind(record));
    rows.concat()
}

/// The name of a group's class; nothing where its CLASS is too short for one.
pub fn class_name(group: &[u8]) -> &[u8] {
    group.get(12..number(group, 0)).unwrap_or_default()
}

/// The groups of a sheet; records before the first CLASS belong to none.
pub fn groups(sheet: &[u8]) -> Vec<&[u8]> {
    let mut groups = Vec::new();
    let (mut start, mut at) = (None, 0);
    for record in records(sheet) {
        if kind(record) == CLASS {
            groups.extend(start.map(|start| &sheet[start..at]));
            start = Some(at);
        }
        at += record.len();
    }
    groups.extend(start.map(|start| &sheet[start..at]));
    groups
}
