//! Names that meet in an index of 512 places (document 02, C-17): a name's home is its FNV-1a
//! fingerprint modulo 512.

use crate::build::CLASS_LIMIT;

const PLACES: u32 = 512;
/// After this place comes the first one.
const LAST: u32 = PLACES - 1;
/// The fingerprint of no bytes.
const START: u32 = 2_166_136_261;

/// A name for each class there may be, all of one length and with the last place as home: these
/// bytes, and then three more.
pub fn names_of_one_home(beginning: &[u8]) -> Vec<Vec<u8>> {
    let names = names_of(beginning, LAST).take(CLASS_LIMIT);
    names.collect()
}

/// A name whose home is so many places before the last one. It begins with these bytes.
pub fn name_near_the_end(beginning: &str, before_last: usize) -> String {
    let home = LAST - before_last as u32;
    let name = names_of(beginning.as_bytes(), home).next();
    String::from_utf8(name.unwrap_or_default()).unwrap_or_default()
}

/// Some 1,600 names for any home. They ascend, so that neighbours differ as late as they can.
fn names_of(beginning: &[u8], home: u32) -> impl Iterator<Item = Vec<u8>> + '_ {
    let begun = fingerprint(START, beginning);
    let endings = endings().filter(move |ending| fingerprint(begun, ending) % PLACES == home);
    endings.map(move |ending| [beginning, &ending].concat())
}

fn endings() -> impl Iterator<Item = [u8; 3]> {
    let bytes = || 33..=126;
    let two = bytes().flat_map(move |one| bytes().map(move |two| [one, two]));
    two.flat_map(move |[one, two]| bytes().map(move |three| [one, two, three]))
}

/// The fingerprint of what came before and these bytes.
fn fingerprint(before: u32, bytes: &[u8]) -> u32 {
    let step = |hash: u32, &byte: &u8| (hash ^ u32::from(byte)).wrapping_mul(16_777_619);
    bytes.iter().fold(before, step)
}
