//! Class names by fingerprint (document 02, C-17).

use crate::pair::Pair;
use crate::INDEX_PLACES;

/// In a place that no class has taken.
const EMPTY: u16 = 65_535;

/// 32-bit FNV-1a: "for each byte exclusive-or, then multiply by 16777619 keeping the low 32 bits".
pub fn fingerprint(name: &[u8]) -> u32 {
    name.iter().fold(2_166_136_261, |hash: u32, &byte| {
        (hash ^ u32::from(byte)).wrapping_mul(16_777_619)
    })
}

/// Fills a row of `INDEX_PLACES`: in number order each class takes the place that its name's
/// fingerprint says, or the next free one after it, going round.
pub fn fill(pair: &Pair, places: &mut [u16]) {
    places.fill(EMPTY);
    for class in 0..pair.classes.len() {
        let mut place = fingerprint(pair.name(class)) as usize % INDEX_PLACES;
        while places[place] != EMPTY {
            place = (place + 1) % INDEX_PLACES;
        }
        places[place] = class as u16;
    }
}

/// The lowest class with a name, if there is any. A walk: what is found in an index, here or
/// elsewhere, can be compared with it.
pub fn class_named(pair: &Pair, name: &[u8]) -> Option<usize> {
    (0..pair.classes.len()).find(|&class| pair.name(class) == name)
}
