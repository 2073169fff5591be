//! Sets of markers, their closure and their clashes.

pub type Markers = u8;

pub const IMMUTABLE: Markers = 1 << 0;
pub const POWERLESS: Markers = 1 << 1;
pub const SELFLESS: Markers = 1 << 2;
pub const EQUATABLE: Markers = 1 << 3;
pub const TOKEN: Markers = 1 << 4;
pub const THROWABLE: Markers = 1 << 5;
pub const ENUM: Markers = 1 << 6;
pub const DEEP_SELFLESS: Markers = 1 << 7;
pub const ALL: Markers = 0xFF;
pub const NONE: Markers = 0;

/// The least closed set that holds each set. The closure of a union is the union of closures.
pub const CLOSURE: [Markers; 256] = closure_table();

const fn closure_table() -> [Markers; 256] {
    let mut table = [0; 256];
    let mut set = 0;
    while set < 256 {
        table[set] = close(set as Markers);
        set += 1;
    }
    table
}

/// What Throwable gives is closed again by the step after it.
const fn close(mut set: Markers) -> Markers {
    if set & THROWABLE != 0 {
        set |= POWERLESS;
    }
    if set & POWERLESS != 0 {
        set |= IMMUTABLE;
    }
    if set & TOKEN != 0 {
        set |= IMMUTABLE | EQUATABLE;
    }
    if set & ENUM != 0 {
        set |= EQUATABLE;
    }
    if set & DEEP_SELFLESS != 0 {
        set |= SELFLESS;
    }
    set
}

pub fn clash(set: Markers) -> bool {
    holds(set, POWERLESS | TOKEN) || holds(set, SELFLESS | EQUATABLE)
}

fn holds(set: Markers, all: Markers) -> bool {
    set & all == all
}

#[cfg(test)]
mod tests {
    use super::*;

    #[test]
    fn closed_sets_of_the_document() {
        for (set, closed) in [(32, 35), (16, 25), (64, 72), (128, 132)] {
            assert_eq!(CLOSURE[set], closed);
        }
    }

    #[test]
    fn each_entry_is_the_least_closed_set() {
        const GIVES: [(Markers, Markers); 5] = [
            (POWERLESS, IMMUTABLE),
            (TOKEN, IMMUTABLE | EQUATABLE),
            (THROWABLE, POWERLESS),
            (ENUM, EQUATABLE),
            (DEEP_SELFLESS, SELFLESS),
        ];
        let closed = |set: Markers| GIVES.iter().all(|&(a, b)| set & a == 0 || holds(set, b));
        for set in 0..=255 {
            let entry = CLOSURE[set as usize];
            assert!(closed(entry) && holds(entry, set));
            for other in (0..=255).filter(|&other| closed(other) && holds(other, set)) {
                assert!(holds(other, entry));
            }
        }
    }

    #[test]
    fn only_the_two_pairs_clash() {
        assert!(clash(POWERLESS | TOKEN) && clash(SELFLESS | EQUATABLE));
        assert!(!clash(POWERLESS | SELFLESS | DEEP_SELFLESS | IMMUTABLE));
        assert!(!clash(TOKEN | EQUATABLE | IMMUTABLE | ENUM));
    }
}
