//! Random pairs, mostly well formed, and damage to bytes.

use crate::build::*;
use crate::plan::{Plan, LOOSE_IN_100, OWN};
use crate::read::records;

/// A small generator of numbers (splitmix64).
pub struct Random(u64);

impl Random {
    pub fn new(seed: u64) -> Random {
        Random(seed.wrapping_mul(0xD129_0B26_4F5A_91E3).wrapping_add(1))
    }

    pub fn number(&mut self) -> u64 {
        self.0 = self.0.wrapping_add(0x9E37_79B9_7F4A_7C15);
        let mut z = self.0;
        z = (z ^ z >> 30).wrapping_mul(0xBF58_476D_1CE4_E5B9);
        z = (z ^ z >> 27).wrapping_mul(0x94D0_49BB_1331_11EB);
        z ^ z >> 31
    }

    /// A number below `end`, which is not 0.
    pub fn below(&mut self, end: usize) -> usize {
        (self.number() % end as u64) as usize
    }

    /// True so many times in a hundred.
    pub fn percent(&mut self, chance: usize) -> bool {
        self.below(100) < chance
    }

    pub fn pick<T: Copy>(&mut self, from: &[T]) -> T {
        from[self.below(from.len())]
    }

    pub fn shuffle<T>(&mut self, row: &mut [T]) {
        for end in (2..=row.len()).rev() {
            row.swap(end - 1, self.below(end));
        }
    }
}

/// A small library sheet and a small user sheet. About half of the pairs are accepted; the others
/// have a slip in one record or damaged bytes.
pub fn random_pair(seed: u64) -> (Vec<u8>, Vec<u8>) {
    let mut random = Random::new(seed);
    let mut plan = small_plan(&mut random);
    if random.percent(30) {
        plan.slip(&mut random);
    }
    let (mut library, mut user) = written(&plan, &mut random);
    if random.percent(38) {
        damage_one(&mut random, &mut library, &mut user);
    }
    (library, user)
}

/// A pair of any size, up to each limit and a little beyond. More than half are accepted.
pub fn varied_pair(seed: u64) -> (Vec<u8>, Vec<u8>) {
    let mut random = Random::new(seed);
    let size = random.below(100);
    let mut plan = match size {
        0..=2 => crowded_plan(&mut random),
        3..=7 => middle_plan(&mut random),
        _ => small_plan(&mut random),
    };
    match random.below(100) {
        0..=19 => plan.slip(&mut random),
        20..=22 => plan.slip_markers(&mut random),
        23..=26 => plan.lengthen(&mut random),
        _ => {}
    }
    let (mut library, mut user) = if (8..=11).contains(&size) {
        filled(&plan, &mut random)
    } else {
        written(&plan, &mut random)
    };
    match random.below(100) {
        0..=17 => damage_one(&mut random, &mut library, &mut user),
        18 => library.clear(),
        19 => user.clear(),
        20..=22 => drop_first_record(&mut user),
        23 => drop_first_record(&mut library),
        _ => {}
    }
    (library, user)
}

fn small_plan(random: &mut Random) -> Plan {
    let (library, users) = (1 + random.below(6), random.below(10));
    Plan::new(random, library, users)
}

fn middle_plan(random: &mut Random) -> Plan {
    let (library, users) = (1 + random.below(30), random.below(60));
    Plan::new(random, library, users)
}

/// About as many classes as there may be.
fn crowded_plan(random: &mut Random) -> Plan {
    let classes = CLASS_LIMIT - 2 + random.below(4);
    let library = 1 + random.below(classes);
    Plan::new(random, library, classes - library)
}

fn written(plan: &Plan, random: &mut Random) -> (Vec<u8>, Vec<u8>) {
    let (library, user) = plan.write(random);
    (library.into_bytes(), user.into_bytes())
}

/// The plan's sheets, the user's filled to about as many bytes as it may have.
fn filled(plan: &Plan, random: &mut Random) -> (Vec<u8>, Vec<u8>) {
    let (library, mut user) = plan.write(random);
    let end = SHEET_LIMIT - 80 + random.below(90);
    let mut number = 0;
    while user.len() + FIELD_LENGTHS.0 <= end {
        if number % 200 == 0 {
            user.class(Class::below(0), format!("Z{number}").as_bytes());
        }
        user.constant(end.saturating_sub(user.len()));
        number += 1;
    }
    (library.into_bytes(), user.into_bytes())
}

/// Mostly the next record is no CLASS.
fn drop_first_record(sheet: &mut Vec<u8>) {
    let length = records(sheet).next().map_or(0, <[u8]>::len);
    sheet.drain(..length);
}

fn damage_one(random: &mut Random, library: &mut Vec<u8>, user: &mut Vec<u8>) {
    let sheet = if random.percent(30) { library } else { user };
    *sheet = damage(random.number(), sheet);
}

/// A small group for user class `class` of a pair with so many classes, or for the class after
/// the last. It is accepted often, not always.
pub fn random_group(seed: u64, library_classes: usize, classes: usize, class: usize) -> Vec<u8> {
    let mut random = Random::new(seed);
    let mut sheet = Sheet::new();
    let mut head = Class::below(random.below(library_classes.max(1)));
    head.flags = random.pick(&[0, 0, BY_VALUE, BY_VALUE, LETS_THIS_OUT, INNER]);
    head.own = random.pick(&OWN);
    if class > library_classes && random.percent(50) {
        head.encloser = (library_classes + random.below(class - library_classes)) as u16;
    } else {
        head.flags &= !INNER;
    }
    let tag = random.below(1000);
    sheet.class(head, format!("G{tag}").as_bytes());
    for _ in 0..random.below(6) {
        let named = random.below(classes + 1);
        match random.below(5) {
            0 => sheet.builds(named),
            1 => sheet.local(object(named), b"v"),
            2 if head.encloser != NO_CLASS => sheet.uses(head.encloser as usize, 0),
            _ => {
                let flags = random.pick(&[FINAL, FINAL, FINAL | STATIC, 0]);
                let ty = random.pick(&[INT, object(named), object(named)]);
                sheet.field(flags, ty, b"f")
            }
        };
    }
    if !random.percent(LOOSE_IN_100) {
        sheet.order_group();
    }
    sheet.into_bytes()
}

/// Some bytes with flips, cuts, swaps and doubled parts, one or two of them, often close together.
pub fn damage(seed: u64, bytes: &[u8]) -> Vec<u8> {
    let mut random = Random::new(seed);
    let mut bytes = bytes.to_vec();
    let mut from = 0;
    for _ in 0..1 + random.below(2) {
        if bytes.is_empty() {
            bytes.push(random.number() as u8);
        }
        if from == 0 || random.percent(50) {
            from = random.below(bytes.len());
        }
        let at = (from + random.below(8)).min(bytes.len() - 1);
        hurt(&mut random, &mut bytes, at);
    }
    bytes
}

fn hurt(random: &mut Random, bytes: &mut Vec<u8>, at: usize) {
    let last = bytes.len() - 1;
    let to = at + random.below((bytes.len() - at).min(16) + 1);
    match random.below(7) {
        0 | 1 => bytes[at] ^= 1 << random.below(8),
        2 => bytes[at] = random.pick(&[0, 1, 2, 4, 127, 128, 255]),
        3 => bytes.swap(at, to.min(last)),
        4 => bytes.truncate(at),
        5 => {
            bytes.drain(at..to);
        }
        _ => {
            let part = bytes[at..to].to_vec();
            bytes.splice(to..to, part);
        }
    }
}
