//! What histories draw from: random bytes and numbers, and whole families of sheets.

use sheets::{families, Family, Random};

use crate::lent::Lent;

/// The most bytes that are taken at once.
const MOST: usize = 70_000;
/// Bytes or numbers around each part that is lent.
const AROUND: usize = 32;
/// Numbers to draw from.
const NUMBERS: usize = 8_192;
/// The places of each row that is lent.
pub const MOST_PLACES: usize = 600;

pub struct Stock {
    bytes: Vec<u8>,
    numbers: Vec<u16>,
    families: Vec<Family>,
}

impl Stock {
    pub fn new() -> Stock {
        let mut random = Random::new(0);
        let words = (0..4 * MOST / 8).map(|_| random.number().to_le_bytes());
        Stock {
            bytes: words.flatten().collect(),
            numbers: (0..NUMBERS).map(|_| random.number() as u16).collect(),
            families: families(),
        }
    }

    /// Some bytes, from anywhere in the stock.
    pub fn bytes(&self, random: &mut Random, length: usize) -> &[u8] {
        let start = random.below(self.bytes.len() - MOST);
        &self.bytes[start..start + length]
    }

    /// Some numbers, of which few are those of classes: enough for a row of places and what lies
    /// around it.
    pub fn noise(&self, random: &mut Random) -> &[u16] {
        const LENGTH: usize = MOST_PLACES + AROUND;
        let start = random.below(NUMBERS - LENGTH);
        &self.numbers[start..start + LENGTH]
    }

    pub fn family(&self, random: &mut Random) -> (Vec<u8>, Vec<u8>) {
        let family = &self.families[random.below(self.families.len())];
        (family.library.clone(), family.user.clone())
    }

    /// Bytes to lend, at any distance from a word's start.
    pub fn lend(&self, random: &mut Random, content: &[u8]) -> Lent {
        let start = random.below(AROUND / 2);
        Lent::new(content, self.bytes(random, AROUND), start)
    }

    /// A row of places to lend.
    pub fn lend_places(&self, random: &mut Random) -> Lent<u16> {
        let start = random.below(AROUND / 2);
        let (content, around) = self.noise(random).split_at(MOST_PLACES);
        Lent::new(content, around, start)
    }
}
