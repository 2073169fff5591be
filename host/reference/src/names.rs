//! The names met so far, as a hash table.

const SLOTS: usize = 512;

/// Which class has which name. Holds at most 256 names.
pub struct Names<'a> {
    /// Position in `met` plus one; zero is a free slot.
    slots: [u16; SLOTS],
    met: Vec<(u64, &'a [u8])>,
}

impl<'a> Names<'a> {
    pub fn new(expected: usize) -> Names<'a> {
        Names {
            slots: [0; SLOTS],
            met: Vec::with_capacity(expected),
        }
    }

    /// Adds a name; false if it was met before.
    pub fn insert(&mut self, name: &'a [u8]) -> bool {
        let hash = hash(name);
        let mut slot = hash as usize % SLOTS;
        while self.slots[slot] != 0 {
            let (other, text) = self.met[self.slots[slot] as usize - 1];
            if other == hash && text == name {
                return false;
            }
            slot = (slot + 1) % SLOTS;
        }
        self.met.push((hash, name));
        self.slots[slot] = self.met.len() as u16;
        true
    }
}

/// Eight bytes at a time; equal names have equal hashes, and that is all that is needed.
fn hash(name: &[u8]) -> u64 {
    let mut hash = name.len() as u64;
    let mut chunks = name.chunks_exact(8);
    for chunk in &mut chunks {
        let mut word = [0; 8];
        word.copy_from_slice(chunk);
        hash = mix(hash, u64::from_le_bytes(word));
    }
    let rest = chunks.remainder().iter().rev();
    let last = rest.fold(0, |word, &byte| word << 8 | byte as u64);
    mix(hash, last) >> 20
}

fn mix(hash: u64, word: u64) -> u64 {
    (hash.rotate_left(23) ^ word).wrapping_mul(0x9E37_79B9_7F4A_7C15)
}
