//! What a call borrows.

/// Bytes, or numbers, of which a part is lent. Those around it show what is written past its ends.
#[derive(Clone, Default, PartialEq)]
pub struct Lent<T = u8> {
    all: Vec<T>,
    start: usize,
    /// How many can be lent, and how many are.
    room: usize,
    length: usize,
}

impl<T: Copy + PartialEq> Lent<T> {
    /// All of `content`, between some of `around`, which is longer than `start`.
    pub fn new(content: &[T], around: &[T], start: usize) -> Lent<T> {
        let (before, after) = around.split_at(start);
        Lent {
            all: [before, content, after].concat(),
            start,
            room: content.len(),
            length: content.len(),
        }
    }

    /// Takes over what another holds, in the memory that is there.
    pub fn copy(&mut self, other: &Lent<T>) {
        self.all.clone_from(&other.all);
        (self.start, self.room, self.length) = (other.start, other.room, other.length);
    }

    /// Lends so many of them, or all.
    pub fn lend(&mut self, length: usize) {
        self.length = length.min(self.room);
    }

    pub fn part(&self) -> &[T] {
        &self.all[self.start..self.start + self.length]
    }

    pub fn part_mut(&mut self) -> &mut [T] {
        &mut self.all[self.start..self.start + self.length]
    }

    /// Others everywhere, also in the place of those that are not lent. `content` is as long or
    /// longer.
    pub fn overwrite(&mut self, content: &[T]) {
        let length = self.all.len();
        self.all.copy_from_slice(&content[..length]);
    }

    /// Are these another's, but for the first ones of the part?
    pub fn keeps_all_but(&self, written: usize, before: &Lent<T>) -> bool {
        let lent = |lent: &Lent<T>| (lent.start, lent.room, lent.length);
        let end = self.start + written;
        lent(self) == lent(before)
            && self.all[..self.start] == before.all[..self.start]
            && self.all[end..] == before.all[end..]
    }

    /// Where two of them differ, if they do, counted from the start of the lent part.
    pub fn difference(&self, other: &Lent<T>) -> Option<isize> {
        if self == other {
            return None;
        }
        let mut pairs = self.all.iter().zip(&other.all);
        let at = pairs.position(|(ours, theirs)| ours != theirs);
        Some(at.unwrap_or(self.all.len()) as isize - self.start as isize)
    }
}

/// Everything that a call can borrow, for one of the two verifiers.
#[derive(Clone, Default, PartialEq)]
pub struct Side {
    pub library: Lent,
    pub user: Lent,
    pub used: usize,
    pub group: Lent,
    pub verdicts: Lent,
    pub scratch: Lent,
    pub out: Lent,
    pub name: Lent,
    pub places: Lent<u16>,
}

impl Side {
    /// The bytes in use, or all that are lent.
    pub fn user_sheet(&self) -> &[u8] {
        let user = self.user.part();
        &user[..self.used.min(user.len())]
    }

    /// Takes over another's bytes, in the memory that is there.
    pub fn copy(&mut self, other: &Side) {
        self.library.copy(&other.library);
        self.user.copy(&other.user);
        self.used = other.used;
        self.group.copy(&other.group);
        self.verdicts.copy(&other.verdicts);
        self.scratch.copy(&other.scratch);
        self.out.copy(&other.out);
        self.name.copy(&other.name);
        self.places.copy(&other.places);
    }

    /// The first difference between two sides, in words.
    pub fn difference(&self, other: &Side) -> Option<String> {
        if self.used != other.used {
            return Some(format!("used length {} and {}", self.used, other.used));
        }
        let differences = [
            (
                "library sheet at byte",
                self.library.difference(&other.library),
            ),
            ("user buffer at byte", self.user.difference(&other.user)),
            ("group at byte", self.group.difference(&other.group)),
            (
                "verdicts at byte",
                self.verdicts.difference(&other.verdicts),
            ),
            ("scratch at byte", self.scratch.difference(&other.scratch)),
            ("output at byte", self.out.difference(&other.out)),
            ("name at byte", self.name.difference(&other.name)),
            ("places at", self.places.difference(&other.places)),
        ];
        let mut found = differences.into_iter();
        found.find_map(|(what, at)| at.map(|at| format!("{what} {at}")))
    }
}
