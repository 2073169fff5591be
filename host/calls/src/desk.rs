//! What the calls of one verifier borrow.

use kerdzhusi::{INDEX_PLACES, SCRATCH_BYTES, VERDICT_BYTES};
use sheets::build::CLASS_LIMIT;
use sheets::Family;

use crate::edits::without_last;
use crate::verifier::Verifier;

/// Two sheets that have been judged: the scratch is zero and the verdicts are there. Only accepted
/// calls are of interest, so a refused one ends the program.
pub struct Desk<'a> {
    verifier: &'a Verifier,
    library: &'a [u8],
    user: Vec<u8>,
    used: usize,
    verdicts: Vec<u8>,
    scratch: Vec<u8>,
    /// As long as the user sheet, so that its canonical form fits.
    out: Vec<u8>,
    places: [u16; INDEX_PLACES],
}

impl<'a> Desk<'a> {
    pub fn judged(verifier: &'a Verifier, family: &'a Family) -> Desk<'a> {
        Desk::new(verifier, family, family.user.clone())
    }

    /// Without the last class, and its group. The buffer has room for it.
    pub fn without_last(verifier: &'a Verifier, family: &'a Family) -> (Desk<'a>, Vec<u8>) {
        let (sheet, group) = without_last(family);
        let mut desk = Desk::new(verifier, family, sheet);
        desk.user.resize(desk.used + group.len(), 0);
        (desk, group)
    }

    /// With the last class added again, so that no other class names it, and its group.
    pub fn with_last_unnamed(verifier: &'a Verifier, family: &'a Family) -> (Desk<'a>, Vec<u8>) {
        let (mut desk, group) = Desk::without_last(verifier, family);
        desk.add(&group);
        (desk, group)
    }

    fn new(verifier: &'a Verifier, family: &'a Family, user: Vec<u8>) -> Desk<'a> {
        let (library, used) = (&family.library, user.len());
        let mut verdicts = vec![0; CLASS_LIMIT * VERDICT_BYTES];
        let mut scratch = vec![0; SCRATCH_BYTES];
        let judged = (verifier.judge)(library, &user, used, &mut verdicts, &mut scratch);
        assert!(judged, "{} is refused", family.name);
        Desk {
            verifier,
            library,
            user,
            used,
            verdicts,
            scratch,
            out: vec![0; used],
            places: [0; INDEX_PLACES],
        }
    }

    pub fn judge(&mut self) {
        accepted((self.verifier.judge)(
            self.library,
            &self.user,
            self.used,
            &mut self.verdicts,
            &mut self.scratch,
        ));
    }

    pub fn add(&mut self, group: &[u8]) {
        accepted((self.verifier.add)(
            self.library,
            &mut self.user,
            &mut self.used,
            group,
            &mut self.verdicts,
            &mut self.scratch,
        ));
    }

    /// Takes back the group that was added last. By hand, so that nothing of the verifier runs
    /// between additions.
    pub fn take_back(&mut self, group: &[u8]) {
        self.used -= group.len();
        self.user[self.used..].fill(0);
    }

    pub fn replace(&mut self, class: usize, group: &[u8]) {
        accepted((self.verifier.replace)(
            self.library,
            &mut self.user,
            &mut self.used,
            class,
            group,
            &mut self.verdicts,
            &mut self.scratch,
        ));
    }

    pub fn withdraw(&mut self) {
        accepted((self.verifier.withdraw)(
            self.library,
            &mut self.user,
            &mut self.used,
            &mut self.verdicts,
        ));
    }

    /// Puts back the group that was withdrawn, by hand too. Its verdict stays all zeros, which no
    /// withdrawal reads.
    pub fn put_back(&mut self, group: &[u8]) {
        let start = self.used;
        self.used += group.len();
        self.user[start..self.used].copy_from_slice(group);
    }

    pub fn canonical(&mut self) {
        accepted((self.verifier.canonical)(
            self.library,
            &self.user,
            self.used,
            &mut self.out,
        ));
    }

    pub fn index(&mut self) {
        accepted((self.verifier.index)(
            self.library,
            &self.user,
            self.used,
            &mut self.places,
        ));
    }

    pub fn lookup(&mut self, name: &[u8]) {
        accepted((self.verifier.lookup)(
            self.library,
            &self.user,
            self.used,
            name,
            &mut self.places,
        ));
    }

    pub fn name(&self, class: usize) {
        accepted((self.verifier.name)(
            self.library,
            &self.user,
            self.used,
            class,
        ));
    }

    pub fn marks(&self, class: usize) {
        accepted((self.verifier.marks)(
            self.library,
            &self.user,
            self.used,
            class,
        ));
    }
}

fn accepted(answer: bool) {
    assert!(answer, "a call was refused");
}
