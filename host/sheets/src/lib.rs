//! Class sheets for tests and timing: builders of records, ordinary and hostile pairs of sheets,
//! random pairs, random groups for them, and damage.

pub mod build;
mod groups;
mod homes;
mod hostile;
pub mod kinds;
mod ordinary;
mod plan;
mod random;
mod read;
mod real;
mod real_names;
mod rings;
mod sites;

pub use groups::{broken_group, edited_group, fitting_group, shuffled_sets};
pub use random::{damage, random_group, random_pair, varied_pair, Random};
pub use read::{class_name, groups, is_in_order, is_of_set, kind, number, records};
pub use sites::Site;

use build::Pair;

/// A library sheet and a user sheet with a name.
pub struct Family {
    pub name: &'static str,
    pub hostile: bool,
    pub library: Vec<u8>,
    pub user: Vec<u8>,
    pub classes: usize,
    pub records: usize,
}

impl Family {
    fn new(name: &'static str, (library, user): Pair) -> Family {
        Family {
            name,
            hostile: false,
            classes: library.classes() + user.classes(),
            records: library.records() + user.records(),
            library: library.into_bytes(),
            user: user.into_bytes(),
        }
    }

    pub fn bytes(&self) -> usize {
        self.library.len() + self.user.len()
    }
}

/// 60 classes, about 600 records.
pub fn typical() -> Family {
    Family::new("typical", ordinary::typical())
}

/// 256 classes, the user sheet filled.
pub fn full() -> Family {
    Family::new("full", ordinary::full())
}

/// 189 classes with the make-up of real code.
pub fn real() -> Family {
    Family::new("real", real::real())
}

/// Each family, the ordinary ones first.
pub fn families() -> Vec<Family> {
    let mut families = vec![typical(), full(), real()];
    families.extend(hostile::ALL.iter().map(|&(name, make)| Family {
        hostile: true,
        ..Family::new(name, make())
    }));
    families
}
