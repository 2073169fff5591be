//! The family `real` has the make-up of real code.

use std::collections::BTreeMap;

use reference::{judge, SCRATCH_BYTES, VERDICT_BYTES};
use sheets::build::{CLASS_LIMIT, INNER, INTERFACE, NO_CLASS};
use sheets::kinds::CLASS;
use sheets::{kind, number, real, records};

/// How many records of each kind, CLASS first, a sheet has.
fn kinds(sheet: &[u8]) -> [usize; 8] {
    let mut counts = [0; 8];
    for record in records(sheet) {
        counts[kind(record) - 1] += 1;
    }
    counts
}

/// The user classes whose CLASS record is as asked.
fn classes(user: &[u8], asked: impl Fn(&[u8]) -> bool) -> usize {
    let heads = records(user).filter(|record| kind(record) == CLASS);
    heads.filter(|head| asked(head)).count()
}

#[test]
fn records_of_each_kind() {
    let family = real();
    let (library, user) = (kinds(&family.library), kinds(&family.user));
    let bytes = (family.library.len(), family.user.len());
    println!("library {library:?}, user {user:?}, bytes {bytes:?}");
    assert_eq!(library, [124, 93, 0, 0, 0, 0, 260, 0]);
    assert_eq!(user, [65, 30, 226, 5, 5, 54, 0, 531]);
    assert!((11_200..=11_400).contains(&bytes.0), "{bytes:?}");
    assert!((12_700..=12_900).contains(&bytes.1), "{bytes:?}");
}

#[test]
fn user_classes_of_each_shape() {
    let user = real().user;
    let flag = |flag: u16| move |head: &[u8]| number(head, 4) & flag as usize != 0;
    let nested = classes(&user, |head| number(head, 10) != NO_CLASS as usize);
    let inner = classes(&user, flag(INNER));
    let interfaces = classes(&user, flag(INTERFACE));
    let own = classes(&user, |head| head[6] != 0);
    println!("nested {nested}, inner {inner}, interfaces {interfaces}, own markers {own}");
    assert_eq!((nested, inner, interfaces, own), (32, 6, 8, 13));
}

#[test]
fn classes_that_break_each_rule_first() {
    let family = real();
    let mut verdicts = [0; CLASS_LIMIT * VERDICT_BYTES];
    let mut scratch = vec![0; SCRATCH_BYTES];
    let (library, user) = (&family.library, &family.user);
    let counts = judge(library, user, user.len(), &mut verdicts, &mut scratch);
    let counts = counts.unwrap_or_else(|refusal| panic!("{refusal}"));
    let mut broken = BTreeMap::new();
    for verdict in verdicts.chunks(VERDICT_BYTES).take(counts.classes) {
        *broken.entry(verdict[0]).or_insert(0) += 1;
    }
    println!("{broken:?}");
    let expected = [(0, 39), (1, 7), (2, 3), (5, 5), (6, 2), (7, 9)];
    assert_eq!(broken, BTreeMap::from(expected));
}
