//! Class names by fingerprint: the index of a pair, and looking names up (document 02, C-17).

mod support;

use reference::{add, fingerprint, index, lookup, replace, Refusal, INDEX_PLACES};
use support::*;

/// In each place of a row before the call. It is no class number and no empty place.
const UNTOUCHED: u16 = 4242;
const EMPTY: u16 = 65_535;
const LAST: usize = INDEX_PLACES - 1;

type Row = Vec<u16>;

fn plain(name: &str) -> Vec<u8> {
    class(0, 0, 0, NO_CLASS, name)
}

/// A user sheet of classes with these names.
fn named(names: &[&str]) -> Vec<u8> {
    names.iter().flat_map(|name| plain(name)).collect()
}

/// The answer and the whole row of so many places.
fn indexed(user: &[u8], places: usize) -> (Result<usize, Refusal>, Row) {
    let mut row = vec![UNTOUCHED; places];
    (index(&LIBRARY, user, user.len(), &mut row), row)
}

fn looked_up(user: &[u8], name: &[u8], places: usize) -> (Result<usize, Refusal>, Row) {
    let mut row = vec![UNTOUCHED; places];
    (lookup(&LIBRARY, user, user.len(), name, &mut row), row)
}

/// The index beside library L: the places that are taken, and by which classes.
fn taken(user: &[u8]) -> Vec<(usize, u16)> {
    let (answer, row) = indexed(user, INDEX_PLACES);
    let places = row.iter().copied().enumerate();
    let taken: Vec<_> = places.filter(|&(_, class)| class != EMPTY).collect();
    assert_eq!(answer, Ok(taken.len()));
    taken
}

fn home(name: &str) -> usize {
    fingerprint(name.as_bytes()) as usize % INDEX_PLACES
}

/// So many names of a home.
fn names_of(wanted: usize, count: usize) -> Vec<String> {
    let names = (0..).map(|number| format!("N{number}"));
    names
        .filter(|name| home(name) == wanted)
        .take(count)
        .collect()
}

/// Beside library L each class of the user sheet is found by its name, and so is Object.
fn assert_all_found(user: &[u8], names: &[&str]) {
    let (_, filled) = indexed(user, INDEX_PLACES);
    for (class, name) in ["Object"].iter().chain(names).enumerate() {
        let found = looked_up(user, name.as_bytes(), INDEX_PLACES);
        assert_eq!(found, (Ok(class), filled.clone()), "{name}");
    }
}

#[test]
fn published_fingerprints() {
    let published: [(&[u8], u32); 3] = [
        (b"", 0x811c_9dc5),
        (b"a", 0xe40c_292c),
        (b"foobar", 0xbf9c_f968),
    ];
    for (name, expected) in published {
        assert_eq!(fingerprint(name), expected);
    }
}

#[test]
fn library_and_user_classes_enter() {
    let user = named(&["A"]);
    let mut places = vec![(home("Object"), 0), (home("A"), 1)];
    places.sort();
    assert_eq!(taken(&user), places);
    assert_all_found(&user, &["A"]);
    assert_eq!(taken(&[]), [(home("Object"), 0)]);
    assert_all_found(&[], &[]);
}

/// In number order, whichever name comes first in any other.
#[test]
fn classes_of_one_home_stand_one_after_the_other() {
    let names = names_of(100, 3);
    let [one, two, three] = [0, 1, 2].map(|number| names[number].as_str());
    for names in [[one, two, three], [three, one, two], [two, three, one]] {
        let user = named(&names);
        let taken = taken(&user);
        for (place, class) in [(100, 1), (101, 2), (102, 3)] {
            assert!(taken.contains(&(place, class)), "{taken:?}");
        }
        assert_all_found(&user, &names);
    }
}

/// A class whose home is taken by one of another home goes on from there.
#[test]
fn a_place_may_be_taken_by_a_class_of_another_home() {
    let (first, second) = (names_of(100, 2), names_of(101, 1));
    let names = [&first[0], &first[1], &second[0]].map(String::as_str);
    let user = named(&names);
    assert!(taken(&user).starts_with(&[(100, 1), (101, 2), (102, 3)]));
    assert_all_found(&user, &names);
    let names = [names[0], names[2], names[1]];
    let user = named(&names);
    assert!(taken(&user).starts_with(&[(100, 1), (101, 2), (102, 3)]));
    assert_all_found(&user, &names);
}

#[test]
fn the_first_place_comes_after_the_last() {
    let names = names_of(LAST, 4);
    let names: Vec<_> = names.iter().map(String::as_str).collect();
    let user = named(&names[..3]);
    let taken = taken(&user);
    assert_eq!(taken[..2], [(0, 2), (1, 3)]);
    assert_eq!(taken.last(), Some(&(LAST, 1)));
    assert_all_found(&user, &names[..3]);
    // The way to an absent name goes round too.
    let (answer, row) = looked_up(&user, names[3].as_bytes(), INDEX_PLACES);
    assert_eq!(answer, Err(refusal(13, 0, 0)));
    assert_eq!(row, [UNTOUCHED; INDEX_PLACES]);
}

#[test]
fn all_classes_of_one_home() {
    let names = names_of(100, 255);
    let names: Vec<_> = names.iter().map(String::as_str).collect();
    let user = named(&names);
    let (answer, row) = indexed(&user, INDEX_PLACES);
    assert_eq!(answer, Ok(256));
    // Object, which came first, stands in the way.
    let run = row[100..].iter().filter(|&&class| class != 0);
    assert!(run.take(255).copied().eq(1..256));
    assert!(row[100..356].contains(&0));
    assert_all_found(&user, &names);
}

/// Only the bytes in use are read.
#[test]
fn a_class_past_the_used_length_is_absent() {
    let user = named(&["A", "B"]);
    let find = |name: &[u8], used| {
        let mut row = [UNTOUCHED; INDEX_PLACES];
        lookup(&LIBRARY, &user, used, name, &mut row)
    };
    assert_eq!(find(b"B", 26), Ok(2));
    assert_eq!(find(b"B", 13), Err(refusal(13, 0, 0)));
    assert_eq!(find(b"A", 13), Ok(1));
    assert_eq!(find(b"A", 0), Err(refusal(13, 0, 0)));
    assert_eq!(find(b"A", 27), Err(refusal(1, 1, 0)));
    assert_eq!(find(b"A", 25), Err(refusal(2, 1, 13)));
}

#[test]
fn twelve_a_short_row() {
    let user = named(&["A"]);
    for places in [0, 1, 511] {
        let short = (Err(refusal(12, 0, 0)), vec![UNTOUCHED; places]);
        assert_eq!(indexed(&user, places), short);
        for name in [&b"A"[..], b"Z", b""] {
            assert_eq!(looked_up(&user, name, places), short);
        }
    }
}

#[test]
fn places_past_the_index_stay() {
    let user = named(&["A"]);
    let (answer, mut filled) = indexed(&user, INDEX_PLACES);
    assert_eq!(answer, Ok(2));
    for more in [1, 88] {
        filled.resize(INDEX_PLACES + more, UNTOUCHED);
        assert_eq!(indexed(&user, filled.len()), (Ok(2), filled.clone()));
        let found = looked_up(&user, b"A", filled.len());
        assert_eq!(found, (Ok(1), filled.clone()));
    }
}

/// What the row held is gone where the call is accepted.
#[test]
fn a_row_is_filled_anew() {
    let mut row = indexed(&named(&["A", "B", "C"]), INDEX_PLACES).1;
    let user = named(&["D"]);
    assert_eq!(index(&LIBRARY, &user, user.len(), &mut row), Ok(2));
    assert_eq!(row, indexed(&user, INDEX_PLACES).1);
}

#[test]
fn thirteen_a_name_that_is_not_there() {
    let longest = "n".repeat(100);
    let user = named(&["A", "Abc", &longest]);
    let too_long = [longest.as_bytes(), b"n"].concat();
    let absent: [&[u8]; 11] = [
        b"Z",
        b"",
        b"a",
        b"Ab",
        b"Abcd",
        b"Abd",
        b"A\0",
        b"A ",
        b"\xC1",
        &too_long,
        &[b'n'; 40_000],
    ];
    for name in absent {
        for places in [INDEX_PLACES, 600] {
            let (answer, row) = looked_up(&user, name, places);
            assert_eq!(answer, Err(refusal(13, 0, 0)));
            assert_eq!(row, vec![UNTOUCHED; places]);
        }
    }
    assert_all_found(&user, &["A", "Abc", &longest]);
}

/// The test for names met before does not go through this index; it finds what the index would.
#[test]
fn ten_comes_at_the_second_of_two() {
    let names = names_of(LAST, 4);
    let names: Vec<_> = names.iter().map(String::as_str).collect();
    let user = named(&[names[0], names[1], names[2], names[1]]);
    let second = named(&names[..3]).len();
    let refused = Err(refusal(10, 1, second));
    let untouched = vec![UNTOUCHED; INDEX_PLACES];
    assert_eq!(indexed(&user, INDEX_PLACES), (refused, untouched.clone()));
    for name in ["Object", names[1], names[3]] {
        let found = looked_up(&user, name.as_bytes(), INDEX_PLACES);
        assert_eq!(found, (refused, untouched.clone()));
    }
    let of_the_library = plain("Object");
    assert_eq!(indexed(&of_the_library, 0).0, Err(refusal(10, 1, 0)));
}

#[test]
fn ten_through_add_and_replace() {
    let names = names_of(LAST, 3);
    let names: Vec<_> = names.iter().map(String::as_str).collect();
    let sheet = named(&names);
    let (mut row, mut scratch) = ([0xEE; 12], vec![0xEE; 65_536]);
    let [first, second, third] = [1, 2, 3].map(|count| named(&names[..count]).len());
    let (mut user, mut used) = (sheet.clone(), second);
    user.resize(third + 200, 0xEE);
    for (name, answer) in [(0, Err(refusal(10, 1, second))), (2, Ok(3))] {
        let group = plain(names[name]);
        let added = add(
            &LIBRARY,
            &mut user,
            &mut used,
            &group,
            &mut row,
            &mut scratch,
        );
        assert_eq!(added, answer);
    }
    assert_eq!((&user[..used], used), (&sheet[..], third));
    // The second of the two is not always the class that the call brings.
    let cases = [
        (1, names[2], Err(refusal(10, 1, second))),
        (3, names[0], Err(refusal(10, 1, second))),
        (2, "Object", Err(refusal(10, 1, first))),
        (2, names[1], Ok(1)),
    ];
    for (class, name, answer) in cases {
        let group = plain(name);
        let replaced = replace(
            &LIBRARY,
            &mut user,
            &mut used,
            class,
            &group,
            &mut row,
            &mut scratch,
        );
        assert_eq!(replaced, answer);
    }
    assert_all_found(&user[..used], &names);
}
