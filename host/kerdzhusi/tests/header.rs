//! What the header promises, on the first example of document 01.

use std::ptr::{null, null_mut};

use kerdzhusi::*;

const LIBRARY: [u8; 18] = *b"\x12\0\x01\0\0\x01\0\0\xFF\xFF\xFF\xFFObject";
const POINT: [u8; 25] = *b"\x0E\0\x01\0\0\0\x01\0\0\0\xFF\xFFPt\x0B\0\x03\0\x01\0\0\x04\0\0x";
/// The same class, its field not final.
const MUTABLE: [u8; 25] = *b"\x0E\0\x01\0\0\0\x01\0\0\0\xFF\xFFPt\x0B\0\x03\0\0\0\0\x04\0\0x";
/// Another class, which builds class 2.
const BUILDER: [u8; 19] = *b"\x0D\0\x01\0\0\0\0\0\0\0\xFF\xFFB\x06\0\x06\0\x02\0";
/// A class that builds itself before its local variable is named.
const OUT_OF_ORDER: [u8; 28] =
    *b"\x0D\0\x01\0\0\0\0\0\0\0\xFF\xFFA\x06\0\x06\0\x01\0\x09\0\x04\0\0\x04\0\0v";

/// A class that builds class 0 three times and itself before that.
const BUSY: [u8; 37] = *b"\x0D\0\x01\0\0\0\0\0\0\0\xFF\xFFA\x06\0\x06\0\x01\0\
    \x06\0\x06\0\0\0\x06\0\x06\0\0\0\x06\0\x06\0\0\0";
/// The same in canonical form.
const TIDY: [u8; 25] = *b"\x0D\0\x01\0\0\0\0\0\0\0\xFF\xFFA\x06\0\x06\0\0\0\x06\0\x06\0\x01\0";

/// A class below class 1 that is Immutable.
const BELOW: [u8; 13] = *b"\x0D\0\x01\0\0\0\x01\0\x01\0\xFF\xFFC";

const CLEAN: Verdict = Verdict {
    rule: 0,
    record: 0,
    class: 0,
};
const NOT_FINAL: Verdict = Verdict {
    rule: 7,
    record: 1,
    class: 1,
};

fn refusal(number: u8, sheet: u8, byte: usize) -> Refusal {
    Refusal {
        number,
        sheet,
        byte,
    }
}

#[test]
fn judge_add_and_replace() {
    let mut user = [0; 60];
    let mut used = 0;
    let mut row = [0xEE; 5];
    let mut scratch = vec![0xEE; SCRATCH_BYTES];
    let judged = judge(&LIBRARY, &user, used, &mut row, &mut scratch);
    let (classes, faulted) = (0, 0);
    assert_eq!(judged, Ok(Counts { classes, faulted }));
    let class = add(
        &LIBRARY,
        &mut user,
        &mut used,
        &POINT,
        &mut row,
        &mut scratch,
    );
    assert_eq!((class, used), (Ok(1), 25));
    assert_eq!(verdicts(&row).collect::<Vec<_>>(), [CLEAN]);
    let dependents = replace(
        &LIBRARY,
        &mut user,
        &mut used,
        1,
        &MUTABLE,
        &mut row,
        &mut scratch,
    );
    assert_eq!((dependents, used), (Ok(1), 25));
    assert_eq!(verdicts(&row).collect::<Vec<_>>(), [NOT_FINAL]);
    assert_eq!(row[3..], [0xEE; 2]);
    assert!(scratch == vec![0; SCRATCH_BYTES]);
}

/// Three bytes a verdict; what is left at the end of a row belongs to none.
#[test]
fn rows_of_every_length() {
    let sheet = [&MUTABLE[..], &BELOW].concat();
    let mut scratch = vec![0; SCRATCH_BYTES];
    for bytes in 0..10 {
        let mut row = vec![0xEE; bytes];
        let answer = judge(&LIBRARY, &sheet, sheet.len(), &mut row, &mut scratch);
        if bytes < 6 {
            assert_eq!(answer, Err(refusal(12, 0, 0)));
            assert_eq!(row, vec![0xEE; bytes]);
            continue;
        }
        let (classes, faulted) = (2, 2);
        assert_eq!(answer, Ok(Counts { classes, faulted }));
        // Class 2 inherits the field.
        assert_eq!(row[..6], [7, 1, 1, 7, 1, 1]);
        assert_eq!(row[6..], [0xEE; 3][..bytes - 6]);
        let whole: Vec<_> = verdicts(&row).take(2).collect();
        assert_eq!(
            (whole, verdicts(&row).count()),
            (vec![NOT_FINAL; 2], bytes / 3)
        );
    }
}

#[test]
fn withdraw_until_none_is_left() {
    let mut user = [&MUTABLE[..], &BUILDER, &[0xEE; 5]].concat();
    let mut used = MUTABLE.len() + BUILDER.len();
    let mut row = [7, 1, 1, 0xEE, 0xEE, 0xEE, 0xEE, 0xEE];
    assert_eq!(withdraw(&LIBRARY, &mut user, &mut used, &mut row), Ok(2));
    assert_eq!((used, row), (25, [7, 1, 1, 0, 0, 0, 0xEE, 0xEE]));
    assert_eq!(withdraw(&LIBRARY, &mut user, &mut used, &mut row), Ok(1));
    assert_eq!((used, row), (0, [0, 0, 0, 0, 0, 0, 0xEE, 0xEE]));
    assert_eq!(user, [&[0; 44][..], &[0xEE; 5]].concat());
    let answer = withdraw(&LIBRARY, &mut user, &mut used, &mut row);
    assert_eq!(answer, Err(refusal(13, 0, 0)));
}

#[test]
fn refusals_of_withdraw() {
    let sheet = [&BUILDER[..], &POINT].concat();
    let refused = |used, bytes| {
        let (mut user, mut length, mut row) = (sheet.clone(), used, vec![0xEE; bytes]);
        let refusal = withdraw(&LIBRARY, &mut user, &mut length, &mut row).expect_err("refused");
        assert_eq!((user, length), (sheet.clone(), used));
        assert!(row.iter().all(|&byte| byte == 0xEE));
        refusal
    };
    assert_eq!(refused(45, 6), refusal(1, 1, 0));
    assert_eq!(refused(3, 0), refusal(2, 1, 0));
    assert_eq!(refused(19, 0), refusal(9, 1, 13));
    assert_eq!(refused(44, 6), refusal(17, 0, 0));
    assert_eq!(refused(44, 5), refusal(17, 0, 0));
    assert_eq!(refused(13, 2), refusal(12, 0, 0));
    assert_eq!(refused(0, 0), refusal(13, 0, 0));
}

#[test]
fn canonical_forms() {
    let write = |user: &[u8], room| {
        let mut out = vec![0xEE; room];
        (canonical(&LIBRARY, user, user.len(), &mut out), out)
    };
    for sheet in [&BUSY[..], &TIDY] {
        assert_eq!(write(sheet, 25), (Ok(25), TIDY.to_vec()));
        let longer = [&TIDY[..], &[0xEE; 3]].concat();
        assert_eq!(write(sheet, 28), (Ok(25), longer));
        assert_eq!(write(sheet, 24), (Err(refusal(15, 0, 0)), vec![0xEE; 24]));
    }
    assert_eq!(write(&POINT, 25), (Ok(25), POINT.to_vec()));
    assert_eq!(write(&[], 2), (Ok(0), vec![0xEE; 2]));
    let mut out = [0xEE; 40];
    let answer = canonical(&LIBRARY, &BUSY, 38, &mut out);
    assert_eq!((answer, out), (Err(refusal(1, 1, 0)), [0xEE; 40]));
    let answer = canonical(&LIBRARY, &BUSY, 36, &mut out);
    assert_eq!((answer, out), (Err(refusal(2, 1, 31)), [0xEE; 40]));
}

/// The place of a class with this name, where no other has taken it.
fn home(name: &[u8]) -> usize {
    fingerprint(name) as usize % INDEX_PLACES
}

#[test]
fn fingerprints() {
    assert_eq!(fingerprint(b""), 0x811c_9dc5);
    assert_eq!(fingerprint(b"a"), 0xe40c_292c);
    assert_eq!(fingerprint(b"foobar"), 0xbf9c_f968);
}

#[test]
fn index_and_lookup() {
    let look_up = |name: &[u8], places| {
        let mut row = vec![4242; places];
        let answer = lookup(&LIBRARY, &POINT, 25, name, &mut row);
        (answer, row)
    };
    for places in [512, 513, 600] {
        let mut filled = vec![65_535; INDEX_PLACES];
        filled[home(b"Object")] = 0;
        filled[home(b"Pt")] = 1;
        filled.resize(places, 4242);
        let mut row = vec![4242; places];
        let answer = index(&LIBRARY, &POINT, 25, &mut row);
        assert_eq!((answer, &row), (Ok(2), &filled));
        assert_eq!(look_up(b"Object", places), (Ok(0), filled.clone()));
        assert_eq!(look_up(b"Pt", places), (Ok(1), filled));
        for name in [&b"P"[..], b"Ptt", b"", b"\0", &[b'P'; 101]] {
            let absent = (Err(refusal(13, 0, 0)), vec![4242; places]);
            assert_eq!(look_up(name, places), absent);
        }
    }
    for places in [0, 511] {
        let mut row = vec![4242; places];
        let answer = index(&LIBRARY, &POINT, 25, &mut row);
        let short = (Err(refusal(12, 0, 0)), vec![4242; places]);
        assert_eq!((answer, row), short);
        assert_eq!(look_up(b"Pt", places), short);
        assert_eq!(look_up(b"P", places), short);
    }
}

/// The class under a name with this place.
fn point_at(place: usize) -> [u8; 25] {
    let two = (33..=126).flat_map(|one| (33..=126).map(move |two| [one, two]));
    let mut of_place = two.filter(|name| home(name) == place);
    let mut point = POINT;
    point[12..14].copy_from_slice(&of_place.next().expect("a name"));
    point
}

/// The first and the last one, those about the middle, and one that is taken.
#[test]
fn places_of_classes() {
    let taken = home(b"Object");
    for place in [0, 255, 256, 511, taken] {
        let sheet = point_at(place);
        let mut filled = [65_535; INDEX_PLACES];
        filled[taken] = 0;
        filled[if place == taken { taken + 1 } else { place }] = 1;
        let mut row = [4242; INDEX_PLACES];
        assert_eq!(index(&LIBRARY, &sheet, 25, &mut row), Ok(2));
        assert_eq!(row, filled);
        row = [4242; INDEX_PLACES];
        let found = lookup(&LIBRARY, &sheet, 25, &sheet[12..14], &mut row);
        assert_eq!((found, row), (Ok(1), filled));
    }
}

#[test]
fn names_and_markers() {
    let name_of = |class| name(&LIBRARY, &POINT, 25, class);
    let text = |class| name_of(class).map(|part| part.bytes(&LIBRARY, &POINT));
    assert_eq!(text(0), Ok(&b"Object"[..]));
    assert_eq!(text(1), Ok(&b"Pt"[..]));
    assert_eq!(text(2), Err(refusal(13, 0, 0)));
    assert_eq!(marks(&LIBRARY, &POINT, 25, 1), Ok(1));
    assert_eq!(marks(&LIBRARY, &POINT, 25, 2), Err(refusal(13, 0, 0)));
}

#[test]
fn refusals() {
    let mut row = [0xEE; 3];
    let mut scratch = vec![0xEE; SCRATCH_BYTES];
    let mut judge_used = |used| judge(&LIBRARY, &POINT, used, &mut row, &mut scratch);
    assert_eq!(judge_used(26), Err(refusal(1, 1, 0)));
    assert_eq!(judge_used(3), Err(refusal(2, 1, 0)));
    assert_eq!(judge_used(24), Err(refusal(2, 1, 14)));
    assert!(row.iter().chain(&scratch).all(|&byte| byte == 0xEE));
}

#[test]
fn every_call_refuses_records_out_of_order() {
    let (mut user, mut used) = (OUT_OF_ORDER, OUT_OF_ORDER.len());
    let mut row = [0xEE; 6];
    let mut scratch = vec![0xEE; SCRATCH_BYTES];
    let refused = refusal(16, 1, 19);
    let (library, row, scratch) = (&LIBRARY, &mut row, &mut scratch);
    assert_eq!(judge(library, &user, used, row, scratch), Err(refused));
    let added = add(library, &mut user, &mut used, &POINT, row, scratch);
    assert_eq!(added, Err(refused));
    let replaced = replace(library, &mut user, &mut used, 1, &POINT, row, scratch);
    assert_eq!(replaced, Err(refused));
    let withdrawn = withdraw(library, &mut user, &mut used, row);
    assert_eq!(withdrawn, Err(refused));
    assert_eq!(canonical(library, &user, used, row), Err(refused));
    let mut places = [4242; INDEX_PLACES];
    assert_eq!(index(library, &user, used, &mut places), Err(refused));
    let found = lookup(library, &user, used, b"A", &mut places);
    assert_eq!((found, places), (Err(refused), [4242; INDEX_PLACES]));
    assert_eq!(name(library, &user, used, 1), Err(refused));
    assert_eq!(marks(library, &user, used, 1), Err(refused));
    used = 0;
    let added = add(library, &mut user, &mut used, &OUT_OF_ORDER, row, scratch);
    assert_eq!(added, Err(refused));
    assert_eq!((user, used), (OUT_OF_ORDER, 0));
    assert!(row.iter().chain(&*scratch).all(|&byte| byte == 0xEE));
}

/// A pointer may be NULL where its length is 0.
#[test]
fn null_with_length_0() {
    let mut scratch = vec![0xEE; SCRATCH_BYTES];
    let mut used = 0;
    let (library, length) = (LIBRARY.as_ptr(), LIBRARY.len());
    let lent = (scratch.as_mut_ptr(), scratch.len());
    let status = |answer: raw::Answer| (answer.status, answer.value);
    unsafe {
        let judged = raw::kz_judge(library, length, null(), 0, 0, null_mut(), 0, lent.0, lent.1);
        assert_eq!(status(judged), (0, 0));
        let judged = raw::kz_judge(library, length, null(), 0, 0, null_mut(), 0, null_mut(), 0);
        assert_eq!(status(judged), (12, 0));
        let judged = raw::kz_judge(null(), 0, null(), 0, 0, null_mut(), 0, null_mut(), 0);
        assert_eq!(status(judged), (7, 0));
        let none = null_mut();
        let added = raw::kz_add(
            library, length, none, 0, &mut used, none, 0, none, 0, none, 0,
        );
        assert_eq!(status(added), (14, 0));
        let replaced = raw::kz_replace(
            library, length, none, 0, &mut used, 1, none, 0, none, 0, none, 0,
        );
        assert_eq!(status(replaced), (13, 0));
        let withdrawn = raw::kz_withdraw(library, length, none, 0, &mut used, none, 0);
        assert_eq!(status(withdrawn), (13, 0));
        let written = raw::kz_canonical(library, length, null(), 0, 0, none, 0);
        assert_eq!(status(written), (0, 0));
        let written = raw::kz_canonical(library, length, POINT.as_ptr(), 25, 25, none, 0);
        assert_eq!(status(written), (15, 0));
        let none = null_mut();
        let indexed = raw::kz_index(library, length, null(), 0, 0, none, 0);
        assert_eq!(status(indexed), (12, 0));
        let found = raw::kz_lookup(library, length, null(), 0, 0, null(), 0, none, 0);
        assert_eq!(status(found), (12, 0));
        let mut places = [4242; INDEX_PLACES];
        let row = places.as_mut_ptr();
        let found = raw::kz_lookup(library, length, null(), 0, 0, null(), 0, row, 512);
        assert_eq!(status(found), (13, 0));
        assert_eq!(places, [4242; INDEX_PLACES]);
        let printed = raw::kz_fingerprint(null(), 0);
        assert_eq!(status(printed), (0, 0x811c_9dc5));
        let marked = raw::kz_marks(library, length, null(), 0, 0, 0);
        assert_eq!(status(marked), (0, 0));
        let named = raw::kz_name(library, length, null(), 0, 0, 0);
        assert_eq!(status(named), (0, 12 << 8 | 6 << 32));
    }
    assert!(scratch.iter().all(|&byte| byte == 0));
}
