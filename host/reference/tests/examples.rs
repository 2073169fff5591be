//! The examples of document 01.

mod support;

use reference::{judge, listing, marks, name, Counts};
use support::*;

#[test]
fn listing_of_the_first_example() {
    assert_eq!(
        listing(&LIBRARY, &POINT),
        "classes 1 faulted 0\n1 Pt 0 0 0\n"
    );
}

#[test]
fn listing_of_refusals_and_missing_files() {
    assert_eq!(listing(&LIBRARY, &POINT[..3]), "refused 2 sheet 1 byte 0\n");
    assert_eq!(listing(&[], &POINT), "refused 7 sheet 0 byte 0\n");
    assert_eq!(listing(&LIBRARY, &[]), "classes 0 faulted 0\n");
    assert_eq!(
        listing(&LIBRARY, &[0; 32_769]),
        "refused 1 sheet 1 byte 0\n"
    );
    assert_eq!(listing(&[0; 32_769], &[]), "refused 1 sheet 0 byte 0\n");
}

#[test]
fn names_and_markers() {
    let used = POINT.len();
    assert_eq!(marks(&LIBRARY, &POINT, used, 0), Ok(0));
    assert_eq!(marks(&LIBRARY, &POINT, used, 1), Ok(1));
    assert_eq!(name(&LIBRARY, &POINT, used, 0), Ok((0, 12, 6)));
    assert_eq!(name(&LIBRARY, &POINT, used, 1), Ok((1, 12, 2)));
    assert_eq!(marks(&LIBRARY, &POINT, used, 2), Err(refusal(13, 0, 0)));
    assert_eq!(name(&LIBRARY, &POINT, used, 256), Err(refusal(13, 0, 0)));
}

#[test]
fn closed_sets() {
    for (own, closed) in [(32, 35), (16, 25), (64, 72), (128, 132)] {
        let user = class(0, own, 0, NO_CLASS, "C");
        assert_eq!(marks(&LIBRARY, &user, user.len(), 1), Ok(closed));
    }
}

#[test]
fn points() {
    let mut mutable = POINT;
    mutable[18] = 0;
    let of_object = [class(0, 1, 0, NO_CLASS, "Pt"), field(FINAL, OBJECT, "x")].concat();
    assert_eq!(lines(&POINT), [CLEAN]);
    assert_eq!(lines(&mutable), [(7, 1, 1)]);
    assert_eq!(lines(&of_object), [(7, 1, 1)]);
}

#[test]
fn single_classes() {
    assert_eq!(lines(&class(0, 128, 0, NO_CLASS, "C")), [(9, 0, 1)]);
    assert_eq!(lines(&class(0, 12, 0, NO_CLASS, "C")), [(4, 0, 1)]);
    assert_eq!(lines(&class(0, 16, 0, NO_CLASS, "C")), [(3, 0, 1)]);
    assert_eq!(lines(&class(1 << 7, 0, 0, NO_CLASS, "C")), [(6, 0, 1)]);
    let array = field(FINAL | STATIC, INT_ARRAY, "a");
    let user = [class(0, 0, 0, NO_CLASS, "C"), array].concat();
    assert_eq!(lines(&user), [(5, 1, 1)]);
}

/// Document 02, C-11.
#[test]
fn a_static_field_is_of_a_powerless_type() {
    let kept = |own, flags, ty| {
        let user = [
            class(0, own, 0, NO_CLASS, "Kept"),
            class(0, 0, 0, NO_CLASS, "Keeper"),
            field(FINAL | STATIC, INT, "first"),
            field(flags, ty, "second"),
            field(FINAL | STATIC, OBJECT, "third"),
        ];
        let without_third = user[..4].concat();
        (lines(&without_third)[1], lines(&user.concat())[1])
    };
    let (token, immutable, powerless) = (16, 1, 2);
    let of_kept = [0, 0, 1, 0];
    let second = ((5, 2, 2), (5, 2, 2));
    assert_eq!(kept(token, FINAL | STATIC, of_kept), second);
    assert_eq!(kept(immutable, FINAL | STATIC, of_kept), second);
    let third = (CLEAN, (5, 3, 2));
    assert_eq!(kept(powerless, FINAL | STATIC, of_kept), third);
    assert_eq!(kept(powerless, STATIC, of_kept), second);
    let array = [1, 0, 1, 0];
    assert_eq!(kept(powerless, FINAL | STATIC, array), second);
    let inherited = [
        class(INTERFACE, powerless, NO_CLASS, NO_CLASS, "Marker"),
        class(0, 0, 0, NO_CLASS, "Kept"),
        implements(1),
        class(INTERFACE, 0, NO_CLASS, NO_CLASS, "Keeper"),
        field(FINAL | STATIC, [0, 0, 2, 0], "kept"),
        field(FINAL | STATIC, OBJECT, "other"),
    ];
    assert_eq!(lines(&inherited.concat()), [CLEAN, CLEAN, (5, 2, 3)]);
}

#[test]
fn captured_through_builds() {
    let user = [
        class(0, 0, 0, NO_CLASS, "One"),
        local(OBJECT, "v"),
        class(0, 1, 0, 1, "Two"),
        builds(3),
        class(0, 0, 0, 1, "Three"),
        uses(1, 0),
    ];
    assert_eq!(lines(&user.concat()), [CLEAN, (7, 1, 1), CLEAN]);
}

#[test]
fn a_local_of_the_class_itself_is_not_captured() {
    let user = [
        class(0, 0, 0, NO_CLASS, "One"),
        class(0, 1, 0, 1, "Two"),
        local(OBJECT, "v"),
        builds(3),
        class(0, 0, 0, 2, "Three"),
        uses(2, 0),
    ];
    assert_eq!(lines(&user.concat()), [CLEAN; 3]);
}

#[test]
fn a_chain_has_to_stay_inside_the_owner() {
    // Class 3 builds class 2, which lies in the owner; class 3 itself does not.
    let outside = [
        class(0, 0, 0, NO_CLASS, "Owner"),
        local(OBJECT, "v"),
        class(0, 0, 0, 1, "User"),
        uses(1, 0),
        class(0, 1, 0, NO_CLASS, "Outside"),
        builds(2),
        class(0, 1, 0, 1, "Around"),
        builds(3),
    ];
    assert_eq!(lines(&outside.concat()), [CLEAN; 4]);
}

#[test]
fn a_clean_subclass_of_a_dirty_class_is_dirty() {
    let user = [
        class(0, 0, 0, NO_CLASS, "Base"),
        field(0, INT, "x"),
        class(0, 1, 1, NO_CLASS, "Sub"),
        field(FINAL, INT, "y"),
    ];
    assert_eq!(lines(&user.concat()), [CLEAN, (7, 1, 1)]);
}

#[test]
fn the_encloser_comes_before_own_fields() {
    let user = [
        class(0, 0, 0, NO_CLASS, "Outer"),
        class(INNER, 1, 0, 1, "In"),
        field(0, INT, "x"),
    ];
    assert_eq!(lines(&user.concat()), [CLEAN, (7, 0, 2)]);
}

#[test]
fn interfaces_are_judged_by_six_rules() {
    let user = [
        class(INTERFACE, 135, NO_CLASS, NO_CLASS, "I"),
        field(FINAL | STATIC, INT, "x"),
        class(INTERFACE, 0, NO_CLASS, NO_CLASS, "J"),
        field(STATIC, INT, "x"),
    ];
    assert_eq!(lines(&user.concat()), [CLEAN, (5, 1, 2)]);
}

#[test]
fn only_the_lines_in_use_and_the_scratch_are_written() {
    let mut verdicts = [0xEE; 8];
    let mut scratch = vec![0xEE; 65_540];
    let user = [&POINT[..], &[7; 9]].concat();
    let counts = judge(&LIBRARY, &user, POINT.len(), &mut verdicts, &mut scratch);
    let expected = Counts {
        classes: 1,
        faulted: 0,
    };
    assert_eq!(counts, Ok(expected));
    assert_eq!(verdicts, [0, 0, 0, 0xEE, 0xEE, 0xEE, 0xEE, 0xEE]);
    assert!(scratch[..65_536].iter().all(|&byte| byte == 0));
    assert!(scratch[65_536..].iter().all(|&byte| byte == 0xEE));
}
