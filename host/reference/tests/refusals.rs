//! What judging turns away, in which order, the limits, and that the other calls follow it.

mod support;

use reference::{add, canonical, index, judge, listing, lookup, marks, name, replace, withdraw};
use support::*;

/// The byte after a lone class named C.
const AFTER: usize = 13;

fn after_class(record: &[u8]) -> Vec<u8> {
    [&class(0, 0, 0, NO_CLASS, "C"), record].concat()
}

fn with_library(classes: &[Vec<u8>]) -> Vec<u8> {
    [&LIBRARY, &classes.concat()[..]].concat()
}

/// Its IMPLEMENTS, at byte 25, comes after a MEMBER.
fn falling_library() -> Vec<u8> {
    with_library(&[member(0, "m"), implements(0)])
}

#[test]
fn one_lengths() {
    let long = [0; 32_769];
    let mut none = [];
    let mut call = |library: &[u8], user: &[u8], used| {
        judge(library, user, used, &mut none, &mut []).expect_err("refused")
    };
    assert_eq!(call(&long, &long, 40_000), refusal(1, 0, 0));
    assert_eq!(call(&LIBRARY, &long, 32_769), refusal(1, 1, 0));
    assert_eq!(call(&LIBRARY, &POINT, POINT.len() + 1), refusal(1, 1, 0));
    assert_eq!(call(&LIBRARY, &long, 0), refusal(12, 0, 0));
}

#[test]
fn two_torn_records() {
    assert_eq!(refused(&[9, 0, 4]), (2, 1, 0));
    assert_eq!(refused(&after_class(&[3, 0, 6, 0, 0])), (2, 1, AFTER));
    assert_eq!(refused(&after_class(&[6, 0, 6, 0, 0])), (2, 1, AFTER));
    assert_eq!(refused_pair(&LIBRARY[..17], &[1]), (2, 0, 0));
}

#[test]
fn three_kinds() {
    for kind in [0, 7, 9, 0x0101] {
        let user = after_class(&record(kind, &[b"body"]));
        assert_eq!(refused(&user), (3, 1, AFTER));
    }
    for kind in [0, 3, 4, 5, 6, 8, 9] {
        let library = with_library(&[record(kind, &[b"body"])]);
        assert_eq!(refused_pair(&library, &[]), (3, 0, 18));
    }
}

#[test]
fn four_lengths_of_each_kind() {
    let kinds = [
        (1, 13, 112),
        (2, 6, 6),
        (3, 11, 110),
        (4, 9, 108),
        (5, 8, 8),
        (6, 6, 6),
        (8, 8, 8),
    ];
    for (kind, least, most) in kinds {
        for length in [least - 1, most + 1] {
            let user = after_class(&record(kind, &[&vec![0xFF; length - 4]]));
            assert_eq!(refused(&user), (4, 1, AFTER), "{kind} {length}");
        }
        for length in [least, most] {
            let user = after_class(&record(kind, &[&vec![0xFF; length - 4]]));
            assert_ne!(refused(&user).0, 4, "{kind} {length}");
        }
    }
    let library = with_library(&[member(0, "")]);
    assert_eq!(refused_pair(&library, &[]), (4, 0, 18));
}

#[test]
fn five_undefined_values() {
    let mut marked = class(0, 0, 0, NO_CLASS, "D");
    marked[7] = 1;
    let records = [
        marked,
        class(1 << 8, 0, 0, NO_CLASS, "D"),
        class(0, 0, 0, NO_CLASS, "a b"),
        class(0, 0, 0, NO_CLASS, "\x7F"),
        field(8, INT, "f"),
        field(0, [0, 9, 0, 0], "f"),
        field(0, [0, 4, 1, 0], "f"),
        local([1, 8, 0, 1], "v"),
        local(INT, "\n"),
    ];
    for record in records {
        assert_eq!(refused(&after_class(&record)), (5, 1, AFTER));
    }
    for record in [class(2, 0, 0, NO_CLASS, "D"), member(2, "m")] {
        assert_eq!(refused_pair(&with_library(&[record]), &[]), (5, 0, 18));
    }
}

#[test]
fn six_comes_after_four_and_before_five() {
    assert_eq!(refused(&record(3, &[b"short"])), (4, 1, 0));
    assert_eq!(refused(&field(8, INT, "f")), (6, 1, 0));
    assert_eq!(refused_pair(&member(2, "m"), &[]), (6, 0, 0));
}

#[test]
fn seven_limits_of_classes_and_records() {
    let classes = |count: usize| -> Vec<u8> {
        let numbers = 0..count;
        numbers
            .flat_map(|n| class(0, 0, 0, NO_CLASS, &format!("C{n:03}")))
            .collect()
    };
    assert_eq!(lines(&classes(255)).len(), 255);
    assert_eq!(refused(&classes(256)), (7, 1, 255 * 16));
    assert_eq!(refused(&classes(300)), (7, 1, 255 * 16));
    let group = |records: usize| after_class(&builds(0).repeat(records - 1));
    assert_eq!(lines(&group(255)), [CLEAN]);
    assert_eq!(refused(&group(256)), (7, 1, AFTER + 254 * 6));
    assert_eq!(refused_pair(&[], &[1]), (7, 0, 0));
}

/// Document 02, C-13.
#[test]
fn sixteen_falling_kinds() {
    let rising = [
        implements(1),
        field(0, INT, "f"),
        local(INT, "v"),
        uses(1, 0),
        builds(1),
        refers(0, 0),
    ];
    for (place, low) in rising.iter().enumerate() {
        for high in &rising[place + 1..] {
            let user = after_class(&[&high[..], low].concat());
            assert_eq!(refused(&user), (16, 1, AFTER + high.len()));
        }
    }
    assert_eq!(refused_pair(&falling_library(), &[]), (16, 0, 25));
}

#[test]
fn equal_kinds_pass_and_a_class_begins_anew() {
    let library = with_library(&[
        member(1, "m").repeat(2),
        class(INTERFACE | ALLOWED, 0, NO_CLASS, NO_CLASS, "I"),
        class(0, 0, 0, NO_CLASS, "L"),
        implements(1).repeat(2),
        member(0, "m").repeat(2),
    ]);
    let group = |number, name| {
        let records = [
            implements(1),
            field(0, INT, "f"),
            local(INT, "v"),
            uses(number, 1),
            builds(number),
            refers(0, 1),
        ];
        let twice = records.map(|record| record.repeat(2)).concat();
        [class(0, 0, 0, NO_CLASS, name), twice].concat()
    };
    let user = [group(3, "C"), group(4, "D")].concat();
    assert_eq!(judged(&library, &user), Ok(vec![CLEAN, CLEAN]));
}

#[test]
fn sixteen_is_the_last_question_about_a_record() {
    let falling = [
        (2, vec![6, 0, 6, 0, 0]),
        (3, member(0, "m")),
        (4, record(6, &[b"body"])),
        (5, field(8, INT, "f")),
        (16, field(0, INT, "f")),
    ];
    for (number, record) in falling {
        let user = after_class(&[&refers(0, 0)[..], &record].concat());
        assert_eq!(refused(&user), (number, 1, AFTER + 8));
    }
    let headless = [refers(0, 0), builds(0)].concat();
    assert_eq!(refused(&headless), (6, 1, 0));
    let group = |records: usize| {
        let builds = builds(0).repeat(records - 2);
        after_class(&[builds, implements(0)].concat())
    };
    assert_eq!(refused(&group(255)), (16, 1, AFTER + 253 * 6));
    assert_eq!(refused(&group(256)), (7, 1, AFTER + 254 * 6));
}

#[test]
fn sixteen_comes_before_later_records() {
    let fall = [refers(0, 0), builds(0)].concat();
    let torn = after_class(&[&fall[..], &[1]].concat());
    assert_eq!(refused(&torn), (16, 1, AFTER + 8));
    let bad = [
        (3, member(0, "m")),
        (4, record(6, &[b"body"])),
        (5, field(8, INT, "f")),
    ];
    for (number, record) in bad {
        let later = after_class(&[&fall[..], &record].concat());
        assert_eq!(refused(&later), (16, 1, AFTER + 8));
        let earlier = after_class(&[&record[..], &fall].concat());
        assert_eq!(refused(&earlier), (number, 1, AFTER));
    }
    for user in [vec![1], fall.clone(), after_class(&fall)] {
        assert_eq!(refused_pair(&falling_library(), &user), (16, 0, 25));
    }
}

#[test]
fn sixteen_comes_after_one_and_before_the_second_pass() {
    let fall = after_class(&[refers(0, 0), builds(9)].concat());
    let marked = class(ALLOWED, 1, NO_CLASS, NO_CLASS, "O");
    for library in [with_library(&[implements(9)]), marked] {
        assert_eq!(refused_pair(&library, &fall), (16, 1, AFTER + 8));
    }
    let mut long = fall.clone();
    long.resize(32_769, 0);
    let call =
        |library: &[u8], used| judge(library, &long, used, &mut [], &mut []).expect_err("refused");
    assert_eq!(call(&falling_library(), 32_769), refusal(1, 1, 0));
    assert_eq!(call(&falling_library(), fall.len()), refusal(16, 0, 25));
    assert_eq!(call(&LIBRARY, fall.len()), refusal(16, 1, AFTER + 8));
}

#[test]
fn names_of_a_hundred_bytes() {
    let named = |length| class(0, 0, 0, NO_CLASS, &"n".repeat(length));
    assert_eq!(lines(&named(100)), [CLEAN]);
    assert_eq!(refused(&named(101)), (4, 1, 0));
}

#[test]
fn eight_form() {
    let interface = class(INTERFACE, 0, NO_CLASS, NO_CLASS, "I");
    let bad_second = [
        class(0, 0, NO_CLASS, NO_CLASS, "D"),
        class(0, 0, 1, NO_CLASS, "D"),
        class(0, 0, 2, NO_CLASS, "D"),
        class(INTERFACE, 0, 0, NO_CLASS, "D"),
        class(0, 0, 0, 0, "D"),
        class(0, 0, 0, 2, "D"),
        class(INNER, 0, 0, NO_CLASS, "D"),
    ];
    for second in bad_second {
        let user = [&interface[..], &second].concat();
        assert_eq!(refused(&user), (8, 1, AFTER));
    }
    for record in [field(0, INT, "f"), implements(0), implements(1)] {
        let user = [&interface[..], &record].concat();
        assert_eq!(refused(&user), (8, 1, AFTER));
    }
    let sibling = [
        after_class(&local(INT, "v")),
        class(0, 0, 0, NO_CLASS, "D"),
        uses(1, 0),
    ];
    assert_eq!(refused(&sibling.concat()), (8, 1, AFTER + 9 + 13));
}

#[test]
fn eight_in_the_library() {
    let object = class(INTERFACE | ALLOWED, 0, NO_CLASS, NO_CLASS, "O");
    assert_eq!(refused_pair(&object, &[]), (8, 0, 0));
    let object = class(ALLOWED, 0, 0, NO_CLASS, "O");
    assert_eq!(refused_pair(&object, &[]), (8, 0, 0));
    let interface = class(INTERFACE, 0, NO_CLASS, NO_CLASS, "I");
    // Class 2 is a user class: it is there, but it is no lower number.
    let library = with_library(&[class(0, 0, 0, NO_CLASS, "D"), implements(2)]);
    assert_eq!(refused_pair(&library, &interface), (8, 0, 31));
    assert_eq!(refused_pair(&library, &[]), (9, 0, 31));
    let enclosed = with_library(&[class(0, 0, 0, 0, "D")]);
    assert_eq!(refused_pair(&enclosed, &[]), (8, 0, 18));
}

#[test]
fn nine_what_is_not_there() {
    let records = [
        class(0, 0, 3, NO_CLASS, "D"),
        class(0, 0, 0, 3, "D"),
        class(0, 0, 9, 9, "C"),
        class(INTERFACE, 0, 0, 3, "D"),
    ];
    for record in records {
        assert_eq!(refused(&after_class(&record)), (9, 1, AFTER));
    }
    let records = [
        implements(2),
        implements(NO_CLASS),
        field(0, [0, 0, 2, 0], "f"),
        field(0, [1, 0, 0xFF, 0xFF], "f"),
        local([0, 0, 2, 0], "v"),
        uses(2, 0),
        uses(1, 0),
        uses(0, 0),
        builds(2),
        refers(0, 0),
        refers(1, 0),
        refers(2, 0),
    ];
    for record in records {
        assert_eq!(refused(&after_class(&record)), (9, 1, AFTER));
    }
}

#[test]
fn ten_names_met_before() {
    let object = class(0, 0, 0, NO_CLASS, "Object");
    assert_eq!(refused(&object), (10, 1, 0));
    let again = class(0, 0, 0, NO_CLASS, "C");
    assert_eq!(refused(&after_class(&again)), (10, 1, AFTER));
    // The form of the same record comes first, that of a later one does not.
    let second = class(0, 0, 1, 0, "C");
    assert_eq!(refused(&after_class(&second)), (8, 1, AFTER));
    let later = [&again[..], &builds(9)].concat();
    assert_eq!(refused(&after_class(&later)), (10, 1, AFTER));
}

#[test]
fn eleven_deemed_markers() {
    let object = class(ALLOWED, 1, NO_CLASS, NO_CLASS, "O");
    assert_eq!(refused_pair(&object, &[]), (11, 0, 0));
    let library = with_library(&[
        class(0, 2, 0, NO_CLASS, "P"),
        class(0, 16, 1, NO_CLASS, "Q"),
    ]);
    assert_eq!(refused_pair(&library, &[]), (11, 0, 31));
    // A user sheet's fault in the second pass comes before it.
    assert_eq!(refused_pair(&library, &after_class(&builds(9))).0, 9);
}

/// Document 02, C-16: three bytes a line, and what is left at the end belongs to none.
#[test]
fn twelve_room() {
    let two = after_class(&class(0, 0, 0, NO_CLASS, "D"));
    let call = |user: &[u8], bytes: usize, scratch: usize| {
        let mut row = vec![0xEE; bytes];
        let mut scratch = vec![0; scratch];
        judge(&LIBRARY, user, user.len(), &mut row, &mut scratch).map(|counts| {
            let past = &row[3 * counts.classes..];
            assert!(past.iter().all(|&byte| byte == 0xEE));
            counts.classes
        })
    };
    let short = Err(refusal(12, 0, 0));
    for bytes in 0..9 {
        let of_one = if bytes < 3 { short } else { Ok(1) };
        let of_two = if bytes < 6 { short } else { Ok(2) };
        assert_eq!(call(&POINT, bytes, 65_536), of_one);
        assert_eq!(call(&two, bytes, 65_536), of_two);
    }
    assert_eq!(call(&[], 0, 65_536), Ok(0));
    assert_eq!(call(&POINT, 3, 65_535), short);
}

/// For each refusal of the sheets a library sheet and a user sheet.
fn refused_pairs() -> [(u8, Vec<u8>, Vec<u8>); 14] {
    let marked = class(ALLOWED, 1, NO_CLASS, NO_CLASS, "O");
    let fall = after_class(&[builds(1), implements(1)].concat());
    [
        (1, vec![0; 32_769], vec![]),
        (1, LIBRARY.to_vec(), vec![0; 32_769]),
        (2, LIBRARY.to_vec(), after_class(&[6, 0, 6])),
        (3, LIBRARY.to_vec(), after_class(&member(0, "m"))),
        (4, LIBRARY.to_vec(), after_class(&record(6, &[b"body"]))),
        (5, LIBRARY.to_vec(), after_class(&field(8, INT, "f"))),
        (6, LIBRARY.to_vec(), builds(1)),
        (7, vec![], vec![]),
        (8, LIBRARY.to_vec(), after_class(&implements(1))),
        (9, LIBRARY.to_vec(), after_class(&builds(2))),
        (10, LIBRARY.to_vec(), class(0, 0, 0, NO_CLASS, "Object")),
        (11, marked, after_class(&builds(1))),
        (16, LIBRARY.to_vec(), fall),
        (16, falling_library(), POINT.to_vec()),
    ]
}

/// The sheets come first: each call is refused for them as judging is, whatever else it is given.
#[test]
fn every_call_meets_one_to_eleven_and_sixteen() {
    for (number, library, user) in refused_pairs() {
        let refused = judged(&library, &user).expect_err("refused");
        assert_eq!(refused.number, number);
        assert_eq!(marks(&library, &user, user.len(), 999), Err(refused));
        assert_eq!(name(&library, &user, user.len(), 999), Err(refused));
        assert_eq!(
            canonical(&library, &user, user.len(), &mut []),
            Err(refused)
        );
        let row = &mut [];
        assert_eq!(index(&library, &user, user.len(), row), Err(refused));
        assert_eq!(lookup(&library, &user, user.len(), b"", row), Err(refused));
        assert_eq!(listing(&library, &user), format!("{refused}\n"));
        let (mut buffer, mut used) = (user.clone(), user.len());
        let (bytes, length) = (&mut buffer[..], &mut used);
        let answers = [
            add(&library, bytes, length, &[], &mut [], &mut []),
            replace(&library, bytes, length, 999, &[], &mut [], &mut []),
            withdraw(&library, bytes, length, &mut []),
        ];
        assert_eq!(answers, [Err(refused); 3]);
        assert_eq!((&buffer, used), (&user, user.len()));
    }
    let (mut buffer, mut used) = (POINT, POINT.len() + 1);
    let answer = withdraw(&LIBRARY, &mut buffer, &mut used, &mut []);
    assert_eq!(answer, Err(refusal(1, 1, 0)));
}
