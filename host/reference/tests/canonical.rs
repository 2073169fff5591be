//! The user sheet in canonical form (document 02, C-15).

mod support;

use reference::{canonical, Refusal};
use support::*;

/// In each byte of an output buffer before the call.
const UNTOUCHED: u8 = 0xEE;

/// The answer and the whole output of so many bytes.
fn written(
    library: &[u8],
    user: &[u8],
    used: usize,
    room: usize,
) -> (Result<usize, Refusal>, Vec<u8>) {
    let mut out = vec![UNTOUCHED; room];
    (canonical(library, user, used, &mut out), out)
}

/// The canonical form beside a library. It is its own one, each class keeps its rule and the class
/// in which the fault sits, and each byte of the output past it stays.
fn form_beside(library: &[u8], user: &[u8]) -> Vec<u8> {
    let room = user.len() + 9;
    let (answer, mut out) = written(library, user, user.len(), room);
    let past = out.split_off(answer.expect("accepted"));
    assert_eq!(past, vec![UNTOUCHED; room - out.len()]);
    let (answer, again) = written(library, &out, out.len(), out.len());
    assert_eq!((answer, &again), (Ok(out.len()), &out));
    let kept = |sheet| -> Vec<(u8, u8)> {
        let lines = judged(library, sheet).expect("accepted");
        lines.into_iter().map(|line| (line.0, line.2)).collect()
    };
    assert_eq!(kept(&out), kept(user));
    out
}

/// The canonical form beside library L.
fn form(user: &[u8]) -> Vec<u8> {
    form_beside(&LIBRARY, user)
}

fn plain(name: &str) -> Vec<u8> {
    class(0, 0, 0, NO_CLASS, name)
}

/// Library L, interfaces 1 to 3 and class 4; class 0 has two MEMBERs and class 4 three.
fn rich_library() -> Vec<u8> {
    let interface = |name| class(INTERFACE | ALLOWED, 0, NO_CLASS, NO_CLASS, name);
    [
        LIBRARY.to_vec(),
        member(1, "m").repeat(2),
        interface("I"),
        interface("J"),
        interface("K"),
        class(ALLOWED, 0, 0, NO_CLASS, "L"),
        member(1, "m").repeat(3),
    ]
    .concat()
}

#[test]
fn each_set_ascends_without_repeats() {
    let group = |sets: [&[Vec<u8>]; 4]| {
        let head = [class(0, 0, 0, 5, "D"), sets[0].concat()];
        let kept = [
            field(0, INT, "g"),
            field(0, INT, "f"),
            local(INT, "w"),
            local(INT, "v"),
        ];
        let uses = sets[1].concat();
        let [builds, refers] = [sets[2].concat(), sets[3].concat()];
        [head.concat(), kept.concat(), uses, builds, refers].concat()
    };
    let outer = [plain("C"), local(INT, "v").repeat(2)].concat();
    let loose = group([
        &[3, 1, 3, 2].map(implements),
        &[(6, 1), (5, 1), (6, 0), (5, 0), (5, 1)].map(|(class, index)| uses(class, index)),
        &[6, 0, 5, 6, 0].map(builds),
        &[(4, 2), (4, 0), (0, 1), (4, 2), (4, 2)].map(|(class, index)| refers(class, index)),
    ]);
    let tidy = group([
        &[1, 2, 3].map(implements),
        &[(5, 0), (5, 1), (6, 0), (6, 1)].map(|(class, index)| uses(class, index)),
        &[0, 5, 6].map(builds),
        &[(0, 1), (4, 0), (4, 2)].map(|(class, index)| refers(class, index)),
    ]);
    let found = form_beside(&rich_library(), &[&outer[..], &loose].concat());
    assert_eq!(found, [outer, tidy].concat());
}

#[test]
fn numbers_ascend_over_all_their_range() {
    let group = |classes: &mut dyn Iterator<Item = u16>| {
        let mut group = plain("C000");
        classes.for_each(|class| group.extend(builds(class)));
        group
    };
    let others = (1..255).flat_map(|n| plain(&format!("C{n:03}")));
    let others: Vec<u8> = others.collect();
    let sheet = |first: Vec<u8>| [first, others.clone()].concat();
    let falling = sheet(group(&mut (2..256).rev()));
    assert_eq!(form(&falling), sheet(group(&mut (2..256))));
    let locals = [plain("C"), local(INT, "v").repeat(120)].concat();
    let falling: Vec<u8> = (0..120).rev().flat_map(|index| uses(1, index)).collect();
    let rising: Vec<u8> = (0..120).flat_map(|index| uses(1, index)).collect();
    let found = form(&[&locals[..], &falling].concat());
    assert_eq!(found, [locals, rising].concat());
}

#[test]
fn classes_come_before_indexes() {
    let library = rich_library();
    let ordered = [refers(0, 1), refers(4, 0)].concat();
    let other = [refers(4, 0), refers(0, 1)].concat();
    for refers in [&ordered, &other] {
        let user = [&plain("C")[..], refers].concat();
        assert_eq!(
            form_beside(&library, &user),
            [&plain("C")[..], &ordered].concat()
        );
    }
}

/// USES name them by number, and lines by place.
#[test]
fn fields_and_locals_stay_as_they_stand() {
    let fields = [
        field(0, INT, "z"),
        field(STATIC, INT_ARRAY, "a"),
        field(0, INT, "z"),
        field(0, INT, "a"),
    ];
    let locals = [
        local(OBJECT, "z"),
        local(INT, "a"),
        local(OBJECT, "z"),
        local(OBJECT, "z"),
    ];
    let user = [plain("C"), fields.concat(), locals.concat(), uses(1, 3)].concat();
    assert_eq!(form(&user), user);
}

#[test]
fn each_group_has_its_own_sets() {
    let user = [plain("C"), builds(1), plain("D"), builds(1), builds(1)];
    let tidy = [plain("C"), builds(1), plain("D"), builds(1)];
    assert_eq!(form(&user.concat()), tidy.concat());
}

#[test]
fn every_order_of_one_class_has_one_form() {
    let rows = [builds(0), builds(1), builds(2), refers(0, 1), refers(4, 0)];
    let library = rich_library();
    let sheet = |picks: &[usize]| {
        let mut rows: Vec<_> = picks.iter().map(|&pick| rows[pick].clone()).collect();
        rows.sort_by_key(|record| record[2]);
        [plain("C"), rows.concat()].concat()
    };
    let tidy = sheet(&[0, 1, 2, 3, 4]);
    let orders = [
        &[4, 3, 2, 1, 0][..],
        &[2, 0, 1, 4, 3],
        &[1, 2, 0, 1, 3, 2, 4, 3],
        &[0, 1, 2, 3, 4, 4, 4, 0],
    ];
    for order in orders {
        assert_eq!(form_beside(&library, &sheet(order)), tidy);
    }
    assert_ne!(form_beside(&library, &sheet(&[0, 1, 3, 4])), tidy);
}

/// The line moves from record 3 to record 1; its rule stays.
#[test]
fn a_place_may_move() {
    let library = [&LIBRARY[..], &class(0, 0, 0, NO_CLASS, "S")].concat();
    let user = [
        class(0, 0, 0, NO_CLASS, "C"),
        builds(2).repeat(2),
        builds(1),
    ]
    .concat();
    let tidy = form_beside(&library, &user);
    assert_eq!(judged(&library, &user), Ok(vec![(1, 3, 2)]));
    assert_eq!(judged(&library, &tidy), Ok(vec![(1, 1, 2)]));
}

/// Document 02, C-16: so may one in another class, here that of a field and of a variable.
#[test]
fn a_place_elsewhere_may_move() {
    let library = rich_library();
    let user = |interfaces: &[u16]| {
        let interfaces: Vec<_> = interfaces.iter().flat_map(|&i| implements(i)).collect();
        [
            plain("C"),
            interfaces.clone(),
            field(0, INT, "f"),
            plain("D"),
            interfaces,
            local(OBJECT, "v"),
            class(0, 1, 5, NO_CLASS, "E"),
            class(0, 1, 0, 6, "F"),
            uses(6, 0),
        ]
        .concat()
    };
    let (loose, tidy) = (user(&[2, 1, 2]), user(&[1, 2]));
    assert_eq!(form_beside(&library, &loose), tidy);
    let lines = |place| Ok(vec![CLEAN, CLEAN, (7, place, 5), (7, place, 6)]);
    assert_eq!(judged(&library, &loose), lines(4));
    assert_eq!(judged(&library, &tidy), lines(3));
}

#[test]
fn what_is_in_canonical_form_stays() {
    assert_eq!(form(&POINT), POINT);
    assert_eq!(form(&[]), []);
    let user = [plain("C"), builds(0), builds(1), plain("D"), builds(0)].concat();
    assert_eq!(form(&user), user);
}

/// The used length says where the sheet ends, and the library is neither tidied nor written.
#[test]
fn only_the_bytes_in_use_are_read() {
    let user = [plain("C"), builds(1), builds(0), builds(0)].concat();
    let (answer, out) = written(&LIBRARY, &user, 25, 25);
    assert_eq!(
        (answer, out),
        (Ok(25), [plain("C"), builds(0), builds(1)].concat())
    );
    let (answer, out) = written(&LIBRARY, &user, 13, 20);
    assert_eq!(answer, Ok(13));
    assert_eq!(out, [plain("C"), vec![UNTOUCHED; 7]].concat());
    let (answer, out) = written(&LIBRARY, &user, 0, 2);
    assert_eq!((answer, out), (Ok(0), vec![UNTOUCHED; 2]));
    let interface = |name| class(INTERFACE | ALLOWED, 0, NO_CLASS, NO_CLASS, name);
    let library = [
        &LIBRARY[..],
        &interface("I"),
        &interface("J"),
        &implements(1).repeat(2),
    ];
    assert_eq!(form_beside(&library.concat(), &POINT), POINT);
}

/// What counts is the length to be written.
#[test]
fn fifteen_a_short_output() {
    let user = [plain("C"), builds(0).repeat(3)].concat();
    for room in 0..25 {
        let (answer, out) = written(&LIBRARY, &user, user.len(), room);
        if room < 19 {
            assert_eq!(answer, Err(refusal(15, 0, 0)));
            assert_eq!(out, vec![UNTOUCHED; room]);
        } else {
            assert_eq!(answer, Ok(19));
            let tidy = [plain("C"), builds(0), vec![UNTOUCHED; room - 19]];
            assert_eq!(out, tidy.concat());
        }
    }
}

#[test]
fn fifteen_comes_last() {
    let falling = [plain("C"), refers(0, 0), builds(0)].concat();
    let missing = [plain("C"), builds(2)].concat();
    let expected = [
        (&falling, refusal(16, 1, 13 + 8)),
        (&missing, refusal(9, 1, 13)),
        (&plain("Object"), refusal(10, 1, 0)),
    ];
    for (user, refusal) in expected {
        for room in [0, 60] {
            let (answer, out) = written(&LIBRARY, user, user.len(), room);
            assert_eq!((answer, out), (Err(refusal), vec![UNTOUCHED; room]));
        }
    }
    let (answer, out) = written(&LIBRARY, &POINT, POINT.len() + 1, 60);
    assert_eq!((answer, out), (Err(refusal(1, 1, 0)), vec![UNTOUCHED; 60]));
}
