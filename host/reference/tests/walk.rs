//! Where a fault sits (document 02, C-16): the first one in the walk from a class upward.

mod support;

use support::*;

const IMMUTABLE: u8 = 1;
const POWERLESS: u8 = 2;
const SELFLESS: u8 = 4;
const DEEP_SELFLESS: u8 = 128;
const OVERRIDES_BOTH: u16 = 0b1100;
const TRANSIENT: u16 = 2;

/// A class below class 0.
fn plain(own: u8, name: &str) -> Vec<u8> {
    class(0, own, 0, NO_CLASS, name)
}

/// A class inside another one.
fn inside(encloser: u16, own: u8, name: &str) -> Vec<u8> {
    class(0, own, 0, encloser, name)
}

/// A class below another one.
fn below(superclass: u16, own: u8, name: &str) -> Vec<u8> {
    class(0, own, superclass, NO_CLASS, name)
}

fn object(class: u8) -> [u8; 4] {
    [0, 0, class, 0]
}

/// A variable, and a class inside its owner that uses it.
fn captured_variable(inner_own: u8) -> Vec<u8> {
    let owner = [plain(0, "A"), local(OBJECT, "v")];
    [owner.concat(), inside(1, inner_own, "B"), uses(1, 0)].concat()
}

/// The line of the last class.
fn last_line(user: &[u8]) -> Line {
    *lines(user).last().expect("a class")
}

#[test]
fn an_encloser_fault_sits_in_the_class_that_is_inner() {
    let user = [
        plain(0, "A"),
        class(INNER, 0, 0, 1, "B"),
        below(2, IMMUTABLE, "D"),
    ];
    assert_eq!(lines(&user.concat()), [CLEAN, CLEAN, (7, 0, 2)]);
}

#[test]
fn a_captured_fault_sits_at_the_local_in_its_owner() {
    assert_eq!(lines(&captured_variable(IMMUTABLE)), [CLEAN, (7, 1, 1)]);
}

#[test]
fn variables_come_by_owner() {
    let user = [
        plain(0, "A"),
        local(OBJECT, "v"),
        inside(1, 0, "B"),
        local(OBJECT, "w"),
        inside(2, IMMUTABLE, "D"),
        uses(2, 0),
        uses(1, 0),
    ];
    assert_eq!(lines(&user.concat()), [CLEAN, CLEAN, (7, 1, 1)]);
}

#[test]
fn variables_of_an_owner_come_by_index() {
    let user = [
        plain(0, "A"),
        local(OBJECT, "v").repeat(3),
        inside(1, IMMUTABLE, "B"),
        uses(1, 2),
        uses(1, 1),
    ];
    assert_eq!(last_line(&user.concat()), (7, 2, 1));
}

/// Class 2 uses index 1 through the class that it builds, and index 0 through a longer chain.
#[test]
fn a_lower_index_comes_first_whatever_the_chain() {
    let user = [
        plain(0, "A"),
        local(OBJECT, "v").repeat(2),
        inside(1, IMMUTABLE, "B"),
        builds(3),
        builds(4),
        inside(1, IMMUTABLE, "C"),
        uses(1, 1),
        inside(1, 0, "D"),
        builds(5),
        inside(1, 0, "E"),
        uses(1, 0),
    ];
    let expected = [CLEAN, (7, 1, 1), (7, 2, 1), CLEAN, CLEAN];
    assert_eq!(lines(&user.concat()), expected);
}

/// The same with owners: the nearer class uses the inner one's variable.
#[test]
fn a_lower_owner_comes_first_whatever_the_chain() {
    let user = [
        plain(0, "A"),
        local(OBJECT, "v"),
        inside(1, 0, "B"),
        local(OBJECT, "w"),
        inside(2, IMMUTABLE, "C"),
        uses(2, 0),
        builds(4),
        inside(2, 0, "D"),
        builds(5),
        // Not inside class 2, so it ends the chains of class 2's variable.
        inside(1, 0, "E"),
        uses(1, 0),
    ];
    assert_eq!(lines(&user.concat())[2], (7, 1, 1));
}

/// The record number counts all records, the index LOCALs alone.
#[test]
fn a_field_before_the_local_counts() {
    let user = [
        plain(0, "A"),
        field(0, INT, "f"),
        local(OBJECT, "v"),
        inside(1, IMMUTABLE, "B"),
        uses(1, 0),
    ];
    assert_eq!(lines(&user.concat()), [CLEAN, (7, 2, 1)]);
}

#[test]
fn a_variable_that_fits_is_no_fault() {
    let user = [
        plain(0, "A"),
        local(INT, "i"),
        local(OBJECT, "v"),
        inside(1, IMMUTABLE, "B"),
        uses(1, 0),
        uses(1, 1),
    ];
    assert_eq!(lines(&user.concat()), [CLEAN, (7, 2, 1)]);
}

#[test]
fn superclasses_capture_wherever_the_class_lies() {
    let user = [captured_variable(0), below(2, IMMUTABLE, "C")];
    assert_eq!(lines(&user.concat()), [CLEAN, CLEAN, (7, 1, 1)]);
}

#[test]
fn all_of_a_class_comes_before_its_superclass() {
    let superclass = [plain(0, "A"), class(INNER, 0, 0, 1, "B")].concat();
    let own_field = [below(2, IMMUTABLE, "D"), field(0, INT, "f")].concat();
    let user = [superclass, own_field].concat();
    assert_eq!(lines(&user), [CLEAN, CLEAN, (7, 1, 3)]);
    let inherited = [plain(0, "A"), field(0, INT, "f")].concat();
    let second = [
        below(1, IMMUTABLE, "B"),
        field(FINAL, INT, "f"),
        field(0, INT, "g"),
    ];
    assert_eq!(
        lines(&[inherited, second.concat()].concat()),
        [CLEAN, (7, 2, 2)]
    );
    // A variable that the class captures, before a field of its superclass.
    let user = [
        plain(0, "A"),
        local(OBJECT, "v"),
        plain(0, "B"),
        field(0, INT, "f"),
        class(0, IMMUTABLE, 2, 1, "C"),
        uses(1, 0),
    ];
    assert_eq!(last_line(&user.concat()), (7, 1, 1));
}

#[test]
fn nearer_superclasses_come_first() {
    let user = |second: u16, third: u16| {
        let rows = [
            plain(0, "A"),
            field(0, INT, "f"),
            below(1, 0, "B"),
            field(second, INT, "f"),
            below(2, 0, "C"),
            field(third, INT, "f"),
            below(3, IMMUTABLE, "D"),
        ];
        rows.concat()
    };
    assert_eq!(last_line(&user(0, 0)), (7, 1, 3));
    assert_eq!(last_line(&user(0, FINAL)), (7, 1, 2));
    assert_eq!(last_line(&user(FINAL, FINAL)), (7, 1, 1));
}

#[test]
fn in_a_class_come_encloser_fields_captured_variables() {
    let line = |encloser: u16, flags: u16| {
        let user = [
            plain(0, "A"),
            local(OBJECT, "v"),
            inside(1, POWERLESS, "B"),
            class(INNER, IMMUTABLE, 0, encloser, "C"),
            field(FINAL, INT, "f"),
            field(flags, INT, "g"),
            uses(1, 0),
        ];
        last_line(&user.concat())
    };
    // Class 2 is Powerless, so an encloser that is no fault.
    assert_eq!(line(1, 0), (7, 0, 3));
    assert_eq!(line(2, 0), (7, 2, 3));
    assert_eq!(line(2, FINAL), (7, 1, 1));
}

#[test]
fn the_order_of_the_walk() {
    let user = [
        plain(0, "A"),
        local(OBJECT, "v"),
        inside(1, IMMUTABLE, "B"),
        field(0, INT, "x"),
        uses(1, 0),
        plain(SELFLESS, "C"),
        field(0, INT, "x"),
    ];
    assert_eq!(lines(&user.concat()), [CLEAN, (7, 1, 2), (9, 1, 3)]);
}

#[test]
fn a_root_fault_names_the_root() {
    let library = [&LIBRARY[..], &class(ALLOWED, 0, 0, NO_CLASS, "B")].concat();
    let user = below(1, IMMUTABLE, "A");
    assert_eq!(judged(&library, &user), Ok(vec![(7, 0, 1)]));
    let twice = [below(1, 0, "A"), below(2, POWERLESS, "C")].concat();
    assert_eq!(judged(&library, &twice), Ok(vec![CLEAN, (7, 0, 1)]));
}

/// The walk ends at the first library class.
#[test]
fn the_root_is_the_first_library_class() {
    let library = [
        LIBRARY.to_vec(),
        class(ALLOWED, 0, 0, NO_CLASS, "B"),
        class(ALLOWED, IMMUTABLE, 1, NO_CLASS, "C"),
        class(ALLOWED, 0, 1, NO_CLASS, "D"),
    ];
    let library = library.concat();
    let user = [below(2, IMMUTABLE, "E"), below(3, IMMUTABLE, "F")].concat();
    assert_eq!(judged(&library, &user), Ok(vec![CLEAN, (7, 0, 3)]));
}

#[test]
fn a_root_fault_comes_after_all_slots() {
    let library = [&LIBRARY[..], &class(ALLOWED, 0, 0, NO_CLASS, "B")].concat();
    let user = [
        below(1, 0, "A"),
        field(0, INT, "f"),
        below(2, IMMUTABLE, "C"),
    ];
    assert_eq!(judged(&library, &user.concat()), Ok(vec![CLEAN, (7, 1, 2)]));
}

#[test]
fn rule_9_comes_to_its_second_part_last() {
    let own = [plain(SELFLESS, "A"), field(0, INT, "a")].concat();
    assert_eq!(lines(&own), [(9, 1, 1)]);
    let none = [plain(SELFLESS, "A"), field(FINAL, INT, "a")].concat();
    assert_eq!(lines(&none), [(9, 0, 1)]);
    // Inherited fields, too, come before it.
    let inherited = |flags| {
        let base = [plain(0, "A"), field(flags, INT, "a")].concat();
        lines(&[base, below(1, SELFLESS, "B")].concat())
    };
    assert_eq!(inherited(0), [CLEAN, (9, 1, 1)]);
    assert_eq!(inherited(FINAL | TRANSIENT), [CLEAN, (9, 1, 1)]);
    assert_eq!(inherited(FINAL), [CLEAN, (9, 0, 2)]);
}

#[test]
fn a_field_that_a_selfless_class_inherits() {
    let user = [
        class(OVERRIDES_BOTH, SELFLESS, 0, NO_CLASS, "A"),
        field(0, INT, "a"),
        below(1, 0, "B"),
    ];
    assert_eq!(lines(&user.concat()), [(9, 1, 1), (9, 1, 1)]);
}

/// The second part is about the judged class alone: its subclass is below a Selfless class.
#[test]
fn the_second_part_is_not_inherited() {
    let user = [plain(SELFLESS, "A"), below(1, 0, "B")].concat();
    assert_eq!(lines(&user), [(9, 0, 1), CLEAN]);
}

/// Rule 9 asks nothing of enclosers, captured variables and roots.
#[test]
fn rule_9_asks_about_fields_alone() {
    let library = [&LIBRARY[..], &class(ALLOWED, 0, 0, NO_CLASS, "L")].concat();
    let user = [
        plain(0, "A"),
        local(OBJECT, "v"),
        class(INNER | OVERRIDES_BOTH, SELFLESS, 0, 2, "B"),
        field(FINAL, OBJECT, "f"),
        uses(2, 0),
        below(1, SELFLESS, "C"),
    ];
    let expected = vec![CLEAN, CLEAN, (9, 0, 4)];
    assert_eq!(judged(&library, &user.concat()), Ok(expected));
}

/// Library L and three classes: Immutable, Powerless, and Powerless and DeepSelfless.
fn marked_library() -> Vec<u8> {
    let markers = [IMMUTABLE, POWERLESS, POWERLESS | DEEP_SELFLESS];
    let names = ["M1", "M2", "M3"];
    let marked = markers.into_iter().zip(names);
    let classes = marked.flat_map(|(own, name)| class(ALLOWED, own, 0, NO_CLASS, name));
    LIBRARY.into_iter().chain(classes).collect()
}

#[test]
fn each_rule_looks_for_its_own_marker() {
    let line = |own: u8, second: u8| {
        let user = [
            plain(0, "A"),
            local(object(3), "v"),
            local(object(second), "v"),
            class(OVERRIDES_BOTH, own, 0, 4, "B"),
            uses(4, 0),
            uses(4, 1),
            below(5, 0, "C"),
        ];
        let lines = judged(&marked_library(), &user.concat()).expect("accepted");
        assert_eq!(lines[1], lines[2]);
        lines[2]
    };
    let all = POWERLESS | DEEP_SELFLESS;
    assert_eq!(line(all, 0), (7, 2, 4));
    assert_eq!(line(all, 1), (8, 2, 4));
    assert_eq!(line(all, 2), (10, 2, 4));
    assert_eq!(line(all, 3), CLEAN);
    assert_eq!(line(POWERLESS, 2), CLEAN);
    assert_eq!(line(IMMUTABLE, 1), CLEAN);
}

/// Field 1 breaks rule 8 and field 2 rule 7.
#[test]
fn the_lowest_rule_comes_before_the_walk() {
    let user = [
        plain(POWERLESS, "A"),
        field(FINAL, object(1), "f"),
        field(FINAL, object(0), "g"),
    ];
    let lines = judged(&marked_library(), &user.concat());
    assert_eq!(lines, Ok(vec![(7, 2, 4)]));
}

#[test]
fn the_first_six_rules_sit_in_the_class_itself() {
    let library = [
        LIBRARY.to_vec(),
        member(0, "m"),
        class(0, 0, 0, NO_CLASS, "S"),
    ];
    let library = library.concat();
    let line = |rows: &[Vec<u8>]| {
        let user = [&[plain(0, "First")], rows].concat().concat();
        let lines = judged(&library, &user).expect("accepted");
        assert_eq!(lines.len(), 2);
        lines[1]
    };
    let fields = [field(0, INT, "f"), field(0, object(1), "f")].concat();
    assert_eq!(line(&[plain(0, "C"), fields]), (1, 2, 3));
    assert_eq!(line(&[below(1, 0, "C")]), (1, 0, 3));
    assert_eq!(line(&[plain(0, "C"), builds(3), refers(0, 0)]), (2, 2, 3));
    assert_eq!(line(&[plain(64, "C")]), (3, 0, 3));
    assert_eq!(line(&[plain(SELFLESS | 8, "C")]), (4, 0, 3));
    let constants = [FINAL | STATIC, STATIC].map(|flags| field(flags, INT, "f"));
    assert_eq!(line(&[plain(0, "C"), constants.concat()]), (5, 2, 3));
    assert_eq!(line(&[class(1 << 5, 0, 0, NO_CLASS, "C")]), (6, 0, 3));
}

/// What a superclass breaks of the first six is its own affair.
#[test]
fn the_first_six_rules_are_not_inherited() {
    let user = [
        class(1 << 6, 0, 0, NO_CLASS, "A"),
        field(STATIC, INT, "f"),
        below(1, IMMUTABLE, "B"),
    ];
    assert_eq!(lines(&user.concat()), [(5, 1, 1), CLEAN]);
}
