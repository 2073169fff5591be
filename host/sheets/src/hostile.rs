//! Sheets that are accepted and cost as much as they can.

use crate::build::*;
use crate::homes::names_of_one_home;
use crate::rings::*;

type Maker = fn() -> Pair;

pub const ALL: &[(&str, Maker)] = &[
    ("interface_diamonds", interface_diamonds),
    ("nested_chains", nested_chains),
    ("field_chains", field_chains),
    ("superclass_chain", superclass_chain),
    ("interface_chain", interface_chain),
    ("both_chains", both_chains),
    ("library_chain", library_chain),
    ("faulted_chains", faulted_chains),
    ("builds_rings_zigzag", || nested_rings(zigzag(CHAIN))),
    ("builds_rings_rising", || nested_rings(rising(CHAIN))),
    ("builds_rings_falling", || nested_rings(falling(CHAIN))),
    ("builds_rings_owners", ring_below_owners),
    ("captured_far_zigzag", || captured_far(zigzag(CHAIN))),
    ("captured_far_rising", || captured_far(rising(CHAIN))),
    ("captured_far_falling", || captured_far(falling(CHAIN))),
    ("captured_far_owners_zigzag", || captured_far_owners(zigzag)),
    ("captured_far_owners_rising", || captured_far_owners(rising)),
    ("captured_far_owners_falling", || {
        captured_far_owners(falling)
    }),
    ("faulted_rings", faulted_rings),
    ("dense_references", dense_references),
    ("spread_references", spread_references),
    ("equal_prefixes", equal_prefixes),
    ("one_home", one_home),
    ("equal_prefixes_one_home", equal_prefixes_one_home),
    ("most_records", most_records),
    ("last_member", last_member),
    ("last_local", last_local),
    ("deep_uses", deep_uses),
    ("spread_pairs", spread_pairs),
];

/// Each of 100 interfaces extends all lower ones, in both sheets; classes implement the highest.
fn interface_diamonds() -> Pair {
    const INTERFACES: usize = 100;
    let mut library = object_only();
    diamonds(&mut library, 1, INTERFACES, ALLOWED);
    let mut user = Sheet::new();
    let first = 1 + INTERFACES;
    diamonds(&mut user, first, INTERFACES, 0);
    let last = first + INTERFACES - 1;
    for class in last + 1..256 {
        if user.fits(12 + SHORT + 6) {
            let head = Class::below(0).flags(BY_VALUE);
            user.class(head, &short_name(class)).implements(last);
        }
    }
    (library, user)
}

/// The lowest interface extends the one below it, so that both sheets' diamonds meet.
fn diamonds(sheet: &mut Sheet, first: usize, count: usize, flags: u16) {
    for class in first..first + count {
        let own = if class == 1 {
            POWERLESS | DEEP_SELFLESS
        } else {
            0
        };
        let head = Class::interface().flags(flags).own(own);
        sheet.class(head, &short_name(class));
        if class == first && first > 1 {
            sheet.implements(first - 1);
        }
        for lower in first..class {
            sheet.implements(lower);
        }
    }
}

/// Superclass chains times encloser chains: each class lies in the one before it, is inner, is
/// its subclass, builds the next and uses variables of the outermost class. All markers are asked,
/// and the captured variables lack only the one that is asked last.
fn nested_chains() -> Pair {
    const LOCALS: usize = 8;
    let mut library = object_only();
    library.class(Class::below(0).flags(ALLOWED).own(POWERLESS), b"Powerless");
    let first = 2;
    let mut user = Sheet::new();
    for class in first..256 {
        let flags = if class == first { BY_VALUE } else { INNER };
        let superclass = if class == first { 0 } else { class - 1 };
        let mut head = Class::below(superclass).flags(flags);
        head.own = POWERLESS | DEEP_SELFLESS;
        if class > first {
            head = head.inside(class - 1);
        }
        user.class(head, &short_name(class));
        user.field(FINAL, object(class), b"f");
        user.field(FINAL, object(first), b"g");
        let locals = if class == first { LOCALS } else { 1 };
        for _ in 0..locals {
            user.local(object(1), b"v");
        }
        for index in 0..LOCALS {
            if class > first && index % 2 == class % 2 {
                user.uses(first, index);
            }
        }
        for step in 1..=7 {
            user.builds(if class + step < 256 {
                class + step
            } else {
                class
            });
        }
    }
    fill_last_group(&mut user);
    (library, user)
}

/// A long superclass chain with many fields in each class, all markers asked and all clean.
fn field_chains() -> Pair {
    const FIELDS: usize = 10;
    let mut user = Sheet::new();
    for class in 1..=CHAIN {
        let flags = if class == 1 { BY_VALUE } else { 0 };
        let head = Class::below(class - 1).flags(flags);
        let own = POWERLESS | DEEP_SELFLESS;
        user.class(head.own(own), &short_name(class));
        for field in 0..FIELDS {
            let ty = object(1 + (class * 7 + field * 31) % CHAIN);
            user.field(FINAL, ty, b"f");
        }
    }
    fill_last_group(&mut user);
    (object_only(), user)
}

/// A superclass chain of all classes. The first has the markers that all are asked for, and the
/// fields stand as near to it as they can, so that most classes inherit them.
fn superclass_chain() -> Pair {
    let mut user = Sheet::new();
    for class in 1..=CHAIN {
        user.class(chained(class, 1), &short_name(class));
        fill_with_fields(&mut user, FINAL, (CHAIN - class) * (12 + SHORT));
    }
    (object_only(), user)
}

/// A chain of interfaces that each extend the one before, and a class at its end, which is the
/// type of all fields.
fn interface_chain() -> Pair {
    let mut user = Sheet::new();
    for class in 1..CHAIN {
        chained_interface(&mut user, class);
        fill_with_fields(
            &mut user,
            STATIC | FINAL,
            (CHAIN - class) * (12 + SHORT + 6),
        );
    }
    user.class(Class::below(0).flags(BY_VALUE), &short_name(CHAIN));
    user.implements(CHAIN - 1);
    (object_only(), user)
}

/// A superclass chain through the whole library, and constants in the two classes at its end.
fn library_chain() -> Pair {
    const LIBRARY: usize = CHAIN - 1;
    let mut library = object_only();
    for class in 1..LIBRARY {
        library.class(Class::below(class - 1).flags(ALLOWED), &short_name(class));
    }
    let mut user = Sheet::new();
    for class in [LIBRARY, LIBRARY + 1] {
        user.class(Class::below(class - 1), &short_name(class));
        for _ in 0..200 {
            if user.fits(FIELD_LENGTHS.0) {
                user.constant(user.room());
            }
        }
    }
    (library, user)
}

/// A chain of interfaces and a superclass chain, whose classes implement them from the last to the
/// first, so that one way up leads through all of both.
fn both_chains() -> Pair {
    const INTERFACES: usize = CHAIN / 2;
    const FIRST: usize = INTERFACES + 1;
    let mut user = Sheet::new();
    for class in 1..=INTERFACES {
        chained_interface(&mut user, class);
    }
    for class in FIRST..=CHAIN {
        user.class(chained(class, FIRST), &short_name(class));
        user.implements((CHAIN - class).max(1));
        fill_with_fields(&mut user, FINAL, (CHAIN - class) * (12 + SHORT + 6));
    }
    (object_only(), user)
}

/// A class of a superclass chain; its first one has all markers that rules ask for.
fn chained(class: usize, first: usize) -> Class {
    if class > first {
        return Class::below(class - 1);
    }
    let own = POWERLESS | DEEP_SELFLESS;
    Class::below(0).flags(BY_VALUE).own(own)
}

/// An interface of a chain from 1 on; its first one has all markers that rules ask for.
fn chained_interface(user: &mut Sheet, class: usize) {
    let own = POWERLESS | DEEP_SELFLESS;
    match class {
        1 => user.class(Class::interface().own(own), &short_name(class)),
        _ => {
            user.class(Class::interface(), &short_name(class));
            user.implements(class - 1)
        }
    };
}

/// Fields of the last class's type, as many as leave room for what comes later.
fn fill_with_fields(user: &mut Sheet, flags: u16, later: usize) {
    while user.fits(11 + later) {
        user.field(flags, object(CHAIN), b"f");
    }
}

/// Faults behind much that is sound: a superclass chain of all classes, the fields near its first
/// one, whose last field breaks rule 10 and no other. Each class meets it after all that it has
/// inherited.
fn faulted_chains() -> Pair {
    let mut library = object_only();
    library.class(Class::below(0).flags(ALLOWED).own(POWERLESS), b"Powerless");
    let (powerless, first) = (1, 2);
    let mut user = Sheet::new();
    for class in first..=CHAIN {
        user.class(chained(class, first), &short_name(class));
        if class == first {
            for _ in 2..GROUP_LIMIT {
                user.field(FINAL, object(CHAIN), b"f");
            }
            user.field(FINAL, object(powerless), b"f");
        }
        fill_with_fields(&mut user, FINAL, (CHAIN - class) * (12 + SHORT));
    }
    (library, user)
}

/// BUILDS records up to the end of the sheet or of the group.
fn fill_last_group(user: &mut Sheet) {
    while user.fits(6) {
        user.builds(0);
    }
}

/// As many classes as can each build all others, one inside the other.
fn dense_references() -> Pair {
    const CLASSES: usize = 71;
    let mut user = Sheet::new();
    for class in 1..=CLASSES {
        let head = Class::below(0).own(POWERLESS | DEEP_SELFLESS);
        let head = match class {
            1 => head,
            _ => head.inside(class - 1),
        };
        user.class(head.flags(BY_VALUE), &short_name(class));
        match class {
            1 => user.local(object(0), b"v"),
            _ => user.uses(1, 0),
        };
        for other in (1..=CLASSES).rev() {
            user.builds(other);
        }
    }
    fill_last_group(&mut user);
    (object_only(), user)
}

/// 255 classes that name each other in strides, by each kind of record that can.
fn spread_references() -> Pair {
    let mut user = Sheet::new();
    for class in 1..=CHAIN {
        user.class(Class::below(0), &short_name(class));
        let other = |stride: usize| 1 + (class + stride * stride) % CHAIN;
        for stride in 1..=3 {
            user.field(FINAL, object(other(stride)), b"f");
        }
        for stride in 4..=6 {
            user.local(object(other(stride)).array(), b"v");
        }
        for stride in 7..=15 {
            user.builds(other(stride));
        }
    }
    fill_last_group(&mut user);
    (object_only(), user)
}

/// What all of the longest names begin with; they differ in the last three bytes.
const PREFIX: [u8; NAME_LIMIT - 3] = [b'n'; NAME_LIMIT - 3];

/// 256 names of 100 bytes that differ in the last three, over both sheets.
fn equal_prefixes() -> Pair {
    let name = |class: usize| [&PREFIX, format!("{class:03}").as_bytes()].concat();
    let names: Vec<_> = (0..CLASS_LIMIT).map(name).collect();
    over_both_sheets(&names)
}

/// The same, and in an index each class passes all before it.
fn equal_prefixes_one_home() -> Pair {
    over_both_sheets(&names_of_one_home(&PREFIX))
}

/// Half of the classes in each sheet.
fn over_both_sheets(names: &[Vec<u8>]) -> Pair {
    const HALF: usize = CLASS_LIMIT / 2;
    let (of_library, of_user) = names.split_at(HALF);
    let mut library = Sheet::new();
    let mut user = Sheet::new();
    for (class, name) in of_library.iter().enumerate() {
        let head = match class {
            0 => Class::object(),
            _ => Class::below(0).flags(ALLOWED),
        };
        library.class(head, name);
        library.member(true, &[b'm'; NAME_LIMIT]);
    }
    for (class, name) in (HALF..).zip(of_user) {
        user.class(Class::below(0), name);
        user.field(FINAL, INT, &[b'f'; NAME_LIMIT]);
        user.builds(class).refers(class % HALF, 0);
    }
    while user.fits(110) {
        user.field(FINAL, INT, &[b'f'; NAME_LIMIT]);
    }
    user.order_group();
    (library, user)
}

/// 256 short names for which an index has one home: each class passes all before it.
fn one_home() -> Pair {
    let names = names_of_one_home(b"");
    let mut library = Sheet::new();
    library.class(Class::object(), &names[0]);
    let mut user = Sheet::new();
    for name in &names[1..] {
        user.class(Class::below(0), name);
        user.field(FINAL, INT, &[b'f'; NAME_LIMIT]);
    }
    (library, user)
}

/// The shortest records, as many as fit in both sheets.
fn most_records() -> Pair {
    let mut library = object_only();
    library.class(Class::interface().flags(ALLOWED), b"Interface");
    while library.fits_group() {
        let class = library.classes();
        library.class(Class::below(0).flags(ALLOWED), &short_name(class));
        while library.fits(6) {
            library.implements(1);
        }
    }
    let mut user = Sheet::new();
    while user.fits_group() {
        let class = library.classes() + user.classes();
        user.class(Class::below(0).own(IMMUTABLE), &short_name(class));
        while user.fits(6) {
            user.builds(class);
        }
    }
    (library, user)
}

impl Sheet {
    /// Is there room for a class with a short name and one record?
    fn fits_group(&self) -> bool {
        self.room() >= 12 + SHORT + 6
    }
}

/// Library classes with 254 members, the last one referred to.
fn last_member() -> Pair {
    const MEMBERS: usize = GROUP_LIMIT - 1;
    let mut library = object_only();
    while library.room() >= 12 + SHORT + 7 * MEMBERS {
        let class = library.classes();
        library.class(Class::below(0).flags(ALLOWED), &short_name(class));
        for _ in 0..MEMBERS {
            library.member(true, b"m");
        }
    }
    let owners = library.classes() - 1;
    let mut user = Sheet::new();
    while user.room() >= 12 + SHORT + 8 {
        let class = library.classes() + user.classes();
        user.class(Class::below(0), &short_name(class));
        let mut turn = class;
        while user.fits(8) {
            user.refers(1 + turn % owners, MEMBERS - 1);
            turn += 1;
        }
    }
    (library, user)
}

/// 250 LOCALs of one class, the last one used by classes right inside it.
fn last_local() -> Pair {
    uses_of_last_local(2)
}

/// The same, the using classes lying 230 deep.
fn deep_uses() -> Pair {
    uses_of_last_local(230)
}

fn uses_of_last_local(depth: usize) -> Pair {
    const LOCALS: usize = 250;
    let mut user = Sheet::new();
    user.class(Class::below(0), &short_name(1));
    for index in 0..LOCALS {
        let ty = if index + 1 < LOCALS { INT } else { object(0) };
        user.local(ty, b"v");
    }
    while user.room() >= 12 + SHORT + 8 && user.classes() < CHAIN {
        let class = 1 + user.classes();
        let encloser = (class - 1).min(depth);
        let own = POWERLESS | DEEP_SELFLESS;
        let head = Class::below(0).inside(encloser).own(own);
        user.class(head.flags(BY_VALUE), &short_name(class));
        while class > depth && user.fits(8) {
            user.uses(1, LOCALS - 1);
        }
    }
    (object_only(), user)
}

/// As many REFERS as fit, in falling order and without repeats: each group names every library
/// class, some twice, and its canonical form is the other way round.
fn spread_pairs() -> Pair {
    const GROUPS: usize = SHEET_LIMIT / (12 + SHORT + 8 * (GROUP_LIMIT - 1));
    const LIBRARY: usize = CLASS_LIMIT - GROUPS;
    const TWICE: usize = GROUP_LIMIT - 1 - LIBRARY;
    const MEMBERS: usize = 17;
    let mut library = object_only();
    for class in 0..LIBRARY {
        if class > 0 {
            library.class(Class::below(0).flags(ALLOWED), &short_name(class));
        }
        for _ in 0..MEMBERS {
            library.member(true, b"m");
        }
    }
    let mut user = Sheet::new();
    for group in 0..GROUPS {
        user.class(Class::below(0), &short_name(LIBRARY + group));
        for class in (0..LIBRARY).rev() {
            let index = (class + group) % (MEMBERS - 1);
            if class < TWICE {
                user.refers(class, index + 1);
            }
            user.refers(class, index);
        }
    }
    (library, user)
}
