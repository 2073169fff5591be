//! Measures how much stack each function of the static library uses at most, over all families of
//! sheets, and prints a Markdown table. Fails where one uses too much.

mod painted;

use std::hint::black_box;
use std::process::ExitCode;

use calls::{last_name, most_needed, own_group, Desk, KERDZHUSI};
use painted::stack_used;
use sheets::{families, Family};

/// The most bytes of stack that a call may use, on any sheets.
const LIMIT: usize = 8 * 1024;

/// The bytes of stack that calls of a function over a family use at most.
type Used = fn(&Family) -> usize;

/// Every function of the header.
const FUNCTIONS: &[(&str, Used)] = &[
    ("kz_judge", |family| {
        let mut desk = Desk::judged(&KERDZHUSI, family);
        stack_used(&mut || desk.judge())
    }),
    ("kz_add", |family| {
        let (mut desk, group) = Desk::without_last(&KERDZHUSI, family);
        stack_used(&mut || desk.add(&group))
    }),
    ("kz_replace", |family| {
        let mut desk = Desk::judged(&KERDZHUSI, family);
        most([most_needed(family).0, family.classes - 1], |class| {
            let group = own_group(family, class);
            stack_used(&mut || desk.replace(class, group))
        })
    }),
    ("kz_withdraw", |family| {
        let (mut desk, _) = Desk::with_last_unnamed(&KERDZHUSI, family);
        stack_used(&mut || desk.withdraw())
    }),
    ("kz_canonical", |family| {
        let mut desk = Desk::judged(&KERDZHUSI, family);
        stack_used(&mut || desk.canonical())
    }),
    ("kz_index", |family| {
        let mut desk = Desk::judged(&KERDZHUSI, family);
        stack_used(&mut || desk.index())
    }),
    ("kz_lookup", |family| {
        let mut desk = Desk::judged(&KERDZHUSI, family);
        let name = last_name(family);
        stack_used(&mut || desk.lookup(name))
    }),
    ("kz_fingerprint", |family| {
        let name = last_name(family);
        stack_used(&mut || {
            black_box(kerdzhusi::fingerprint(name));
        })
    }),
    ("kz_name", |family| {
        let desk = Desk::judged(&KERDZHUSI, family);
        most(quarters(family), |class| {
            stack_used(&mut || desk.name(class))
        })
    }),
    ("kz_marks", |family| {
        let desk = Desk::judged(&KERDZHUSI, family);
        most(quarters(family), |class| {
            stack_used(&mut || desk.marks(class))
        })
    }),
];

/// The first class, the last one and three between.
fn quarters(family: &Family) -> [usize; 5] {
    let last = family.classes - 1;
    [0, last / 4, last / 2, last * 3 / 4, last]
}

fn most<const COUNT: usize>(classes: [usize; COUNT], used: impl FnMut(usize) -> usize) -> usize {
    classes.map(used).into_iter().max().unwrap_or(0)
}

fn main() -> ExitCode {
    let families = families();
    let mut code = ExitCode::SUCCESS;
    println!("| function | bytes of stack | on |");
    println!("|:--|--:|:--|");
    for (name, used) in FUNCTIONS {
        // Last to first, so that of equal ones the first is named.
        let measured = families.iter().map(|family| (used(family), family.name));
        let worst = measured.rev().max_by_key(|&(bytes, _)| bytes);
        let (bytes, family) = worst.unwrap_or_default();
        println!("| {name} | {bytes} | {family} |");
        if bytes > LIMIT {
            eprintln!("{name} uses more than {LIMIT} bytes of stack");
            code = ExitCode::FAILURE;
        }
    }
    code
}
