//! The calls that are timed, over one family of sheets.

use std::time::Duration;

use calls::{last_name, own_group, Desk, Verifier};
use sheets::Family;

use crate::measure::timed;

/// A workload of one verifier: how long so many calls take.
type Calls<'a> = Box<dyn FnMut(usize) -> Duration + 'a>;

pub fn judge<'a>(verifier: &'a Verifier, family: &'a Family) -> Calls<'a> {
    let mut desk = Desk::judged(verifier, family);
    repeated(move || desk.judge())
}

/// Adds the last class to the sheet that it was taken out of; that is undone between the calls.
pub fn add<'a>(verifier: &'a Verifier, family: &'a Family) -> Calls<'a> {
    let (desk, group) = Desk::without_last(verifier, family);
    undone(desk, group, Desk::add, Desk::take_back)
}

/// Replaces a class by itself, so that nothing changes and the call can be repeated.
pub fn replace<'a>(verifier: &'a Verifier, family: &'a Family, class: usize) -> Calls<'a> {
    let mut desk = Desk::judged(verifier, family);
    let group = own_group(family, class);
    repeated(move || desk.replace(class, group))
}

/// Withdraws the last class, which no other names; it is put back between the calls.
pub fn withdraw<'a>(verifier: &'a Verifier, family: &'a Family) -> Calls<'a> {
    let (desk, group) = Desk::with_last_unnamed(verifier, family);
    undone(desk, group, |desk, _| desk.withdraw(), Desk::put_back)
}

pub fn canonical<'a>(verifier: &'a Verifier, family: &'a Family) -> Calls<'a> {
    let mut desk = Desk::judged(verifier, family);
    repeated(move || desk.canonical())
}

pub fn index<'a>(verifier: &'a Verifier, family: &'a Family) -> Calls<'a> {
    let mut desk = Desk::judged(verifier, family);
    repeated(move || desk.index())
}

/// Looks for the last class's name.
pub fn lookup<'a>(verifier: &'a Verifier, family: &'a Family) -> Calls<'a> {
    let mut desk = Desk::judged(verifier, family);
    let name = last_name(family);
    repeated(move || desk.lookup(name))
}

/// Asks for the last class.
pub fn name<'a>(verifier: &'a Verifier, family: &'a Family) -> Calls<'a> {
    let desk = Desk::judged(verifier, family);
    repeated(move || desk.name(family.classes - 1))
}

/// Asks for the last class.
pub fn marks<'a>(verifier: &'a Verifier, family: &'a Family) -> Calls<'a> {
    let desk = Desk::judged(verifier, family);
    repeated(move || desk.marks(family.classes - 1))
}

/// Each call is timed alone, since what it did is undone before the next.
fn undone<'a>(
    mut desk: Desk<'a>,
    group: Vec<u8>,
    call: fn(&mut Desk<'a>, &[u8]),
    undo: fn(&mut Desk<'a>, &[u8]),
) -> Calls<'a> {
    Box::new(move |count| {
        let calls = (0..count).map(|_| {
            let time = timed(|| call(&mut desk, &group));
            undo(&mut desk, &group);
            time
        });
        calls.sum()
    })
}

fn repeated<'a>(mut call: impl FnMut() + 'a) -> Calls<'a> {
    Box::new(move |count| timed(|| (0..count).for_each(|_| call())))
}
