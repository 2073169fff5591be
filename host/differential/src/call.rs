//! One call, made of either verifier.

use std::fmt;

use kerdzhusi::Refusal;

use crate::lent::Side;

/// A call; what it borrows is a `Side`.
#[derive(Clone, Copy, Debug, PartialEq)]
pub enum Call {
    Judge,
    Add,
    Replace(usize),
    Withdraw,
    Canonical,
    Index,
    Lookup,
    Name(usize),
    Marks(usize),
}

/// The operations, in the order of their numbers.
pub const OPERATIONS: [&str; 9] = [
    "judge",
    "add",
    "replace",
    "withdraw",
    "canonical",
    "index",
    "lookup",
    "name",
    "marks",
];

impl Call {
    pub fn changes_sheets(self) -> bool {
        matches!(self, Call::Add | Call::Replace(_) | Call::Withdraw)
    }

    pub fn writes_verdicts(self) -> bool {
        self == Call::Judge || self.changes_sheets()
    }

    pub fn operation(self) -> usize {
        match self {
            Call::Judge => 0,
            Call::Add => 1,
            Call::Replace(_) => 2,
            Call::Withdraw => 3,
            Call::Canonical => 4,
            Call::Index => 5,
            Call::Lookup => 6,
            Call::Name(_) => 7,
            Call::Marks(_) => 8,
        }
    }
}

/// What an accepted call gives back.
#[derive(Clone, Copy, Debug, PartialEq)]
pub enum Value {
    Counts { classes: usize, faulted: usize },
    Number(usize),
    Part(u8, usize, usize),
    Markers(u8),
}

#[derive(Clone, Copy, Debug, PartialEq)]
pub struct Answer(pub Result<Value, Refusal>);

impl fmt::Display for Answer {
    fn fmt(&self, f: &mut fmt::Formatter) -> fmt::Result {
        match &self.0 {
            Ok(value) => write!(f, "{value:?}"),
            Err(refusal) => write!(f, "{refusal}"),
        }
    }
}

impl From<kerdzhusi::Counts> for Value {
    fn from(counts: kerdzhusi::Counts) -> Value {
        let (classes, faulted) = (counts.classes, counts.faulted);
        Value::Counts { classes, faulted }
    }
}

impl From<reference::Counts> for Value {
    fn from(counts: reference::Counts) -> Value {
        let (classes, faulted) = (counts.classes, counts.faulted);
        Value::Counts { classes, faulted }
    }
}

impl From<usize> for Value {
    fn from(number: usize) -> Value {
        Value::Number(number)
    }
}

impl From<kerdzhusi::Part> for Value {
    fn from(part: kerdzhusi::Part) -> Value {
        Value::Part(part.sheet, part.start, part.length)
    }
}

impl From<(u8, usize, usize)> for Value {
    fn from((sheet, start, length): (u8, usize, usize)) -> Value {
        Value::Part(sheet, start, length)
    }
}

impl From<u8> for Value {
    fn from(markers: u8) -> Value {
        Value::Markers(markers)
    }
}

/// The call, made of one verifier over one side. Both have the same functions.
macro_rules! answer {
    ($verifier:ident, $call:expr, $side:expr) => {{
        let Side {
            library,
            user,
            used,
            group,
            verdicts,
            scratch,
            out,
            name,
            places,
        } = $side;
        let (library, group) = (library.part(), group.part());
        let (verdicts, scratch) = (verdicts.part_mut(), scratch.part_mut());
        match $call {
            Call::Judge => {
                $verifier::judge(library, user.part(), *used, verdicts, scratch).map(Value::from)
            }
            Call::Add => {
                let user = user.part_mut();
                $verifier::add(library, user, used, group, verdicts, scratch).map(Value::from)
            }
            Call::Replace(class) => {
                let user = user.part_mut();
                $verifier::replace(library, user, used, class, group, verdicts, scratch)
                    .map(Value::from)
            }
            Call::Withdraw => {
                $verifier::withdraw(library, user.part_mut(), used, verdicts).map(Value::from)
            }
            Call::Canonical => {
                $verifier::canonical(library, user.part(), *used, out.part_mut()).map(Value::from)
            }
            Call::Index => {
                $verifier::index(library, user.part(), *used, places.part_mut()).map(Value::from)
            }
            Call::Lookup => {
                let (user, name, places) = (user.part(), name.part(), places.part_mut());
                $verifier::lookup(library, user, *used, name, places).map(Value::from)
            }
            Call::Name(class) => {
                $verifier::name(library, user.part(), *used, class).map(Value::from)
            }
            Call::Marks(class) => {
                $verifier::marks(library, user.part(), *used, class).map(Value::from)
            }
        }
    }};
}

pub fn ask_kerdzhusi(call: Call, side: &mut Side) -> Answer {
    Answer(answer!(kerdzhusi, call, side))
}

pub fn ask_reference(call: Call, side: &mut Side) -> Answer {
    let answer: Result<Value, reference::Refusal> = answer!(reference, call, side);
    Answer(answer.map_err(|refusal| Refusal {
        number: refusal.number,
        sheet: refusal.sheet,
        byte: refusal.byte,
    }))
}
