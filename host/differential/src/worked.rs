//! The worked cases of document 02's requests: calls, made of both verifiers, and what they give.

use kerdzhusi::{verdicts, Verdict, SCRATCH_BYTES, VERDICT_BYTES};

use crate::call::{Answer, Call, Value};
use crate::desk::Desk;
use crate::lent::{Lent, Side};

const CASES: &str = include_str!("../worked_cases.txt");
/// In each byte of a line before the first call; no rule has this number.
const UNTOUCHED: u8 = 0x77;
/// In each byte of an output before the call.
const UNWRITTEN: u8 = 0xEE;
/// In each place of a row before the call.
const UNTAKEN: u16 = 4242;

#[test]
fn worked_cases() {
    let blocks = CASES.split("\n\n");
    let cases: Vec<_> = blocks.filter(|block| block.contains("\n= ")).collect();
    assert_eq!(cases.len(), 35);
    for case in cases {
        let (expected, given): (Vec<&str>, Vec<&str>) =
            case.lines().partition(|line| line.starts_with("= "));
        let found = Run::default().follow(&given);
        assert_eq!(found, expected, "{}", given[0]);
    }
}

/// What the calls of a case borrow, as its lines set it up, and both verifiers once one is called.
#[derive(Default)]
struct Run {
    library: Vec<u8>,
    buffer: Vec<u8>,
    used: usize,
    lines: usize,
    scratch: usize,
    desk: Option<Desk>,
}

impl Run {
    /// What the calls among the lines give.
    fn follow(mut self, given: &[&str]) -> Vec<String> {
        let mut found = Vec::new();
        for line in given {
            let (word, rest) = line.split_once(' ').unwrap_or((line, ""));
            if !self.set(word, rest) {
                found.extend(self.call(word, rest));
            }
        }
        found
    }

    /// Sets one thing up, if that is what the line does. A library begins anew.
    fn set(&mut self, word: &str, rest: &str) -> bool {
        match word {
            "#" => {}
            "library" => {
                *self = Run {
                    library: hex(rest),
                    scratch: SCRATCH_BYTES,
                    ..Run::default()
                }
            }
            "buffer" => self.buffer = hex(rest),
            "used" => self.used = number(rest),
            "slate" => self.lines = number(rest),
            "scratch" => self.scratch = number(rest),
            _ => return false,
        }
        assert!(self.desk.is_none(), "{word} after a call");
        true
    }

    fn call(&mut self, word: &str, rest: &str) -> Vec<String> {
        let mut desk = self.desk.take().unwrap_or_else(|| Desk::new(self.side()));
        let call = match word {
            "judge" => Call::Judge,
            "add" => {
                desk.change(|side| side.group = lent(&hex(rest)));
                Call::Add
            }
            "replace" => {
                let (class, group) = rest.split_once(' ').expect("a class and a group");
                desk.change(|side| side.group = lent(&hex(group)));
                Call::Replace(number(class))
            }
            "withdraw" => Call::Withdraw,
            "tidy" => {
                desk.change(|side| side.out = lent(&vec![UNWRITTEN; number(rest)]));
                Call::Canonical
            }
            "index" => {
                desk.change(|side| side.places = lent_places(number(rest)));
                Call::Index
            }
            "lookup" => {
                let (name, places) = rest.split_once(' ').expect("a name and a length");
                desk.change(|side| {
                    side.name = lent(&hex(name));
                    side.places = lent_places(number(places));
                });
                Call::Lookup
            }
            "name" => Call::Name(number(rest)),
            "marks" => Call::Marks(number(rest)),
            _ => panic!("no call: {word} {rest}"),
        };
        let answer = desk.call(call);
        let answer = answer.unwrap_or_else(|difference| panic!("{}", difference.what));
        let mut found = vec![format!("= {}", shown(answer))];
        match call {
            Call::Canonical if answer.0.is_ok() => {
                found[0] += &format!(" {}", digits(desk.side().out.part()));
            }
            Call::Index | Call::Lookup if answer.0.is_ok() => {
                found[0] += &format!(" {}", row(desk.side().places.part()));
            }
            Call::Canonical | Call::Index | Call::Lookup | Call::Name(_) | Call::Marks(_) => {}
            _ => found.push(format!("= state {}", state(desk.side()))),
        }
        self.desk = Some(desk);
        found
    }

    fn side(&self) -> Side {
        Side {
            library: lent(&self.library),
            user: lent(&self.buffer),
            used: self.used,
            group: lent(&[]),
            verdicts: lent(&vec![UNTOUCHED; self.lines * VERDICT_BYTES]),
            scratch: lent(&vec![UNTOUCHED; self.scratch]),
            out: lent(&[]),
            name: lent(&[]),
            places: lent_places(0),
        }
    }
}

fn lent(content: &[u8]) -> Lent {
    Lent::new(content, &[UNTOUCHED; 8], 4)
}

fn lent_places(length: usize) -> Lent<u16> {
    Lent::new(&vec![UNTAKEN; length], &[UNTAKEN; 8], 4)
}

fn shown(answer: Answer) -> String {
    match answer.0 {
        Ok(Value::Counts { classes, faulted }) => format!("ok {classes} {faulted}"),
        Ok(Value::Number(number)) => format!("ok {number}"),
        Ok(Value::Part(sheet, start, length)) => format!("ok {sheet} {start} {length}"),
        Ok(Value::Markers(set)) => format!("ok {set}"),
        Err(refusal) => refusal.to_string(),
    }
}

fn state(side: &Side) -> String {
    let line = |verdict: Verdict| match verdict.rule {
        UNTOUCHED => "7777,7777,7777".to_string(),
        rule => format!("{rule},{},{}", verdict.record, verdict.class),
    };
    let lines: Vec<_> = verdicts(side.verdicts.part()).map(line).collect();
    let (used, lines) = (side.used, lines.join(" "));
    let buffer = digits(side.user.part());
    format!("used={used} buffer={buffer} slate={lines}")
}

/// The bytes as `hex` reads them.
fn digits(bytes: &[u8]) -> String {
    if bytes.is_empty() {
        return "-".to_string();
    }
    bytes.iter().map(|byte| format!("{byte:02x}")).collect()
}

/// The numbers between commas.
fn row(places: &[u16]) -> String {
    let numbers: Vec<_> = places.iter().map(u16::to_string).collect();
    numbers.join(",")
}

fn number(text: &str) -> usize {
    text.parse().expect("a number")
}

/// The bytes, two digits each; "-" and nothing are none.
fn hex(text: &str) -> Vec<u8> {
    let digits = text.trim_matches('-').as_bytes().chunks(2);
    let byte = |two: &[u8]| u8::from_str_radix(std::str::from_utf8(two).ok()?, 16).ok();
    digits.map(|two| byte(two).expect("a byte")).collect()
}
