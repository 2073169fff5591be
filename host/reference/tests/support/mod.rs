//! Records written by hand, and short ways to judge them.
#![allow(dead_code)]

use reference::{judge, Counts, Refusal, VERDICT_BYTES};

/// Rule, record number, class in which the fault sits.
pub type Line = (u8, u8, u8);

pub const CLEAN: Line = (0, 0, 0);

pub const NO_CLASS: u16 = 0xFFFF;
pub const INTERFACE: u16 = 1;
pub const INNER: u16 = 2;
pub const ALLOWED: u16 = 1 << 8;
pub const FINAL: u16 = 1;
pub const STATIC: u16 = 4;
pub const INT: [u8; 4] = [0, 4, 0, 0];
pub const INT_ARRAY: [u8; 4] = [1, 4, 0, 0];
pub const OBJECT: [u8; 4] = [0, 0, 0, 0];

/// Library L of document 01.
pub const LIBRARY: [u8; 18] = *b"\x12\0\x01\0\0\x01\0\0\xFF\xFF\xFF\xFFObject";
/// User sheet U of document 01.
pub const POINT: [u8; 25] = *b"\x0E\0\x01\0\0\0\x01\0\0\0\xFF\xFFPt\x0B\0\x03\0\x01\0\0\x04\0\0x";

pub fn record(kind: u16, body: &[&[u8]]) -> Vec<u8> {
    let body = body.concat();
    let length = body.len() as u16 + 4;
    [&length.to_le_bytes(), &kind.to_le_bytes(), &body[..]].concat()
}

pub fn class(flags: u16, own: u8, superclass: u16, encloser: u16, name: &str) -> Vec<u8> {
    let [flags, superclass, encloser] = [flags, superclass, encloser].map(u16::to_le_bytes);
    let name = name.as_bytes();
    record(1, &[&flags, &[own, 0], &superclass, &encloser, name])
}

pub fn implements(interface: u16) -> Vec<u8> {
    record(2, &[&interface.to_le_bytes()])
}

pub fn field(flags: u16, ty: [u8; 4], name: &str) -> Vec<u8> {
    record(3, &[&flags.to_le_bytes(), &ty, name.as_bytes()])
}

pub fn local(ty: [u8; 4], name: &str) -> Vec<u8> {
    record(4, &[&ty, name.as_bytes()])
}

pub fn uses(class: u16, index: u16) -> Vec<u8> {
    record(5, &[&class.to_le_bytes(), &index.to_le_bytes()])
}

pub fn builds(class: u16) -> Vec<u8> {
    record(6, &[&class.to_le_bytes()])
}

pub fn member(flags: u16, name: &str) -> Vec<u8> {
    record(7, &[&flags.to_le_bytes(), name.as_bytes()])
}

pub fn refers(class: u16, index: u16) -> Vec<u8> {
    record(8, &[&class.to_le_bytes(), &index.to_le_bytes()])
}

pub fn refusal(number: u8, sheet: u8, byte: usize) -> Refusal {
    Refusal {
        number,
        sheet,
        byte,
    }
}

/// The lines of a row; bytes that are too few for one belong to none.
pub fn lines_of(row: &[u8]) -> Vec<Line> {
    let lines = row.chunks_exact(VERDICT_BYTES);
    lines.map(|line| (line[0], line[1], line[2])).collect()
}

pub fn row_of(lines: &[Line]) -> Vec<u8> {
    let bytes = |&(rule, record, class): &Line| [rule, record, class];
    lines.iter().flat_map(bytes).collect()
}

/// The verdicts of all user classes; on a refusal the buffers have to be as before.
pub fn judged(library: &[u8], user: &[u8]) -> Result<Vec<Line>, Refusal> {
    let mut verdicts = vec![0xEE; 256 * VERDICT_BYTES];
    let mut scratch = vec![0xEE; 65_536];
    let answer = judge(library, user, user.len(), &mut verdicts, &mut scratch);
    if answer.is_err() {
        assert!(verdicts.iter().chain(&scratch).all(|&byte| byte == 0xEE));
    }
    let Counts { classes, faulted } = answer?;
    let (used, rest) = verdicts.split_at(VERDICT_BYTES * classes);
    assert!(rest.iter().all(|&byte| byte == 0xEE));
    let lines = lines_of(used);
    assert_eq!(faulted, lines.iter().filter(|line| line.0 != 0).count());
    Ok(lines)
}

/// The verdicts beside library L.
pub fn lines(user: &[u8]) -> Vec<Line> {
    judged(&LIBRARY, user).expect("accepted")
}

/// The refusal beside library L, as number, sheet and byte.
pub fn refused(user: &[u8]) -> (u8, u8, usize) {
    refused_pair(&LIBRARY, user)
}

pub fn refused_pair(library: &[u8], user: &[u8]) -> (u8, u8, usize) {
    let refusal = judged(library, user).expect_err("refused");
    (refusal.number, refusal.sheet, refusal.byte)
}
