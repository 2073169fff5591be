//! Records as bytes, and what they say.

use crate::markers::{self, Markers};

/// Superclass or encloser of a class that has none.
pub const NO_CLASS: u16 = 0xFFFF;

pub const CLASS: u16 = 1;
pub const IMPLEMENTS: u16 = 2;
pub const FIELD: u16 = 3;
pub const LOCAL: u16 = 4;
pub const USES: u16 = 5;
pub const BUILDS: u16 = 6;
pub const MEMBER: u16 = 7;
pub const REFERS: u16 = 8;

/// CLASS flags.
pub const INTERFACE: u16 = 1 << 0;
pub const INNER: u16 = 1 << 1;
pub const EQUALITY: u16 = 0b111 << 2;
pub const OVERRIDES_BOTH: u16 = 0b011 << 2;
pub const UNSAFE_INITIALIZATION: u16 = 0b111 << 5;
pub const CLASS_ALLOWED: u16 = 1 << 8;

/// FIELD flags.
pub const FINAL: u16 = 1 << 0;
pub const TRANSIENT: u16 = 1 << 1;
pub const STATIC: u16 = 1 << 2;

/// MEMBER flags.
pub const MEMBER_ALLOWED: u16 = 1 << 0;

/// Where the name of a CLASS record begins.
pub const CLASS_NAME: usize = 12;

/// What a record that has passed the first check says.
pub enum Record<'a> {
    Class(ClassRecord<'a>),
    Implements { class: usize },
    Field { flags: u16, ty: Type },
    Local { ty: Type },
    Uses { class: usize, index: usize },
    Builds { class: usize },
    Member,
    Refers { class: usize, index: usize },
}

pub struct ClassRecord<'a> {
    pub flags: u16,
    pub own: Markers,
    pub superclass: u16,
    pub encloser: u16,
    pub name: &'a [u8],
}

/// The type of a field or local variable.
#[derive(Clone, Copy)]
pub struct Type {
    dimensions: u8,
    code: u8,
    class: u16,
}

impl Type {
    fn read(bytes: &[u8]) -> Type {
        Type {
            dimensions: bytes[0],
            code: bytes[1],
            class: number(bytes, 2),
        }
    }

    /// The type of a LOCAL record.
    pub fn of_local(record: &[u8]) -> Type {
        Type::read(&record[4..8])
    }

    fn is_valid(self) -> bool {
        self.code == 0 || self.code <= 8 && self.class == 0
    }

    /// The class that it names, also as an array.
    pub fn class(self) -> Option<usize> {
        (self.code == 0).then_some(self.class as usize)
    }

    /// The markers that it satisfies.
    pub fn markers(self, overlay: &[Markers; 256]) -> Markers {
        if self.dimensions != 0 {
            markers::NONE
        } else if self.code != 0 {
            markers::ALL
        } else {
            overlay[self.class as usize]
        }
    }
}

impl<'a> Record<'a> {
    #[inline(always)]
    pub fn read(bytes: &'a [u8]) -> Record<'a> {
        let class = || number(bytes, 4) as usize;
        let index = || number(bytes, 6) as usize;
        match kind(bytes) {
            CLASS => Record::Class(ClassRecord::read(bytes)),
            IMPLEMENTS => Record::Implements { class: class() },
            FIELD => Record::Field {
                flags: number(bytes, 4),
                ty: Type::read(&bytes[6..10]),
            },
            LOCAL => Record::Local {
                ty: Type::of_local(bytes),
            },
            USES => Record::Uses {
                class: class(),
                index: index(),
            },
            BUILDS => Record::Builds { class: class() },
            REFERS => Record::Refers {
                class: class(),
                index: index(),
            },
            _ => Record::Member,
        }
    }
}

impl<'a> ClassRecord<'a> {
    #[inline(always)]
    pub fn read(bytes: &'a [u8]) -> ClassRecord<'a> {
        ClassRecord {
            flags: number(bytes, 4),
            own: bytes[6],
            superclass: number(bytes, 8),
            encloser: number(bytes, 10),
            name: &bytes[CLASS_NAME..],
        }
    }
}

/// The number in two bytes.
pub fn number(bytes: &[u8], at: usize) -> u16 {
    u16::from_le_bytes([bytes[at], bytes[at + 1]])
}

pub fn kind(record: &[u8]) -> u16 {
    number(record, 2)
}

/// The record at the start of `bytes`, if a whole one stands there.
pub fn whole_record(bytes: &[u8]) -> Option<&[u8]> {
    if bytes.len() < 4 {
        return None;
    }
    let length = number(bytes, 0) as usize;
    if length < 4 {
        return None;
    }
    bytes.get(..length)
}

/// How the records of a kind look in one of the sheets.
struct Shape {
    lengths: (usize, usize),
    /// Bits that no flag has; kinds without flags have none.
    undefined: u16,
    /// Where its type and its name begin, 0 if it has none.
    type_at: usize,
    name_at: usize,
}

const fn shape(length: usize) -> Option<Shape> {
    named(length, length, 0, 0, 0)
}

const fn named(
    least: usize,
    most: usize,
    defined: u16,
    type_at: usize,
    name_at: usize,
) -> Option<Shape> {
    Some(Shape {
        lengths: (least, most),
        undefined: if defined == 0 { 0 } else { !defined },
        type_at,
        name_at,
    })
}

/// The kinds of the library sheet.
const LIBRARY: [Option<Shape>; 9] = [
    None,
    named(13, 112, INTERFACE | CLASS_ALLOWED, 0, CLASS_NAME),
    shape(6),
    None,
    None,
    None,
    None,
    named(7, 106, MEMBER_ALLOWED, 0, 6),
    None,
];

/// The kinds of the user sheet.
const USER: [Option<Shape>; 9] = [
    None,
    named(13, 112, 0xFF, 0, CLASS_NAME),
    shape(6),
    named(11, 110, FINAL | TRANSIENT | STATIC, 6, 10),
    named(9, 108, 0, 4, 8),
    shape(8),
    shape(6),
    None,
    shape(8),
];

/// Refusals 3, 4, 6 and 5 of one whole record.
#[inline]
pub fn check(record: &[u8], user: bool, in_group: bool) -> Result<(), u8> {
    let kind = kind(record);
    let shapes = if user { &USER } else { &LIBRARY };
    let Some(Some(shape)) = shapes.get(kind as usize) else {
        return Err(3);
    };
    let (least, most) = shape.lengths;
    if record.len() < least || record.len() > most {
        return Err(4);
    }
    if kind != CLASS && !in_group {
        return Err(6);
    }
    if !shape.suits(record) || kind == CLASS && record[7] != 0 {
        return Err(5);
    }
    Ok(())
}

impl Shape {
    /// Are flags, type and name in range?
    #[inline]
    fn suits(&self, record: &[u8]) -> bool {
        let flags = number(record, 4) & self.undefined == 0;
        let ty = self.type_at == 0 || Type::read(&record[self.type_at..]).is_valid();
        let name = self.name_at == 0 || is_name(&record[self.name_at..]);
        flags && ty && name
    }
}

/// Looks at all bytes without leaving early, so that it runs many at a time.
fn is_name(bytes: &[u8]) -> bool {
    !bytes
        .iter()
        .fold(false, |bad, byte| bad | (byte.wrapping_sub(33) > 126 - 33))
}
