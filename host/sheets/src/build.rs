//! Records and groups, written one after the other.

use crate::kinds;
use crate::read::ordered;

/// Superclass or encloser of a class that has none.
pub const NO_CLASS: u16 = 0xFFFF;
/// The most bytes of a sheet.
pub const SHEET_LIMIT: usize = 32_768;
/// The most records of a group.
pub const GROUP_LIMIT: usize = 255;
/// The most bytes of a name.
pub const NAME_LIMIT: usize = 100;
/// The most classes of two sheets together.
pub const CLASS_LIMIT: usize = 256;
/// The lengths that a FIELD can have.
pub const FIELD_LENGTHS: (usize, usize) = (11, 110);
/// User classes beside a library of one class.
pub const CHAIN: usize = CLASS_LIMIT - 1;
/// Names of class numbers are at most this long.
pub const SHORT: usize = 2;

pub const INTERFACE: u16 = 1 << 0;
pub const INNER: u16 = 1 << 1;
/// Overrides equals and hashCode.
pub const BY_VALUE: u16 = 0b1100;
pub const CALLS_OWN_METHOD: u16 = 1 << 5;
pub const LETS_THIS_OUT: u16 = 1 << 7;
pub const ALLOWED: u16 = 1 << 8;

pub const FINAL: u16 = 1 << 0;
pub const TRANSIENT: u16 = 1 << 1;
pub const STATIC: u16 = 1 << 2;

pub const IMMUTABLE: u8 = 1 << 0;
pub const POWERLESS: u8 = 1 << 1;
pub const SELFLESS: u8 = 1 << 2;
pub const EQUATABLE: u8 = 1 << 3;
pub const TOKEN: u8 = 1 << 4;
pub const THROWABLE: u8 = 1 << 5;
pub const ENUM: u8 = 1 << 6;
pub const DEEP_SELFLESS: u8 = 1 << 7;

/// The least closed set that holds a set of markers.
pub fn closure(mut set: u8) -> u8 {
    let gives = [
        (THROWABLE, POWERLESS),
        (POWERLESS, IMMUTABLE),
        (TOKEN, IMMUTABLE | EQUATABLE),
        (ENUM, EQUATABLE),
        (DEEP_SELFLESS, SELFLESS),
    ];
    for (marker, given) in gives {
        if set & marker != 0 {
            set |= given;
        }
    }
    set
}

pub fn clash(set: u8) -> bool {
    [POWERLESS | TOKEN, SELFLESS | EQUATABLE]
        .iter()
        .any(|pair| set & pair == *pair)
}

/// The type of a field or local variable.
#[derive(Clone, Copy)]
pub struct Type {
    pub dimensions: u8,
    pub code: u8,
    pub class: u16,
}

pub const BOOLEAN: Type = primitive(1);
pub const INT: Type = primitive(4);
pub const LONG: Type = primitive(5);
pub const DOUBLE: Type = primitive(8);

pub const fn primitive(code: u8) -> Type {
    Type {
        dimensions: 0,
        code,
        class: 0,
    }
}

pub const fn object(class: usize) -> Type {
    Type {
        dimensions: 0,
        code: 0,
        class: class as u16,
    }
}

impl Type {
    pub const fn array(mut self) -> Type {
        self.dimensions += 1;
        self
    }

    fn bytes(self) -> [u8; 4] {
        let [low, high] = self.class.to_le_bytes();
        [self.dimensions, self.code, low, high]
    }
}

/// What a CLASS record says, but for its name.
#[derive(Clone, Copy)]
pub struct Class {
    pub flags: u16,
    pub own: u8,
    pub superclass: u16,
    pub encloser: u16,
}

impl Class {
    /// A class below another.
    pub fn below(superclass: usize) -> Class {
        Class {
            flags: 0,
            own: 0,
            superclass: superclass as u16,
            encloser: NO_CLASS,
        }
    }

    /// Class 0 of a library.
    pub fn object() -> Class {
        Class {
            flags: ALLOWED,
            superclass: NO_CLASS,
            ..Class::below(0)
        }
    }

    pub fn interface() -> Class {
        Class {
            flags: INTERFACE,
            superclass: NO_CLASS,
            ..Class::below(0)
        }
    }

    pub fn flags(mut self, flags: u16) -> Class {
        self.flags |= flags;
        self
    }

    pub fn own(mut self, markers: u8) -> Class {
        self.own |= markers;
        self
    }

    pub fn inside(mut self, encloser: usize) -> Class {
        self.encloser = encloser as u16;
        self
    }
}

/// A library sheet and a user sheet.
pub type Pair = (Sheet, Sheet);

/// A library with Object alone.
pub fn object_only() -> Sheet {
    let mut library = Sheet::new();
    library.class(Class::object(), b"Object");
    library
}

/// A sheet, or the start of one. Lengths and numbers are the caller's affair, so that broken
/// sheets can be written too.
#[derive(Clone, Default)]
pub struct Sheet {
    bytes: Vec<u8>,
    classes: usize,
    records: usize,
    in_group: usize,
    /// Where the last group begins.
    group: usize,
}

impl Sheet {
    pub fn new() -> Sheet {
        Sheet::default()
    }

    /// A record of any kind.
    pub fn record(&mut self, kind: usize, body: &[&[u8]]) -> &mut Sheet {
        let length = 4 + body.iter().map(|part| part.len()).sum::<usize>();
        self.bytes.extend(two_bytes(length));
        self.bytes.extend(two_bytes(kind));
        self.bytes.extend(body.concat());
        self.records += 1;
        self.in_group += 1;
        self
    }

    pub fn class(&mut self, class: Class, name: &[u8]) -> &mut Sheet {
        self.in_group = 0;
        self.group = self.bytes.len();
        self.classes += 1;
        let flags = class.flags.to_le_bytes();
        let superclass = class.superclass.to_le_bytes();
        let encloser = class.encloser.to_le_bytes();
        self.record(
            kinds::CLASS,
            &[&flags, &[class.own, 0], &superclass, &encloser, name],
        )
    }

    pub fn implements(&mut self, interface: usize) -> &mut Sheet {
        self.record(kinds::IMPLEMENTS, &[&two_bytes(interface)])
    }

    pub fn field(&mut self, flags: u16, ty: Type, name: &[u8]) -> &mut Sheet {
        self.record(kinds::FIELD, &[&flags.to_le_bytes(), &ty.bytes(), name])
    }

    pub fn local(&mut self, ty: Type, name: &[u8]) -> &mut Sheet {
        self.record(kinds::LOCAL, &[&ty.bytes(), name])
    }

    pub fn uses(&mut self, class: usize, index: usize) -> &mut Sheet {
        self.record(kinds::USES, &[&two_bytes(class), &two_bytes(index)])
    }

    pub fn builds(&mut self, class: usize) -> &mut Sheet {
        self.record(kinds::BUILDS, &[&two_bytes(class)])
    }

    pub fn member(&mut self, allowed: bool, name: &[u8]) -> &mut Sheet {
        self.record(kinds::MEMBER, &[&[allowed as u8, 0], name])
    }

    pub fn refers(&mut self, class: usize, index: usize) -> &mut Sheet {
        self.record(kinds::REFERS, &[&two_bytes(class), &two_bytes(index)])
    }

    /// A constant as long as the room allows, which leaves nothing or enough for another one.
    /// The room is enough for one.
    pub fn constant(&mut self, room: usize) -> &mut Sheet {
        let (least, most) = FIELD_LENGTHS;
        let length = if room <= most {
            room.max(least)
        } else {
            room.min(most + least) - least
        };
        let name = vec![b'z'; length - least + 1];
        self.field(STATIC | FINAL, INT, &name)
    }

    /// Puts the last group's records in the order that they have to stand in.
    pub fn order_group(&mut self) {
        let group = self.bytes.split_off(self.group);
        self.bytes.extend(ordered(&group));
    }

    /// Bytes that are free below the limit of a sheet.
    pub fn room(&self) -> usize {
        SHEET_LIMIT.saturating_sub(self.bytes.len())
    }

    /// Can the group take one more record of this length?
    pub fn fits(&self, length: usize) -> bool {
        length <= self.room() && self.in_group < GROUP_LIMIT
    }

    pub fn classes(&self) -> usize {
        self.classes
    }

    pub fn records(&self) -> usize {
        self.records
    }

    pub fn records_in_group(&self) -> usize {
        self.in_group
    }

    pub fn len(&self) -> usize {
        self.bytes.len()
    }

    pub fn is_empty(&self) -> bool {
        self.bytes.is_empty()
    }

    pub fn into_bytes(self) -> Vec<u8> {
        self.bytes
    }
}

fn two_bytes(number: usize) -> [u8; 2] {
    (number as u16).to_le_bytes()
}

/// The shortest names, one for each number: A, B, .., a, .., 9, AA, ..
pub fn short_name(mut number: usize) -> Vec<u8> {
    const LETTERS: &[u8] = b"ABCDEFGHIJKLMNOPQRSTUVWXYZabcdefghijklmnopqrstuvwxyz0123456789";
    let mut name = vec![LETTERS[number % LETTERS.len()]];
    while number >= LETTERS.len() {
        number = number / LETTERS.len() - 1;
        name.insert(0, LETTERS[number % LETTERS.len()]);
    }
    name
}
