//! Sheets as planners write them: mixed kinds, mostly clean.

use crate::build::*;
use crate::random::Random;

pub fn typical() -> Pair {
    Mixed::new(1).write(20, 2_000, 40, 7_000)
}

pub fn full() -> Pair {
    Mixed::new(2).write(56, 12_000, 200, SHEET_LIMIT)
}

/// The library classes that each ordinary pair has.
pub const BASE: [(&str, u16, u8); 11] = [
    ("java.lang.Object", ALLOWED, 0),
    ("org.joe_e.Immutable", INTERFACE | ALLOWED, IMMUTABLE),
    ("org.joe_e.Powerless", INTERFACE | ALLOWED, POWERLESS),
    ("org.joe_e.Selfless", INTERFACE | ALLOWED, SELFLESS),
    ("org.joe_e.Equatable", INTERFACE | ALLOWED, EQUATABLE),
    ("org.joe_e.Token", ALLOWED, TOKEN),
    ("java.lang.Throwable", ALLOWED, THROWABLE),
    ("java.lang.Enum", ALLOWED, ENUM),
    ("java.lang.String", ALLOWED, POWERLESS | DEEP_SELFLESS),
    ("java.io.File", ALLOWED, 0),
    ("java.lang.System", 0, 0),
];
pub const OBJECT: usize = 0;
pub const IMMUTABLE_INTERFACE: usize = 1;
pub const POWERLESS_INTERFACE: usize = 2;
const SELFLESS_INTERFACE: usize = 3;
const EQUATABLE_INTERFACE: usize = 4;
const TOKEN_CLASS: usize = 5;
pub const THROWABLE_CLASS: usize = 6;
pub const STRING: usize = 8;
pub const FILE: usize = 9;
const SYSTEM: usize = 10;

/// A library class, below a superclass if it can have one.
pub fn library_head(number: usize, superclass: usize, flags: u16) -> Class {
    let head = match number {
        OBJECT => Class::object(),
        _ if flags & INTERFACE != 0 => Class::interface(),
        _ => Class::below(superclass),
    };
    head.flags(flags)
}

/// LOCALs of a service: two that anybody may capture, one that only it uses.
const CLEAN_LOCALS: usize = 2;

/// What has been written of a class.
struct Known {
    overlay: u8,
    members: usize,
}

/// What the next class is, in turn.
#[derive(Clone, Copy)]
enum Pattern {
    Service,
    ImmutableValue,
    PowerlessValue,
    ComparedValue,
    Nested,
    Token,
    Interface,
    DeepValue,
    Failure,
    InnerPart,
}

const PATTERNS: [Pattern; 10] = [
    Pattern::Service,
    Pattern::ImmutableValue,
    Pattern::Nested,
    Pattern::PowerlessValue,
    Pattern::ComparedValue,
    Pattern::InnerPart,
    Pattern::Token,
    Pattern::Interface,
    Pattern::DeepValue,
    Pattern::Failure,
];

struct Mixed {
    random: Random,
    library: Sheet,
    user: Sheet,
    known: Vec<Known>,
    /// The last class of some patterns.
    service: usize,
    nested: Option<usize>,
    deep: usize,
    interface: usize,
}

impl Mixed {
    fn new(seed: u64) -> Mixed {
        Mixed {
            random: Random::new(seed),
            library: Sheet::new(),
            user: Sheet::new(),
            known: Vec::new(),
            service: OBJECT,
            nested: None,
            deep: OBJECT,
            interface: IMMUTABLE_INTERFACE,
        }
    }

    /// So many classes in about so many bytes; a user sheet up to the limit is filled to its end.
    fn write(
        mut self,
        library_classes: usize,
        library_bytes: usize,
        user_classes: usize,
        user_bytes: usize,
    ) -> Pair {
        for number in 0..library_classes {
            self.library_class(number, library_bytes * (number + 1) / library_classes);
        }
        for number in 0..user_classes {
            self.user_class(number, user_bytes * (number + 1) / user_classes);
        }
        if user_bytes == SHEET_LIMIT {
            self.fill_up();
        }
        (self.library, self.user)
    }

    fn library_class(&mut self, number: usize, end: usize) {
        let name = format!("java.util.planning.Part{number}");
        let other = (name.as_str(), ALLOWED, self.random.pick(&[0, 0, 1, 130]));
        let (name, flags, own) = BASE.get(number).copied().unwrap_or(other);
        let head = library_head(number, OBJECT, flags);
        self.library.class(head.own(own), name.as_bytes());
        let mut members = 0;
        while members == 0 || self.library.len() + 20 < end {
            let name = format!("method{members}");
            // One in nine is not allowed.
            self.library.member(members % 9 != 8, name.as_bytes());
            members += 1;
        }
        self.known.push(Known {
            overlay: closure(own),
            members,
        });
    }

    fn user_class(&mut self, number: usize, end: usize) {
        let pattern = PATTERNS[number % PATTERNS.len()];
        let class = self.known.len();
        let (head, interfaces) = self.head(pattern);
        let name = format!("com.example.planning.Class{number}");
        self.user.class(head, name.as_bytes());
        for &interface in &interfaces {
            self.user.implements(interface);
        }
        self.known.push(Known {
            overlay: self.overlay(head, &interfaces),
            members: 0,
        });
        self.write_captures(pattern, class);
        let interface = head.flags & INTERFACE != 0;
        let mut field = 0;
        while self.user.len() + 24 < end {
            self.write_record(class, interface, field);
            field += 1;
        }
        self.user.order_group();
        self.remember(pattern, class);
    }

    fn head(&mut self, pattern: Pattern) -> (Class, Vec<usize>) {
        let plain = Class::below(OBJECT);
        match pattern {
            Pattern::Service => (plain, vec![]),
            Pattern::ImmutableValue => (plain, vec![IMMUTABLE_INTERFACE]),
            Pattern::PowerlessValue => (plain.own(POWERLESS), vec![self.interface]),
            Pattern::ComparedValue => (
                plain.flags(BY_VALUE).own(IMMUTABLE),
                vec![SELFLESS_INTERFACE],
            ),
            Pattern::Nested => {
                let place = self.nested.filter(|_| self.random.percent(50));
                let encloser = place.unwrap_or(self.service);
                (plain.own(IMMUTABLE).inside(encloser), vec![])
            }
            Pattern::Token => (Class::below(TOKEN_CLASS), vec![EQUATABLE_INTERFACE]),
            Pattern::Interface => (
                Class::interface(),
                vec![self.interface, POWERLESS_INTERFACE],
            ),
            Pattern::DeepValue => {
                let first = self.deep == OBJECT;
                let flags = if first { BY_VALUE } else { 0 };
                let head = Class::below(self.deep).flags(flags);
                (head.own(POWERLESS | DEEP_SELFLESS), vec![])
            }
            Pattern::Failure => (Class::below(THROWABLE_CLASS), vec![]),
            Pattern::InnerPart => (plain.flags(INNER).inside(self.service), vec![]),
        }
    }

    fn overlay(&self, head: Class, interfaces: &[usize]) -> u8 {
        let mut overlay = closure(head.own);
        if head.superclass != NO_CLASS {
            overlay |= self.known[head.superclass as usize].overlay;
        }
        for &interface in interfaces {
            overlay |= self.known[interface].overlay;
        }
        overlay
    }

    /// LOCALs of services, USES and BUILDS of the classes in them.
    fn write_captures(&mut self, pattern: Pattern, class: usize) {
        match pattern {
            Pattern::Service => {
                self.user.local(object(STRING), b"title");
                self.user.local(INT, b"shift");
                self.user.local(object(FILE), b"plan").uses(class, 2);
            }
            Pattern::Nested => {
                let local = self.random.below(CLEAN_LOCALS);
                self.user.uses(self.service, local);
                if let Some(other) = self.nested {
                    self.user.builds(other);
                }
            }
            Pattern::InnerPart => {
                self.user.uses(self.service, 2).builds(class);
            }
            _ => {}
        }
    }

    fn remember(&mut self, pattern: Pattern, class: usize) {
        match pattern {
            Pattern::Service => {
                self.service = class;
                self.nested = None;
            }
            Pattern::Nested => self.nested = Some(class),
            Pattern::DeepValue => self.deep = class,
            Pattern::Interface => self.interface = class,
            _ => {}
        }
    }

    /// One more record, clean but for a few in a hundred.
    fn write_record(&mut self, class: usize, interface: bool, number: usize) {
        let name = format!("value{number}");
        let slip = self.random.below(250) == 0;
        match self.random.below(10) {
            0 | 1 => self.write_refers(slip),
            2 => {
                let built = if slip { SYSTEM } else { self.any_class() };
                self.user.builds(built);
            }
            3 | 4 => {
                let ty = self.type_with(POWERLESS);
                let flags = if slip { STATIC } else { STATIC | FINAL };
                self.user.field(flags, ty, name.as_bytes());
            }
            _ if interface => {
                self.user.field(STATIC | FINAL, LONG, name.as_bytes());
            }
            _ => {
                let markers = self.known[class].overlay;
                let ty = self.type_with(markers & (IMMUTABLE | POWERLESS | DEEP_SELFLESS));
                let mutable = slip || markers == 0 && self.random.percent(50);
                let flags = if mutable { 0 } else { FINAL };
                self.user.field(flags, ty, name.as_bytes());
            }
        }
    }

    fn write_refers(&mut self, slip: bool) {
        let class = self.random.below(self.library.classes());
        let class = if class == SYSTEM { STRING } else { class };
        let members = self.known[class].members;
        let index = self.random.below(members);
        let allowed = if index % 9 == 8 { index - 1 } else { index };
        self.user
            .refers(class, if slip { members - 1 } else { allowed });
    }

    /// Any class that is allowed; nested ones build only what they name themselves.
    fn any_class(&mut self) -> usize {
        let class = self.random.below(self.library.classes());
        if class == SYSTEM {
            OBJECT
        } else {
            class
        }
    }

    fn type_with(&mut self, markers: u8) -> Type {
        if self.random.percent(40) {
            return self.random.pick(&[INT, LONG, BOOLEAN, DOUBLE]);
        }
        if markers == 0 && self.random.percent(20) {
            return object(STRING).array();
        }
        for _ in 0..8 {
            let class = self.random.below(self.known.len());
            if class != SYSTEM && self.known[class].overlay & markers == markers {
                return object(class);
            }
        }
        object(STRING)
    }

    /// Constants with long names up to the last byte.
    fn fill_up(&mut self) {
        while self.user.fits(FIELD_LENGTHS.0) {
            let room = self.user.room();
            self.user.constant(room);
        }
        self.user.order_group();
    }
}
