//! A pair with the make-up of real code: a program of 65 classes beside the part of Java's library
//! that it names, with as many records of each kind, as much nesting and as many faults as real
//! programs have.

use crate::build::*;
use crate::ordinary::*;
use crate::random::Random;
use crate::real_names::{self as names, FAILURES, INTERFACES, NOT_ALLOWED, TOOLS, VALUES};

pub fn real() -> Pair {
    let mut pair = Real::new(3);
    pair.write_library();
    pair.write_user();
    (pair.library, pair.user)
}

const LIBRARY_IMPLEMENTS: usize = 93;
const MEMBERS: usize = 260;

const IMPLEMENTS: usize = 30;
const FIELDS: usize = 226;
/// Each is used once.
const LOCALS: usize = 5;
const BUILDS: usize = 54;
const REFERS: usize = 531;

/// The library after the classes of BASE: names, superclass, flags and deemed markers.
const LISTS: [(&str, usize, u16, u8); 5] = [
    (INTERFACES, OBJECT, INTERFACE | ALLOWED, 0),
    (VALUES, OBJECT, ALLOWED, POWERLESS | DEEP_SELFLESS),
    (FAILURES, THROWABLE_CLASS, ALLOWED, 0),
    (TOOLS, OBJECT, ALLOWED, 0),
    (NOT_ALLOWED, OBJECT, 0, 0),
];
/// Classes below this one have too few interfaces before them.
const FIRST_IMPLEMENTING: usize = BASE.len() + 8;

#[derive(Clone, Copy, PartialEq)]
enum Shape {
    Plain,
    Inner,
    Interface,
    /// Has own markers.
    Owning,
    /// Implements an interface that has a marker.
    Marked,
    Failure,
}

/// How many user classes there are of each shape and first broken rule, 0 for clean ones:
/// outermost ones, then nested ones.
const CAST: [(Shape, u8, usize, usize); 15] = [
    (Shape::Plain, 0, 7, 7),
    (Shape::Plain, 1, 3, 2),
    (Shape::Plain, 2, 2, 1),
    (Shape::Plain, 5, 2, 2),
    (Shape::Plain, 6, 1, 1),
    (Shape::Inner, 0, 0, 5),
    (Shape::Inner, 1, 0, 1),
    (Shape::Interface, 0, 4, 2),
    (Shape::Interface, 1, 1, 0),
    (Shape::Interface, 5, 1, 0),
    (Shape::Owning, 0, 4, 3),
    (Shape::Owning, 7, 3, 3),
    (Shape::Marked, 0, 2, 2),
    (Shape::Marked, 7, 2, 1),
    (Shape::Failure, 0, 1, 2),
];

/// One of the cast.
#[derive(Clone, Copy)]
struct Part {
    shape: Shape,
    rule: u8,
    nested: bool,
}

impl Part {
    fn breaks(&self, rules: [u8; 2]) -> bool {
        rules.contains(&self.rule)
    }
}

/// What has been written of a class.
struct Known {
    name: String,
    overlay: u8,
    interface: bool,
    library: bool,
    /// Does naming it break no rule?
    allowed: bool,
}

struct Member {
    class: usize,
    index: usize,
    allowed: bool,
}

struct Real {
    random: Random,
    library: Sheet,
    user: Sheet,
    known: Vec<Known>,
    members: Vec<Member>,
    /// The last outermost class, how many there are, and the last class of any depth.
    outermost: usize,
    outermost_count: usize,
    last: usize,
}

impl Real {
    fn new(seed: u64) -> Real {
        Real {
            random: Random::new(seed),
            library: Sheet::new(),
            user: Sheet::new(),
            known: Vec::new(),
            members: Vec::new(),
            outermost: 0,
            outermost_count: 0,
            last: 0,
        }
    }

    /// Deals records out to classes: one to each that needs one, the others so that few classes
    /// get many.
    fn deal(&mut self, total: usize, needs: impl Iterator<Item = bool>) -> Vec<usize> {
        let mut counts: Vec<usize> = needs.map(usize::from).collect();
        let mut order: Vec<usize> = (0..counts.len()).collect();
        self.random.shuffle(&mut order);
        for _ in counts.iter().sum()..total {
            let end = 1 + self.random.below(order.len());
            counts[order[self.random.below(end)]] += 1;
        }
        counts
    }

    /// The classes so far that fit and may be named.
    fn fitting(&self, fits: impl Fn(&Known) -> bool) -> Vec<usize> {
        let classes = self.known.iter().enumerate();
        let fitting = classes.filter(|(_, known)| known.allowed && fits(known));
        fitting.map(|(class, _)| class).collect()
    }

    fn any(&mut self, fits: impl Fn(&Known) -> bool) -> usize {
        let fitting = self.fitting(fits);
        self.random.pick(&fitting)
    }

    /// So many interfaces without markers.
    fn interfaces(&mut self, count: usize) -> Vec<usize> {
        let mut fitting = self.fitting(|known| known.interface && known.overlay == 0);
        self.random.shuffle(&mut fitting);
        fitting.truncate(count);
        fitting
    }

    fn remember(&mut self, name: String, head: Class, interfaces: &[usize], library: bool) {
        let above = interfaces.iter().copied().chain([head.superclass as usize]);
        let above = above.filter_map(|class| self.known.get(class));
        self.known.push(Known {
            name,
            overlay: above.fold(closure(head.own), |all, known| all | known.overlay),
            interface: head.flags & INTERFACE != 0,
            library,
            allowed: !library || head.flags & ALLOWED != 0,
        });
    }

    fn write_library(&mut self) {
        let heads = self.library_heads();
        let implementing = heads.len() - FIRST_IMPLEMENTING;
        let mut implements = vec![0; FIRST_IMPLEMENTING];
        implements.extend(self.deal(LIBRARY_IMPLEMENTS, (0..implementing).map(|_| false)));
        let members = self.deal(MEMBERS, heads.iter().map(|_| true));
        for (class, (name, head)) in heads.into_iter().enumerate() {
            self.library.class(head, name.as_bytes());
            let interfaces = self.interfaces(implements[class]);
            for &interface in &interfaces {
                self.library.implements(interface);
            }
            self.remember(name, head, &interfaces, true);
            for index in 0..members[class] {
                self.write_member(class, index);
            }
        }
    }

    fn library_heads(&mut self) -> Vec<(String, Class)> {
        let mut heads = Vec::new();
        for (number, &(name, flags, own)) in BASE.iter().enumerate() {
            heads.push((
                name.to_string(),
                library_head(number, OBJECT, flags).own(own),
            ));
        }
        for (list, top, flags, own) in LISTS {
            let first = heads.len();
            for name in names::full_names(list) {
                let number = heads.len();
                let superclass = if number > first && self.random.percent(40) {
                    first + self.random.below(number - first)
                } else {
                    top
                };
                heads.push((name, library_head(number, superclass, flags).own(own)));
            }
        }
        heads
    }

    /// One in ten is not allowed.
    fn write_member(&mut self, class: usize, index: usize) {
        let allowed = !self.random.percent(10);
        let name = names::member(&mut self.random);
        self.library.member(allowed, name.as_bytes());
        self.members.push(Member {
            class,
            index,
            allowed,
        });
    }

    fn write_user(&mut self) {
        let parts = self.cast();
        let marked = |part: &Part| part.shape == Shape::Marked;
        let implements = self.deal(IMPLEMENTS, parts.iter().map(marked));
        let fields = self.deal(FIELDS, parts.iter().map(|part| part.breaks([5, 7])));
        let builds = self.deal(BUILDS, parts.iter().map(|_| false));
        let refers = self.deal(REFERS, parts.iter().map(|part| part.breaks([1, 2])));
        let mut locals = 0;
        let mut owner = None;
        for (number, &part) in parts.iter().enumerate() {
            self.write_head(part, implements[number]);
            self.write_fields(part, fields[number]);
            if let Some(owner) = owner.take() {
                self.user.uses(owner, 0);
            }
            let next = parts.get(number + 1).filter(|next| next.nested);
            if let Some(next) = next.filter(|_| !part.nested && locals < LOCALS) {
                self.write_local(next.shape);
                owner = Some(self.last);
                locals += 1;
            }
            self.write_builds(builds[number], parts.len());
            self.write_refers(part, refers[number]);
        }
    }

    /// The cast in any order, but an outermost class first.
    fn cast(&mut self) -> Vec<Part> {
        let mut parts = Vec::new();
        for (shape, rule, outermost, nested) in CAST {
            for place in 0..outermost + nested {
                let nested = place >= outermost;
                parts.push(Part {
                    shape,
                    rule,
                    nested,
                });
            }
        }
        self.random.shuffle(&mut parts);
        let first = parts.iter().position(|part| !part.nested);
        parts.swap(0, first.unwrap_or(0));
        parts
    }

    fn write_head(&mut self, part: Part, implements: usize) {
        let mut head = self.head(part.shape);
        if part.rule == 6 {
            head = head.flags(self.random.pick(&[CALLS_OWN_METHOD, LETS_THIS_OUT]));
        }
        let mut interfaces = self.interfaces(implements);
        if part.shape == Shape::Marked {
            let markers = [IMMUTABLE_INTERFACE, POWERLESS_INTERFACE];
            interfaces[0] = self.random.pick(&markers);
        }
        let class = self.known.len();
        let name = if part.nested {
            let places = [self.outermost, self.outermost, self.last];
            let encloser = self.random.pick(&places);
            head = head.inside(encloser);
            names::nested(&self.known[encloser].name, class)
        } else {
            self.outermost = class;
            self.outermost_count += 1;
            names::outermost(self.outermost_count - 1)
        };
        self.last = class;
        self.user.class(head, name.as_bytes());
        for &interface in &interfaces {
            self.user.implements(interface);
        }
        self.remember(name, head, &interfaces, false);
    }

    fn head(&mut self, shape: Shape) -> Class {
        let plain = Class::below(OBJECT);
        match shape {
            Shape::Plain if self.random.percent(50) => {
                let superclass = self.any(|known| known.overlay == 0 && !known.interface);
                Class::below(superclass)
            }
            Shape::Plain | Shape::Marked => plain,
            Shape::Inner => plain.flags(INNER),
            Shape::Interface => Class::interface(),
            Shape::Owning => {
                let by_value = (POWERLESS | SELFLESS, BY_VALUE);
                let kinds = [(IMMUTABLE, 0), (POWERLESS, 0), by_value];
                let (own, flags) = self.random.pick(&kinds);
                plain.own(own).flags(flags)
            }
            Shape::Failure => {
                let superclass = self.any(|known| known.library && known.overlay & THROWABLE != 0);
                Class::below(superclass)
            }
        }
    }

    /// One of them breaks the rule, if it is one about fields.
    fn write_fields(&mut self, part: Part, count: usize) {
        let broken = part.breaks([5, 7]).then(|| self.random.below(count));
        for field in 0..count {
            let (flags, ty) = if broken == Some(field) {
                self.broken_field(part)
            } else {
                self.sound_field()
            };
            let name = names::field(&mut self.random);
            self.user.field(flags, ty, name.as_bytes());
        }
    }

    fn broken_field(&mut self, part: Part) -> (u16, Type) {
        let flags = if part.rule == 5 { STATIC } else { 0 };
        if part.shape == Shape::Interface || self.random.percent(50) {
            (flags | FINAL, object(STRING).array())
        } else {
            (flags, INT)
        }
    }

    fn sound_field(&mut self) -> (u16, Type) {
        let known = &self.known[self.last];
        let markers = known.overlay & (IMMUTABLE | POWERLESS | DEEP_SELFLESS);
        if known.interface || self.random.percent(25) {
            return (STATIC | FINAL, self.type_with(POWERLESS));
        }
        let mutable = markers == 0 && self.random.percent(50);
        let flags = if mutable { 0 } else { FINAL };
        (flags, self.type_with(markers))
    }

    fn type_with(&mut self, markers: u8) -> Type {
        match self.random.below(10) {
            0..=3 => self.random.pick(&[INT, LONG, BOOLEAN, DOUBLE]),
            4 | 5 => object(STRING),
            6 if markers == 0 => object(STRING).array(),
            _ => object(self.any(|known| known.overlay & markers == markers)),
        }
    }

    /// A variable for the next class, which may capture any if no marker asks it for more.
    fn write_local(&mut self, next: Shape) {
        let class = match next {
            Shape::Plain | Shape::Inner => FILE,
            _ => STRING,
        };
        let name = names::field(&mut self.random);
        self.user.local(object(class), name.as_bytes());
    }

    /// Classes with markers build none that could capture.
    fn write_builds(&mut self, count: usize, users: usize) {
        let marked = self.known[self.last].overlay != 0;
        for _ in 0..count {
            let class = if marked || self.random.percent(50) {
                self.any(|known| known.library && !known.interface)
            } else {
                self.library.classes() + self.random.below(users)
            };
            self.user.builds(class);
        }
    }

    /// One of them breaks the rule, if it is one about names and members.
    fn write_refers(&mut self, part: Part, count: usize) {
        let broken = part.breaks([1, 2]).then(|| self.random.below(count));
        for record in 0..count {
            let rule = if broken == Some(record) { part.rule } else { 0 };
            let fits = |member: &&Member| match (self.known[member.class].allowed, rule) {
                (allowed, 1) => !allowed,
                (allowed, 2) => allowed && !member.allowed,
                (allowed, _) => allowed && member.allowed,
            };
            let fitting: Vec<_> = self.members.iter().filter(fits).collect();
            let member = self.random.pick(&fitting);
            self.user.refers(member.class, member.index);
        }
    }
}
