//! The ten rules.

use crate::captures::{first_captured, FirstCaptured, Variable, ASKED};
use crate::markers::*;
use crate::pair::Pair;
use crate::record::*;

/// A set of rules, rule 1 in bit 1.
type Rules = u16;

/// One more than the highest rule.
const RULES: usize = 11;

const RULE_1: Rules = 1 << 1;
const RULE_2: Rules = 1 << 2;
const RULE_3: Rules = 1 << 3;
const RULE_4: Rules = 1 << 4;
const RULE_5: Rules = 1 << 5;
const RULE_6: Rules = 1 << 6;
const RULE_7: Rules = 1 << 7;
const RULE_8: Rules = 1 << 8;
const RULE_9: Rules = 1 << 9;
const RULE_10: Rules = 1 << 10;
const NO_RULE: Rules = 0;
/// The rules for every user class, interfaces too.
const COMMON: Rules = RULE_1 | RULE_2 | RULE_3 | RULE_4 | RULE_5 | RULE_6;
/// The rules about slots, which go up the superclasses.
const OF_SLOTS: Rules = RULE_7 | RULE_8 | RULE_9 | RULE_10;

/// The marker that rule 5 asks of a static field's type (document 02, C-11).
const STATIC_MARKER: Markers = POWERLESS;

/// The lowest broken rule, and the record and the class in which its first fault sits; all 0 for a
/// clean class.
#[derive(Clone, Copy, PartialEq, Eq)]
pub struct Verdict {
    pub rule: u8,
    pub record: u8,
    pub class: u8,
}

impl Verdict {
    pub const CLEAN: Verdict = Verdict {
        rule: 0,
        record: 0,
        class: 0,
    };
}

/// Finds the verdict of each user class, in class order.
pub fn judge_classes(pair: &Pair, mut found: impl FnMut(usize, Verdict)) {
    let mut judge = Judge::new(pair);
    for class in pair.library_classes..pair.classes.len() {
        found(class, judge.verdict(class));
    }
}

/// The rules that ask a class for something because it has these markers:
/// 7, 8 and 9 for Immutable, Powerless and Selfless, 10 for DeepSelfless.
fn rules_for(markers: Markers) -> Rules {
    const FIRST_THREE: Markers = IMMUTABLE | POWERLESS | SELFLESS;
    ((markers & FIRST_THREE) as Rules) << 7 | ((markers & DEEP_SELFLESS) as Rules) << 3
}

/// The rules that a slot breaks by its type. Rule 9 asks nothing of types.
fn broken_by_type(markers: Markers) -> Rules {
    rules_for(!markers) & !RULE_9
}

/// The rules that an instance field breaks.
fn broken_by_field(flags: u16, type_markers: Markers) -> Rules {
    let not_final = flags & FINAL == 0;
    let not_steady = not_final || flags & TRANSIENT != 0;
    broken_by_type(type_markers) | given(not_final, RULE_7) | given(not_steady, RULE_9)
}

fn given(condition: bool, rules: Rules) -> Rules {
    if condition {
        rules
    } else {
        NO_RULE
    }
}

/// The first fault of each rule, as they come.
#[derive(Clone, Copy)]
struct Faults {
    broken: Rules,
    /// Of each broken rule: record and class.
    first: [(u8, u8); RULES],
}

impl Faults {
    const NONE: Faults = Faults {
        broken: NO_RULE,
        first: [(0, 0); RULES],
    };

    /// These rules are broken here; those broken before keep their first fault.
    fn note(&mut self, rules: Rules, record: usize, class: usize) {
        self.note_each(rules, |_| (record as u8, class as u8));
    }

    /// Goes on with faults that come after the ones noted here.
    fn go_on(&mut self, rules: Rules, after: &Faults) {
        self.note_each(after.broken & rules, |rule| after.first[rule]);
    }

    fn note_each(&mut self, rules: Rules, place: impl Fn(usize) -> (u8, u8)) {
        let mut new = rules & !self.broken;
        self.broken |= new;
        while new != NO_RULE {
            let rule = new.trailing_zeros() as usize;
            self.first[rule] = place(rule);
            new &= new - 1;
        }
    }

    /// The lowest broken one of the rules.
    fn verdict(&self, asked: Rules) -> Verdict {
        let broken = self.broken & asked;
        if broken == NO_RULE {
            return Verdict::CLEAN;
        }
        let rule = broken.trailing_zeros() as usize;
        let (record, class) = self.first[rule];
        Verdict {
            rule: rule as u8,
            record,
            class,
        }
    }
}

struct Judge<'p, 'a> {
    pair: &'p Pair<'a>,
    captured: FirstCaptured,
    /// For each class what the walk from it upward meets: its own slots, then those of its
    /// superclasses, then the root.
    walks: Vec<Faults>,
}

impl<'p, 'a> Judge<'p, 'a> {
    fn new(pair: &'p Pair<'a>) -> Self {
        let mut walks = Vec::with_capacity(pair.classes.len());
        walks.extend((0..pair.library_classes).map(|root| root_faults(pair, root)));
        Judge {
            pair,
            captured: first_captured(pair),
            walks,
        }
    }

    /// The verdict of a class, those of lower numbers being known.
    fn verdict(&mut self, class: usize) -> Verdict {
        let mut faults = self.own_faults(class);
        if self.pair.is_interface(class) {
            self.walks.push(faults);
            return faults.verdict(COMMON);
        }
        let superclass = self.pair.classes[class].superclass as usize;
        faults.go_on(OF_SLOTS, &self.walks[superclass]);
        self.walks.push(faults);
        // This comes last, and no class inherits it.
        let by_value = self.compares_by_value(superclass, class);
        faults.note(given(!by_value, RULE_9), 0, class);
        faults.verdict(COMMON | rules_for(self.pair.overlay[class]))
    }

    /// The faults of a class's records and own slots: encloser, fields, captured variables.
    fn own_faults(&self, class: usize) -> Faults {
        let mut faults = Faults::NONE;
        for (number, (_, record)) in self.pair.group(class).enumerate() {
            faults.note(self.broken_by(class, record), number, class);
        }
        for (marker, variable) in ASKED.into_iter().zip(self.captured[class]) {
            if let Some(Variable { owner, local }) = variable {
                faults.note(rules_for(marker), local.number as usize, owner as usize);
            }
        }
        faults
    }

    /// The rules that a record of the class breaks. The CLASS stands for the encloser.
    fn broken_by(&self, class: usize, record: Record) -> Rules {
        match record {
            Record::Class(_) => self.broken_by_class(class),
            Record::Field { flags, ty } => self.broken_by_naming_in(ty) | self.field(flags, ty),
            Record::Refers { class, index } => {
                let allowed = self.pair.member_allowed(class, index);
                self.broken_by_naming(class) | given(!allowed, RULE_2)
            }
            Record::Local { ty } => self.broken_by_naming_in(ty),
            Record::Implements { class } | Record::Builds { class } => self.broken_by_naming(class),
            // USES names user classes only, and MEMBER stands in libraries only.
            Record::Uses { .. } | Record::Member => NO_RULE,
        }
    }

    fn broken_by_class(&self, class: usize) -> Rules {
        let of = &self.pair.classes[class];
        let mut broken = given(of.own & (TOKEN | THROWABLE | ENUM) != 0, RULE_3)
            | given(clash(self.pair.overlay[class]), RULE_4)
            | given(of.flags & UNSAFE_INITIALIZATION != 0, RULE_6);
        if of.superclass != NO_CLASS {
            broken |= self.broken_by_naming(of.superclass as usize);
        }
        if of.flags & INNER != 0 {
            broken |= broken_by_type(self.pair.overlay[of.encloser as usize]);
        }
        broken
    }

    /// The rules that a field breaks by its flags and its type.
    fn field(&self, flags: u16, ty: Type) -> Rules {
        let markers = ty.markers(&self.pair.overlay);
        if flags & STATIC == 0 {
            return broken_by_field(flags, markers);
        }
        let sound = flags & FINAL != 0 && markers & STATIC_MARKER != 0;
        given(!sound, RULE_5)
    }

    /// Rule 9's second part.
    fn compares_by_value(&self, superclass: usize, class: usize) -> bool {
        let inherits = self.pair.overlay[superclass] & SELFLESS != 0;
        let flags = self.pair.classes[class].flags;
        inherits || superclass == 0 && flags & EQUALITY == OVERRIDES_BOTH
    }

    fn broken_by_naming_in(&self, ty: Type) -> Rules {
        ty.class()
            .map_or(NO_RULE, |class| self.broken_by_naming(class))
    }

    /// Rule 1: a library class has to be allowed.
    fn broken_by_naming(&self, class: usize) -> Rules {
        let allowed = self.pair.classes[class].flags & CLASS_ALLOWED != 0;
        given(!self.pair.is_user(class) && !allowed, RULE_1)
    }
}

/// What a walk finds at its end: a library class that breaks rules, unless it is class 0.
fn root_faults(pair: &Pair, root: usize) -> Faults {
    let mut faults = Faults::NONE;
    if root != 0 {
        faults.note(broken_by_type(pair.overlay[root]), 0, root);
    }
    faults
}
