//! The reference beside the documents' definitions, written down as plainly as they read: relations
//! over lists, searched without cleverness. Random pairs are judged by both.

use std::collections::{BTreeSet, HashSet};
use std::ops::Range;

use reference::{add, judge, replace, withdraw, Refusal, SCRATCH_BYTES, VERDICT_BYTES};
use sheets::kinds::CLASS;
use sheets::{damage, families, groups, kind, random_group, random_pair, records, Random, Site};

const NO_CLASS: u16 = 0xFFFF;
const PAIRS: u64 = 40_000;

#[derive(Clone, Copy)]
struct Type {
    dimensions: u8,
    code: u8,
    class: usize,
}

/// Where something stands: a record number, and the class whose record it is.
type Place = (usize, usize);

/// A slot: a field, an encloser or a captured variable.
struct Slot {
    place: Place,
    ty: Type,
    is_final: bool,
    is_transient: bool,
}

enum Record {
    Implements(usize),
    Field { flags: u16, ty: Type },
    Local(Type),
    Uses(usize, usize),
    Builds(usize),
    Member { allowed: bool },
    Refers(usize, usize),
}

struct Class {
    flags: u16,
    own: u8,
    superclass: Option<usize>,
    encloser: Option<usize>,
    /// The records after the CLASS.
    records: Vec<Record>,
}

/// An accepted pair.
struct Pair {
    library: usize,
    classes: Vec<Class>,
}

fn number(bytes: &[u8], at: usize) -> u16 {
    bytes[at] as u16 + 256 * bytes[at + 1] as u16
}

fn parse_type(bytes: &[u8]) -> Type {
    Type {
        dimensions: bytes[0],
        code: bytes[1],
        class: number(bytes, 2) as usize,
    }
}

fn parse_sheet(mut sheet: &[u8]) -> Vec<Class> {
    let mut classes: Vec<Class> = Vec::new();
    while !sheet.is_empty() {
        let (record, rest) = sheet.split_at(number(sheet, 0) as usize);
        sheet = rest;
        let class = |at| number(record, at) as usize;
        let optional = |at| (number(record, at) != NO_CLASS).then(|| class(at));
        let parsed = match number(record, 2) {
            1 => {
                classes.push(Class {
                    flags: number(record, 4),
                    own: record[6],
                    superclass: optional(8),
                    encloser: optional(10),
                    records: Vec::new(),
                });
                continue;
            }
            2 => Record::Implements(class(4)),
            3 => Record::Field {
                flags: number(record, 4),
                ty: parse_type(&record[6..]),
            },
            4 => Record::Local(parse_type(&record[4..])),
            5 => Record::Uses(class(4), class(6)),
            6 => Record::Builds(class(4)),
            7 => Record::Member {
                allowed: record[4] & 1 != 0,
            },
            _ => Record::Refers(class(4), class(6)),
        };
        classes.last_mut().expect("a class").records.push(parsed);
    }
    classes
}

impl Pair {
    fn parse(library: &[u8], user: &[u8]) -> Pair {
        let mut classes = parse_sheet(library);
        let library = classes.len();
        classes.extend(parse_sheet(user));
        Pair { library, classes }
    }

    fn is_user(&self, class: usize) -> bool {
        class >= self.library
    }

    /// The closure of the own markers of a class and all its supertypes.
    fn overlay(&self, class: usize) -> u8 {
        let mut supertypes = HashSet::from([class]);
        let mut open = vec![class];
        while let Some(next) = open.pop() {
            let of = &self.classes[next];
            let interfaces = of.records.iter().filter_map(|record| match record {
                Record::Implements(interface) => Some(*interface),
                _ => None,
            });
            for above in interfaces.chain(of.superclass) {
                if supertypes.insert(above) {
                    open.push(above);
                }
            }
        }
        let own = |class: &usize| self.classes[*class].own;
        least_closed(supertypes.iter().map(own).fold(0, |all, own| all | own))
    }

    fn satisfies(&self, ty: Type, marker: u8) -> bool {
        match ty {
            Type { dimensions, .. } if dimensions > 0 => false,
            Type { code, .. } if code > 0 => true,
            Type { class, .. } => self.overlay(class) & marker != 0,
        }
    }

    fn strictly_inside(&self, class: usize, owner: usize) -> bool {
        match self.classes[class].encloser {
            Some(encloser) => encloser == owner || self.strictly_inside(encloser, owner),
            None => false,
        }
    }

    /// The variables that a class captures, by owner and index.
    fn captured(&self, class: usize) -> BTreeSet<(usize, usize)> {
        let mut variables = BTreeSet::new();
        for owner in 0..self.classes.len() {
            if !self.strictly_inside(class, owner) {
                continue;
            }
            let mut chain = HashSet::from([class]);
            let mut open = vec![class];
            while let Some(next) = open.pop() {
                for record in &self.classes[next].records {
                    match *record {
                        Record::Uses(of, index) if of == owner => {
                            variables.insert((of, index));
                        }
                        Record::Builds(built)
                            if self.strictly_inside(built, owner) && chain.insert(built) =>
                        {
                            open.push(built);
                        }
                        _ => {}
                    }
                }
            }
        }
        variables
    }

    /// The record number and the type of a variable.
    fn local(&self, class: usize, index: usize) -> (usize, Type) {
        let mut locals = self
            .records(class)
            .filter_map(|(number, record)| match record {
                Record::Local(ty) => Some((number, *ty)),
                _ => None,
            });
        locals.nth(index).expect("a LOCAL")
    }

    /// The records after the CLASS, with their numbers.
    fn records(&self, class: usize) -> impl Iterator<Item = (usize, &Record)> {
        (1..).zip(&self.classes[class].records)
    }

    fn member_allowed(&self, class: usize, index: usize) -> bool {
        let members = self.classes[class].records.iter();
        let mut allowed = members.filter_map(|record| match record {
            Record::Member { allowed } => Some(*allowed),
            _ => None,
        });
        allowed.nth(index).expect("a MEMBER")
    }

    /// A class and its superclasses upward.
    fn lineage(&self, class: usize) -> Vec<usize> {
        std::iter::successors(Some(class), |&class| self.classes[class].superclass).collect()
    }

    /// The slots of one class: "the encloser (record 0), FIELDs in order, captured variables by
    /// class and index (place: the LOCAL, class: its owner)".
    fn own_slots(&self, class: usize) -> Vec<Slot> {
        let fixed = |place, ty| Slot {
            place,
            ty,
            is_final: true,
            is_transient: false,
        };
        let of = &self.classes[class];
        let mut slots = Vec::new();
        if of.flags & 2 != 0 {
            let encloser = Type {
                dimensions: 0,
                code: 0,
                class: of.encloser.expect("inner needs an encloser"),
            };
            slots.push(fixed((0, class), encloser));
        }
        for (number, record) in self.records(class) {
            match *record {
                Record::Field { flags, ty } if flags & 4 == 0 => slots.push(Slot {
                    place: (number, class),
                    ty,
                    is_final: flags & 1 != 0,
                    is_transient: flags & 2 != 0,
                }),
                _ => {}
            }
        }
        for (owner, index) in self.captured(class) {
            let (number, ty) = self.local(owner, index);
            slots.push(fixed((number, owner), ty));
        }
        slots
    }

    /// Document 02, C-16: "own class, then upward".
    fn slots(&self, class: usize) -> Vec<Slot> {
        let lineage = self.lineage(class).into_iter();
        let users = lineage.filter(|&class| self.is_user(class));
        users.flat_map(|class| self.own_slots(class)).collect()
    }

    /// The first library class upward.
    fn root(&self, class: usize) -> usize {
        let mut lineage = self.lineage(class).into_iter();
        lineage.find(|&class| !self.is_user(class)).expect("a root")
    }

    fn forbidden(&self, class: usize) -> bool {
        !self.is_user(class) && self.classes[class].flags & 256 == 0
    }

    fn names(&self, record: &Record) -> Option<usize> {
        match *record {
            Record::Field { ty, .. } | Record::Local(ty) => (ty.code == 0).then_some(ty.class),
            Record::Implements(class)
            | Record::Uses(class, _)
            | Record::Builds(class)
            | Record::Refers(class, _) => Some(class),
            Record::Member { .. } => None,
        }
    }

    /// The places where a class breaks a rule, in the order of records or of the walk.
    fn broken(&self, class: usize, rule: u8) -> Vec<Place> {
        match rule {
            1..=6 => self.broken_records(class, rule),
            _ => self.broken_in_walk(class, rule),
        }
    }

    /// The records that break one of rules 1 to 6.
    fn broken_records(&self, class: usize, rule: u8) -> Vec<Place> {
        let head = self.head_breaks(class, rule).then_some(0);
        let records = self.records(class);
        let broken = records.filter(|(_, record)| self.record_breaks(rule, record));
        let numbers = head.into_iter().chain(broken.map(|(number, _)| number));
        numbers.map(|number| (number, class)).collect()
    }

    /// Does the CLASS break one of rules 1 to 6?
    fn head_breaks(&self, class: usize, rule: u8) -> bool {
        let of = &self.classes[class];
        let overlay = self.overlay(class);
        match rule {
            1 => {
                let mut named = of.superclass.into_iter().chain(of.encloser);
                named.any(|class| self.forbidden(class))
            }
            3 => of.own & (16 | 32 | 64) != 0,
            4 => overlay & 18 == 18 || overlay & 12 == 12,
            6 => of.flags & 0xE0 != 0,
            _ => false,
        }
    }

    /// Does a later record break one of them?
    fn record_breaks(&self, rule: u8, record: &Record) -> bool {
        match (rule, record) {
            (1, record) => self
                .names(record)
                .is_some_and(|class| self.forbidden(class)),
            (2, &Record::Refers(class, index)) => !self.member_allowed(class, index),
            // Document 02, C-11: of a Powerless type.
            (5, &Record::Field { flags, ty }) => {
                flags & 4 != 0 && (flags & 1 == 0 || !self.satisfies(ty, 2))
            }
            _ => false,
        }
    }

    /// What breaks one of rules 7 to 10: slots, then what comes after them.
    fn broken_in_walk(&self, class: usize, rule: u8) -> Vec<Place> {
        let marker = [1, 2, 4, 128][rule as usize - 7];
        let interface = self.classes[class].flags & 1 != 0;
        if interface || self.overlay(class) & marker == 0 {
            return vec![];
        }
        let slots = self.slots(class).into_iter();
        let broken = slots.filter(|slot| match rule {
            7 => !slot.is_final || !self.satisfies(slot.ty, marker),
            9 => !slot.is_final || slot.is_transient,
            _ => !self.satisfies(slot.ty, marker),
        });
        let last = match rule {
            9 => self.second_part_breaks(class).then_some((0, class)),
            _ => self.broken_root(class, marker),
        };
        broken.map(|slot| slot.place).chain(last).collect()
    }

    /// Document 02, C-16: "then a root fault, naming the root and 0".
    fn broken_root(&self, class: usize, marker: u8) -> Option<Place> {
        let root = self.root(class);
        (root != 0 && self.overlay(root) & marker == 0).then_some((0, root))
    }

    /// Rule 9's: "either the superclass is Selfless, or it is class 0 with flags 2 and 3 set and 4
    /// clear".
    fn second_part_breaks(&self, class: usize) -> bool {
        let of = &self.classes[class];
        let superclass = of.superclass.expect("a superclass");
        let by_value = superclass == 0 && of.flags & 0b11100 == 0b01100;
        self.overlay(superclass) & 4 == 0 && !by_value
    }

    fn line(&self, class: usize) -> [u8; VERDICT_BYTES] {
        for rule in 1..=10 {
            if let Some(&(record, class)) = self.broken(class, rule).first() {
                return [rule, record as u8, class as u8];
            }
        }
        [0; VERDICT_BYTES]
    }

    fn lines(&self) -> Vec<u8> {
        let users = self.library..self.classes.len();
        users.flat_map(|class| self.line(class)).collect()
    }

    /// The classes that the records of a class name.
    fn named_by(&self, class: usize) -> Vec<usize> {
        let of = &self.classes[class];
        let named = of.records.iter().filter_map(|record| self.names(record));
        named.chain(of.superclass).chain(of.encloser).collect()
    }

    fn stands_on(&self, from: usize, to: usize) -> bool {
        let mut met = HashSet::from([from]);
        let mut open = vec![from];
        while let Some(class) = open.pop() {
            for next in self.named_by(class) {
                if met.insert(next) {
                    open.push(next);
                }
            }
        }
        met.contains(&to)
    }
}

fn least_closed(set: u8) -> u8 {
    let gives = [(2, 1), (16, 1 | 8), (32, 2), (64, 8), (128, 4)];
    let grown = gives
        .iter()
        .filter(|(marker, _)| set & marker != 0)
        .fold(set, |all, (_, given)| all | given);
    if grown == set {
        set
    } else {
        least_closed(grown)
    }
}

/// Where records begin whose kind is lower than that of the one before them in their group.
fn falls(sheet: &[u8]) -> Vec<usize> {
    let (mut at, mut rows) = (0, Vec::new());
    for record in records(sheet) {
        rows.push((at, kind(record)));
        at += record.len();
    }
    let falling = |two: &&[(usize, usize)]| two[1].1 != CLASS && two[1].1 < two[0].1;
    let found = rows.windows(2).filter(falling);
    found.map(|two| two[1].0).collect()
}

/// Document 02, C-13: refusal 16 blames the first fall of two sheets. The other refusals of the
/// first pass come before it or blame the same record; with all later answers there is none.
fn check_order(library: &[u8], user: &[u8], refusal: Option<Refusal>) {
    let in_library = falls(library).into_iter().map(|at| (0, at));
    let in_user = falls(user).into_iter().map(|at| (1, at));
    let first = in_library.chain(in_user).next();
    match refusal.map(|refusal| (refusal.number, (refusal.sheet, refusal.byte))) {
        Some((16, place)) => assert_eq!(first, Some(place)),
        Some((2..=7, place)) => assert!(first.is_none_or(|first| first >= place)),
        _ => assert_eq!(first, None),
    }
}

fn judged(library: &[u8], user: &[u8]) -> Result<Vec<u8>, Refusal> {
    let mut verdicts = vec![0xEE; 256 * VERDICT_BYTES];
    let mut scratch = vec![0; SCRATCH_BYTES];
    let answer = judge(library, user, user.len(), &mut verdicts, &mut scratch);
    check_order(library, user, answer.err());
    verdicts.truncate(VERDICT_BYTES * answer?.classes);
    Ok(verdicts)
}

/// What random pairs have met.
#[derive(Default)]
struct Met {
    accepted: u64,
    /// Broken rules, and whether at a later record than 0.
    places: HashSet<(u8, bool)>,
    sites: HashSet<(u8, Site)>,
    refusals: HashSet<(u8, u8)>,
}

impl Met {
    fn note_lines(&mut self, library: usize, users: &[&[u8]], lines: &[u8]) {
        self.accepted += 1;
        for (class, line) in (library..).zip(lines.chunks(VERDICT_BYTES)) {
            let line = [line[0], line[1], line[2]];
            if line[0] > 0 {
                self.places.insert((line[0], line[1] > 0));
                let site = Site::of(line, class, library, users);
                self.sites.insert((line[0], site));
            }
        }
    }

    /// Each rule is broken at each place and site where it can be, and at no other site.
    fn require_rules(&self) {
        for rule in 1..=10 {
            let zero = ![2, 5].contains(&rule);
            let later = ![3, 4, 6].contains(&rule);
            let met = |later| self.places.contains(&(rule, later));
            assert!(!zero || met(false), "rule {rule}");
            assert!(!later || met(true), "rule {rule}");
        }
        let of_rule = |rule| Site::of_rule(rule).iter().map(move |&site| (rule, site));
        assert_eq!(self.sites, (1..=10).flat_map(of_rule).collect());
    }

    fn require_refusals(&self) {
        let met = |number, sheet| self.refusals.contains(&(number, sheet));
        for number in 2..=11 {
            assert!(met(number, 0) || met(number, 1), "refusal {number}");
        }
        assert!(met(16, 0) && met(16, 1), "refusal 16");
    }
}

#[test]
fn random_pairs_get_the_lines_of_the_definitions() {
    let mut met = Met::default();
    for seed in 0..PAIRS {
        let (library, user) = random_pair(seed);
        match judged(&library, &user) {
            Ok(lines) => {
                let pair = Pair::parse(&library, &user);
                assert_eq!(lines, pair.lines(), "seed {seed}");
                met.note_lines(pair.library, &groups(&user), &lines);
            }
            Err(refusal) => {
                met.refusals.insert((refusal.number, refusal.sheet));
            }
        }
    }
    let share = met.accepted * 100 / PAIRS;
    assert!((40..=60).contains(&share), "{share} in a hundred accepted");
    met.require_rules();
    met.require_refusals();
}

#[test]
fn families_get_the_lines_of_the_definitions() {
    // The slow definitions take a while on whole sheets; these have something to capture.
    let chosen = ["typical", "full", "real", "last_local"];
    for family in families() {
        if chosen.contains(&family.name) {
            let plain = Pair::parse(&family.library, &family.user).lines();
            let lines = judged(&family.library, &family.user);
            assert!(lines == Ok(plain), "{}", family.name);
        }
    }
}

/// Two sheets that calls change, and their lines.
#[derive(Clone, PartialEq)]
struct Desk {
    library: Vec<u8>,
    user: Vec<u8>,
    used: usize,
    lines: Vec<u8>,
    scratch: Vec<u8>,
}

/// A group to add, or to put in the place of a class.
struct Edit {
    adding: bool,
    class: usize,
    group: Vec<u8>,
}

impl Edit {
    fn draw(random: &mut Random, pair: &Pair) -> Edit {
        let classes = pair.classes.len();
        let adding = random.percent(40);
        let class = if adding {
            classes
        } else {
            random.below(classes + 1)
        };
        let mut group = random_group(random.number(), pair.library, classes, class);
        if random.percent(10) {
            group = damage(random.number(), &group);
        }
        Edit {
            adding,
            class,
            group,
        }
    }
}

impl Desk {
    /// A random pair with its lines and room for more, if it is accepted.
    fn draw(seed: u64) -> Option<Desk> {
        let (library, user) = random_pair(seed);
        let mut lines = judged(&library, &user).ok()?;
        lines.resize(40 * VERDICT_BYTES + 1, 0xEE);
        Some(Desk {
            library,
            used: user.len(),
            user: [&user[..], &[0xEE; 300]].concat(),
            lines,
            scratch: vec![0xEE; SCRATCH_BYTES],
        })
    }

    fn pair(&self) -> Pair {
        Pair::parse(&self.library, &self.user[..self.used])
    }

    fn call(&mut self, edit: &Edit) -> Result<usize, Refusal> {
        let (library, group) = (&self.library, &edit.group);
        let (user, used) = (&mut self.user, &mut self.used);
        let (lines, scratch) = (&mut self.lines, &mut self.scratch);
        if edit.adding {
            add(library, user, used, group, lines, scratch)
        } else {
            replace(library, user, used, edit.class, group, lines, scratch)
        }
    }

    /// The user sheet with the group in its place.
    fn edited(&self, edit: &Edit) -> Vec<u8> {
        let number = edit.class - groups(&self.library).len();
        with_group(&self.user[..self.used], number, &edit.group)
    }

    /// Of an accepted call: the new class's number, or how many classes stand on the replaced one.
    fn expected_answer(&self, edit: &Edit) -> usize {
        if edit.adding {
            return edit.class;
        }
        let pair = self.pair();
        let classes = 0..pair.classes.len();
        classes
            .filter(|&from| pair.stands_on(from, edit.class))
            .count()
    }

    /// A refused call changed nothing.
    fn check_refused(&self, before: &Desk, edit: &Edit, refusal: Refusal) {
        assert!(self == before);
        if !(13..=15).contains(&refusal.number) {
            check_order(&self.library, &self.edited(edit), Some(refusal));
        }
    }

    /// An accepted call put the group in its place; the lines are those of judging from nothing.
    fn check_accepted(&self, before: &Desk, edit: &Edit) {
        let used = &self.user[..self.used];
        assert_eq!(used, before.edited(edit));
        let end = self.used.max(before.used);
        assert!(self.user[self.used..end].iter().all(|&byte| byte == 0));
        assert_eq!(self.user[end..], before.user[end..]);
        let fresh = judged(&self.library, used).expect("an accepted call");
        let (lines, past) = self.lines.split_at(fresh.len());
        assert!(lines == fresh);
        assert!(past.iter().all(|&byte| byte == 0xEE));
        assert!(self.scratch.iter().all(|&byte| byte == 0));
    }
}

/// Whatever the calls, the lines stay those of judging from nothing, refused calls change nothing,
/// and a replacement counts and rewrites exactly the classes that stand on it.
#[test]
fn histories() {
    let (mut adds, mut replaces, mut falling) = (0, 0, 0);
    for seed in 0..6_000 {
        let Some(mut desk) = Desk::draw(seed) else {
            continue;
        };
        let mut random = Random::new(!seed);
        for _ in 0..8 {
            let edit = Edit::draw(&mut random, &desk.pair());
            desk.scratch.fill(0xEE);
            let before = desk.clone();
            match desk.call(&edit) {
                Err(refusal) => {
                    desk.check_refused(&before, &edit, refusal);
                    falling += (refusal.number == 16) as usize;
                }
                Ok(answer) => {
                    desk.check_accepted(&before, &edit);
                    assert_eq!(answer, desk.expected_answer(&edit), "seed {seed}");
                    adds += edit.adding as usize;
                    replaces += !edit.adding as usize;
                }
            }
        }
    }
    assert!(adds > 1_000 && replaces > 1_000, "{adds} {replaces}");
    assert!(falling > 100, "{falling}");
}

/// The last class is taken out, again and again, until none is left or another class names it. The
/// lines stay those of judging from nothing; only the group's bytes and its line become zero.
#[test]
fn withdrawals() {
    let (mut withdrawn, mut emptied, mut named) = (0, 0, 0);
    for seed in 0..6_000 {
        let (library, start) = random_pair(seed);
        let Ok(mut lines) = judged(&library, &start) else {
            continue;
        };
        let mut user = [&start[..], &[0xEE; 9]].concat();
        let mut used = start.len();
        loop {
            let pair = Pair::parse(&library, &user[..used]);
            let last = pair.classes.len() - 1;
            let (mut bytes, mut row, end) = (user.clone(), lines.clone(), used);
            let mut length = end;
            let answer = withdraw(&library, &mut user, &mut used, &mut lines);
            if !pair.is_user(last) {
                emptied += 1;
                assert_eq!(answer.map_err(|refusal| refusal.number), Err(13));
            } else if (0..last).any(|other| pair.named_by(other).contains(&last)) {
                named += 1;
                assert_eq!(answer.map_err(|refusal| refusal.number), Err(17));
            } else {
                withdrawn += 1;
                assert_eq!(answer, Ok(last), "seed {seed}");
                length = group_bytes(&bytes[..end], last - pair.library).start;
                bytes[length..end].fill(0);
                row[VERDICT_BYTES * (last - pair.library)..][..VERDICT_BYTES].fill(0);
            }
            assert!((&user, used, &lines) == (&bytes, length, &row));
            if answer.is_err() {
                break;
            }
            let fresh = judged(&library, &user[..used]).expect("an accepted call");
            assert!(lines[..fresh.len()] == fresh, "seed {seed}");
        }
    }
    let counts = [withdrawn, emptied, named];
    assert!(counts.iter().all(|&count| count > 500), "{counts:?}");
}

/// The user sheet with a group in the place of a user class, or after the last.
fn with_group(user: &[u8], number: usize, group: &[u8]) -> Vec<u8> {
    let old = group_bytes(user, number);
    [&user[..old.start], group, &user[old.end..]].concat()
}

/// Where a user class's group lies in its sheet; after the last class there is an empty one.
fn group_bytes(user: &[u8], number: usize) -> Range<usize> {
    let lengths: Vec<_> = groups(user).iter().map(|group| group.len()).collect();
    let start = lengths[..number].iter().sum();
    start..start + lengths.get(number).unwrap_or(&0)
}
