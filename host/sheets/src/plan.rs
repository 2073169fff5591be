//! Two sheets drawn class by class before they are written.

use crate::build::*;
use crate::homes::name_near_the_end;
use crate::kinds;
use crate::random::Random;
use crate::read::{class_name, groups, kind, number, records};

/// Own markers worth trying.
pub const OWN: [u8; 20] = [
    0, 0, 0, 0, 1, 1, 1, 2, 2, 4, 4, 8, 128, 128, 130, 129, 5, 16, 9, 12,
];
/// Deemed markers of library classes.
const DEEMED: [u8; 14] = [0, 0, 0, 1, 2, 4, 8, 16, 32, 64, 128, 130, 66, 3];
/// So many pairs in a hundred, and so many groups drawn alone, need not keep the order of kinds.
pub const LOOSE_IN_100: usize = 4;
/// In so many pairs in a hundred class names meet in the last places of an index.
const MEETING_IN_100: usize = 6;

/// A class before its records are written.
struct Draft {
    class: Class,
    overlay: u8,
    interfaces: Vec<usize>,
    /// How many LOCALs (user) or MEMBERs (library) it has.
    items: usize,
    name: String,
}

impl Draft {
    fn is_interface(&self) -> bool {
        self.class.flags & INTERFACE != 0
    }
}

/// Both sheets before they are written.
pub struct Plan {
    library: usize,
    drafts: Vec<Draft>,
    /// The class whose group gets one wrong record, and which.
    wrong: Option<(usize, usize)>,
    /// The class whose group gets at least so many records.
    long: Option<(usize, usize)>,
    /// From this class on some records stand behind ones of a higher kind.
    loose: Option<usize>,
    /// Do the names meet in the last places of an index?
    meeting: bool,
}

impl Plan {
    pub fn new(random: &mut Random, library: usize, users: usize) -> Plan {
        let mut plan = Plan::empty(library);
        plan.meeting = random.percent(MEETING_IN_100);
        let nesting = random.pick(&[20, 50, 90]);
        for class in 0..library + users {
            let draft = plan.draft(random, class, nesting);
            plan.drafts.push(draft);
        }
        if random.percent(LOOSE_IN_100) {
            let any = random.below(library + users);
            // Often all, since few library groups have records of two kinds.
            plan.loose = Some(random.pick(&[0, 0, any]));
        }
        plan
    }

    /// The plan of a pair that is accepted, so that a group can be drawn for it.
    pub fn read(library: &[u8], user: &[u8]) -> Plan {
        let library = groups(library);
        let mut plan = Plan::empty(library.len());
        for group in library.into_iter().chain(groups(user)) {
            let draft = plan.read_draft(group);
            plan.drafts.push(draft);
        }
        plan
    }

    fn empty(library: usize) -> Plan {
        Plan {
            library,
            drafts: Vec::new(),
            wrong: None,
            long: None,
            loose: None,
            meeting: false,
        }
    }

    fn read_draft(&self, group: &[u8]) -> Draft {
        let class = Class {
            flags: number(group, 4) as u16,
            own: group[6],
            superclass: number(group, 8) as u16,
            encloser: number(group, 10) as u16,
        };
        let of_kind = |wanted| records(group).filter(move |record| kind(record) == wanted);
        let interfaces: Vec<_> = of_kind(kinds::IMPLEMENTS)
            .map(|record| number(record, 4))
            .collect();
        let above = self.drafts.get(class.superclass as usize).into_iter();
        let above = above.chain(interfaces.iter().map(|&number| &self.drafts[number]));
        Draft {
            class,
            overlay: above.fold(closure(class.own), |all, draft| all | draft.overlay),
            items: of_kind(kinds::LOCAL).chain(of_kind(kinds::MEMBER)).count(),
            name: String::from_utf8_lossy(class_name(group)).into_owned(),
            interfaces,
        }
    }

    fn is_user(&self, class: usize) -> bool {
        class >= self.library
    }

    /// A class that stands on lower ones.
    fn draft(&self, random: &mut Random, class: usize, nesting: usize) -> Draft {
        let mut draft = Draft {
            class: Class::object(),
            overlay: 0,
            interfaces: Vec::new(),
            items: random.below(4),
            name: self.draw_name(random, class),
        };
        if class > 0 {
            draft.class = self.head(random, class, nesting);
            self.give_markers(random, class, &mut draft);
        }
        draft
    }

    /// A name of its own for each number, now and then a long one.
    fn draw_name(&self, random: &mut Random, class: usize) -> String {
        let mut name = format!("C{class}");
        if self.meeting {
            name.push('_');
            return name_near_the_end(&name, random.below(4));
        }
        if random.percent(4) {
            let rest = random.below(NAME_LIMIT + 1 - name.len());
            name.extend((0..rest).map(|_| random.pick(&['!', '~', '_', '$'])));
        }
        name
    }

    fn head(&self, random: &mut Random, class: usize, nesting: usize) -> Class {
        let mut head = if random.percent(25) {
            Class::interface()
        } else {
            Class::below(self.superclass(random, class))
        };
        if !self.is_user(class) {
            head.flags |= if random.percent(85) { ALLOWED } else { 0 };
            return head;
        }
        if class > self.library && random.percent(nesting) {
            let deepest = random.percent(60);
            let step = if deepest {
                1
            } else {
                1 + random.below(class - self.library)
            };
            head.encloser = (class - step) as u16;
            head.flags |= if random.percent(25) { INNER } else { 0 };
        }
        head.flags |= random.pick(&[0, BY_VALUE, BY_VALUE, BY_VALUE, 0b11100, 0b0100]);
        if random.percent(5) {
            head.flags |= 1 << (5 + random.below(3));
        }
        head
    }

    fn superclass(&self, random: &mut Random, class: usize) -> usize {
        let any = random.below(class);
        if self.drafts[any].is_interface() || random.percent(30) {
            0
        } else {
            any
        }
    }

    /// Own markers and interfaces, in the library without a clash.
    fn give_markers(&self, random: &mut Random, class: usize, draft: &mut Draft) {
        let user = self.is_user(class);
        let may_clash = user && random.percent(10);
        let superclass = draft.class.superclass;
        if superclass != NO_CLASS {
            draft.overlay = self.drafts[superclass as usize].overlay;
        }
        let own = if random.percent(6) {
            random.number() as u8
        } else {
            random.pick(if user { &OWN[..] } else { &DEEMED[..] })
        };
        if may_clash || !clash(draft.overlay | closure(own)) {
            draft.class.own = own;
            draft.overlay |= closure(own);
        }
        // A few interfaces, however many there are.
        let chance = 30.min(300 / class);
        for (number, lower) in self.drafts[..class].iter().enumerate() {
            let fits = may_clash || !clash(draft.overlay | lower.overlay);
            if lower.is_interface() && fits && random.percent(chance) {
                draft.interfaces.push(number);
                draft.overlay |= lower.overlay;
            }
        }
    }

    /// A mistake that the passes have to find, mostly; sometimes two in one class, of which the
    /// right one has to be found.
    pub fn slip(&mut self, random: &mut Random) {
        let class = random.below(self.drafts.len());
        self.slip_in(random, class);
        if random.percent(25) {
            self.slip_in(random, class);
        }
    }

    fn slip_in(&mut self, random: &mut Random, class: usize) {
        let other = random.below(self.drafts.len() + 2);
        let of_other = self.drafts.get(other).map(|draft| draft.name.clone());
        let draft = &mut self.drafts[class];
        match random.below(10) {
            0 => draft.class.superclass = other as u16,
            1 => draft.class.encloser = other as u16,
            2 => draft.class.flags ^= INTERFACE,
            3 => draft.class.flags ^= 1 << random.below(16),
            4 => draft.class.own = random.number() as u8,
            5 => draft.interfaces.push(other),
            6 | 7 => draft.name = of_other.unwrap_or_default(),
            _ => {
                self.wrong = Some((class, random.below(8)));
                self.loosen(random, class);
            }
        }
    }

    /// Now and then the record with a mistake, or one too many, is out of order too.
    fn loosen(&mut self, random: &mut Random, class: usize) {
        if random.percent(20) {
            self.loose = Some(class);
        }
    }

    /// A library class that asks too much: class 0 with markers, or any with clashing ones.
    pub fn slip_markers(&mut self, random: &mut Random) {
        let class = random.below(self.library);
        self.drafts[class].class.own |= random.pick(&[0b10010, 0b1100, 0b1000_1000, 0b110_0000]);
    }

    /// Gives one group about as many records as it may have.
    pub fn lengthen(&mut self, random: &mut Random) {
        let class = random.below(self.drafts.len());
        let records = GROUP_LIMIT - 2 + random.below(4);
        let others = 10 + self.drafts[class].interfaces.len();
        self.drafts[class].items = records.saturating_sub(others);
        self.long = Some((class, records));
        self.loosen(random, class);
    }

    /// Draws a user class anew, or the one after the last. What other classes ask of it is kept
    /// mostly: its name, its encloser, that it is an interface, its LOCALs.
    pub fn redraw(&mut self, random: &mut Random, class: usize) {
        let mut draft = self.draft(random, class, 50);
        let tag = random.below(1000);
        draft.name = format!("N{tag}");
        if let Some(old) = self.drafts.get(class) {
            keep(random, &mut draft, old);
        }
        if random.percent(4) {
            draft.name = self.any_name(random);
        }
        if random.percent(LOOSE_IN_100) {
            self.loose = Some(class);
        }
        match self.drafts.get_mut(class) {
            Some(place) => *place = draft,
            None => self.drafts.push(draft),
        }
    }

    fn any_name(&self, random: &mut Random) -> String {
        self.drafts[random.below(self.drafts.len())].name.clone()
    }

    pub fn write(&self, random: &mut Random) -> Pair {
        let mut sheets = [Sheet::new(), Sheet::new()];
        for class in 0..self.drafts.len() {
            self.write_group(random, class, &mut sheets[self.is_user(class) as usize]);
        }
        sheets.into()
    }

    pub fn write_group(&self, random: &mut Random, class: usize, sheet: &mut Sheet) {
        let draft = &self.drafts[class];
        sheet.class(draft.class, draft.name.as_bytes());
        let mut body = self.body(random, class);
        let late = body.split_off(body.len() - self.late(random, class, body.len()));
        for part in body {
            self.write_record(random, class, part, sheet);
        }
        if let Some((_, records)) = self.long.filter(|&(long, _)| long == class) {
            while sheet.records_in_group() < records {
                self.write_record(random, class, self.filler(class), sheet);
            }
        }
        sheet.order_group();
        for part in late {
            self.write_record(random, class, part, sheet);
        }
    }

    /// How many of the group's records are put last, whatever their kinds.
    fn late(&self, random: &mut Random, class: usize, body: usize) -> usize {
        match self.loose {
            Some(first) if first <= class => random.pick(&[1, 2, body]).min(body),
            _ => 0,
        }
    }

    fn filler(&self, class: usize) -> Part {
        if self.is_user(class) {
            Part::Builds
        } else {
            Part::Item
        }
    }

    /// What the group holds beside its CLASS, a wrong record last.
    fn body(&self, random: &mut Random, class: usize) -> Vec<Part> {
        let draft = &self.drafts[class];
        let mut body: Vec<Part> = draft.interfaces.iter().map(|&i| Part::Extends(i)).collect();
        body.extend((0..draft.items).map(|_| Part::Item));
        if self.is_user(class) {
            for _ in 0..random.below(7) {
                body.push(random.pick(&[
                    Part::Field,
                    Part::Field,
                    Part::Uses,
                    Part::Builds,
                    Part::Builds,
                    Part::Refers,
                ]));
            }
        }
        random.shuffle(&mut body);
        if let Some((_, kind)) = self.wrong.filter(|&(wrong, _)| wrong == class) {
            body.push(Part::Wrong(kind));
        }
        body
    }

    fn write_record(&self, random: &mut Random, class: usize, part: Part, sheet: &mut Sheet) {
        match part {
            Part::Extends(interface) => {
                sheet.implements(interface);
            }
            Part::Item if self.is_user(class) => {
                sheet.local(self.any_type(random), b"v");
            }
            Part::Item => {
                sheet.member(random.percent(85), b"m");
            }
            Part::Field => self.write_field(random, class, sheet),
            Part::Uses => self.write_uses(random, class, sheet),
            Part::Builds => {
                sheet.builds(self.any_class(random));
            }
            Part::Refers => self.write_refers(random, sheet),
            Part::Wrong(kind) => self.write_wrong(random, kind, sheet),
        }
    }

    fn any_class(&self, random: &mut Random) -> usize {
        let users = self.drafts.len() - self.library;
        if users > 0 && random.percent(75) {
            self.library + random.below(users)
        } else {
            random.below(self.library)
        }
    }

    fn any_type(&self, random: &mut Random) -> Type {
        let class = object(self.any_class(random));
        match random.below(10) {
            0 => class.array(),
            1 => INT.array(),
            2..=5 => primitive(1 + random.below(8) as u8),
            _ => class,
        }
    }

    /// A type that suits the class's markers more often than not.
    fn fitting_type(&self, random: &mut Random, class: usize) -> Type {
        let needed = self.drafts[class].overlay & (IMMUTABLE | POWERLESS | DEEP_SELFLESS);
        for _ in 0..4 {
            let other = self.any_class(random);
            if self.drafts[other].overlay & needed == needed {
                return object(other);
            }
        }
        self.any_type(random)
    }

    fn write_field(&self, random: &mut Random, class: usize, sheet: &mut Sheet) {
        let interface = self.drafts[class].is_interface();
        let mut flags = if random.percent(90) { FINAL } else { 0 };
        if random.percent(8) {
            flags |= TRANSIENT;
        }
        if interface || random.percent(15) {
            flags |= STATIC;
        }
        let ty = self.fitting_type(random, class);
        sheet.field(flags, ty, b"f");
    }

    /// Uses a variable of the class or of one that encloses it, if there is any.
    fn write_uses(&self, random: &mut Random, class: usize, sheet: &mut Sheet) {
        let mut owners = vec![class];
        let mut encloser = self.drafts[class].class.encloser as usize;
        // A slip may have put a loop here.
        while encloser < self.drafts.len() && owners.len() <= self.drafts.len() {
            owners.push(encloser);
            encloser = self.drafts[encloser].class.encloser as usize;
        }
        owners.retain(|&owner| self.is_user(owner) && self.drafts[owner].items > 0);
        if !owners.is_empty() {
            let owner = random.pick(&owners);
            sheet.uses(owner, random.below(self.drafts[owner].items));
        }
    }

    fn write_refers(&self, random: &mut Random, sheet: &mut Sheet) {
        let class = random.below(self.library);
        let members = self.drafts[class].items;
        if members > 0 {
            sheet.refers(class, random.below(members));
        }
    }

    fn write_wrong(&self, random: &mut Random, kind: usize, sheet: &mut Sheet) {
        let least = random.pick(&[0, 0, self.drafts.len()]);
        let class = least + random.below(self.drafts.len() + 2 - least);
        match kind {
            0 => sheet.uses(class, random.below(4)),
            1 => sheet.refers(class, random.below(4)),
            2 => sheet.builds(class),
            3 => sheet.implements(class),
            4 => sheet.field(random.below(9) as u16, object(class), b"f"),
            5 => sheet.local(primitive(random.below(10) as u8), b"bad name"),
            6 => sheet.record(random.below(10), &[b"body"]),
            _ => sheet.member(true, &[b'm'; NAME_LIMIT + 1]),
        };
    }
}

/// Keeps what other classes ask of the class that the draft takes the place of.
fn keep(random: &mut Random, draft: &mut Draft, old: &Draft) {
    if random.percent(60) {
        draft.name = old.name.clone();
    }
    if random.percent(85) {
        draft.class.encloser = old.class.encloser;
        if old.class.encloser == NO_CLASS {
            draft.class.flags &= !INNER;
        }
    }
    if random.percent(95) {
        draft.items = draft.items.max(old.items);
    }
    if draft.is_interface() != old.is_interface() && random.percent(95) {
        draft.class.flags ^= INTERFACE;
        draft.class.superclass = old.class.superclass;
    }
}

#[derive(Clone, Copy)]
enum Part {
    Extends(usize),
    Item,
    Field,
    Uses,
    Builds,
    Refers,
    Wrong(usize),
}
