//! A library sheet and a user sheet that have passed refusals 2 to 11 and 16.

use crate::class_set::ClassSet;
use crate::markers::{self, Markers, CLOSURE};
use crate::names::Names;
use crate::record::*;
use crate::Refusal;

/// The most classes of two sheets together.
pub const MOST_CLASSES: usize = 256;
/// The most records of a group, its CLASS counted.
const MOST_RECORDS: usize = 255;

/// What is kept of a class, so that it is found without walking its sheet.
pub struct Class {
    pub start: usize,
    pub end: usize,
    pub flags: u16,
    pub own: Markers,
    pub superclass: u16,
    pub encloser: u16,
    /// Its LOCALs or MEMBERs are `items[first_item..first_item + items]`.
    first_item: usize,
    items: usize,
    /// All classes that it lies in.
    pub enclosers: ClassSet,
}

/// A MEMBER or a LOCAL: where it begins, and its number in its group.
#[derive(Clone, Copy)]
pub struct Item {
    pub at: u16,
    pub number: u8,
}

/// A USES record: which class uses a variable of which, and its LOCAL.
pub struct Use {
    pub user: u8,
    pub owner: u8,
    pub local: Item,
}

/// A BUILDS record.
pub struct Build {
    pub builder: u8,
    pub built: u8,
}

pub struct Pair<'a> {
    pub library: &'a [u8],
    pub user: &'a [u8],
    pub library_classes: usize,
    pub classes: Vec<Class>,
    pub overlay: [Markers; MOST_CLASSES],
    pub uses: Vec<Use>,
    pub builds: Vec<Build>,
    /// Each MEMBER and each LOCAL, class by class.
    items: Vec<Item>,
}

impl<'a> Pair<'a> {
    /// Checks two sheets by refusals 2 to 11 and 16.
    pub fn check(library: &'a [u8], user: &'a [u8]) -> Result<Pair<'a>, Refusal> {
        let mut pair = Pair {
            library,
            user,
            library_classes: 0,
            classes: Vec::with_capacity(MOST_CLASSES),
            overlay: [markers::NONE; MOST_CLASSES],
            uses: Vec::new(),
            builds: Vec::new(),
            items: Vec::new(),
        };
        pair.survey(library, 0)?;
        pair.library_classes = pair.classes.len();
        if pair.library_classes == 0 {
            return Err(Refusal::new(7, 0, library.len()));
        }
        pair.survey(user, 1)?;
        pair.link()?;
        pair.check_deemed_markers()?;
        Ok(pair)
    }

    /// First pass over one sheet: refusals 2 to 7 and 16. Fills the row of classes.
    fn survey(&mut self, sheet: &'a [u8], number: u8) -> Result<(), Refusal> {
        let mut records = 0;
        let mut before = CLASS;
        let mut at = 0;
        while at < sheet.len() {
            let refused = |reason| Refusal::new(reason, number, at);
            let record = whole_record(&sheet[at..]).ok_or_else(|| refused(2))?;
            check(record, number == 1, records > 0).map_err(refused)?;
            let kind = kind(record);
            match kind {
                CLASS => {
                    if records > 0 {
                        self.close_group(at);
                    }
                    self.open_group(record, at).ok_or_else(|| refused(7))?;
                    records = 0;
                    // No record of its group is before it.
                    before = CLASS;
                }
                LOCAL | MEMBER => self.items.push(Item {
                    at: at as u16,
                    number: records as u8,
                }),
                _ => {}
            }
            records += 1;
            require(records <= MOST_RECORDS, 7).map_err(refused)?;
            // Document 02, C-13: inside a group kinds never fall.
            require(kind >= before, 16).map_err(refused)?;
            before = kind;
            at += record.len();
        }
        if records > 0 {
            self.close_group(at);
        }
        Ok(())
    }

    /// A new class, if there is room for one.
    fn open_group(&mut self, record: &[u8], start: usize) -> Option<()> {
        if self.classes.len() == MOST_CLASSES {
            return None;
        }
        let class = ClassRecord::read(record);
        self.classes.push(Class {
            start,
            end: start,
            flags: class.flags,
            own: class.own,
            superclass: class.superclass,
            encloser: class.encloser,
            first_item: self.items.len(),
            items: 0,
            enclosers: ClassSet::EMPTY,
        });
        Some(())
    }

    /// The last class's group ends here.
    fn close_group(&mut self, end: usize) {
        if let Some(class) = self.classes.last_mut() {
            class.end = end;
            class.items = self.items.len() - class.first_item;
        }
    }

    /// Second pass over both sheets: refusals 9, 8 and 10. Fills enclosers and overlay markers
    /// on the way, since they come from lower classes only, and the rows of USES and BUILDS.
    fn link(&mut self) -> Result<(), Refusal> {
        let mut names = Names::new(self.classes.len());
        for class in 0..self.classes.len() {
            for (at, record) in self.group(class) {
                self.link_record(class, record, &mut names)
                    .map_err(|reason| Refusal::new(reason, self.sheet_of(class), at))?;
            }
        }
        Ok(())
    }

    fn link_record(
        &mut self,
        class: usize,
        record: Record<'a>,
        names: &mut Names<'a>,
    ) -> Result<(), u8> {
        match record {
            Record::Class(record) => self.link_class(class, &record, names),
            Record::Implements { class: interface } => self.link_interface(class, interface),
            Record::Field { flags, ty } => {
                self.require_type(ty)?;
                require(flags & STATIC != 0 || !self.is_interface(class), 8)
            }
            Record::Local { ty } => self.require_type(ty),
            Record::Uses {
                class: owner,
                index,
            } => self.link_use(class, owner, index),
            Record::Builds { class: built } => {
                self.require_class(built)?;
                self.builds.push(Build {
                    builder: class as u8,
                    built: built as u8,
                });
                Ok(())
            }
            Record::Refers {
                class: owner,
                index,
            } => require(
                owner < self.library_classes && index < self.classes[owner].items,
                9,
            ),
            Record::Member => Ok(()),
        }
    }

    fn link_class(
        &mut self,
        class: usize,
        record: &ClassRecord<'a>,
        names: &mut Names<'a>,
    ) -> Result<(), u8> {
        for named in [record.superclass, record.encloser] {
            require(
                named == NO_CLASS || (named as usize) < self.classes.len(),
                9,
            )?;
        }
        require(self.superclass_fits(class, record), 8)?;
        require(self.encloser_fits(class, record), 8)?;
        require(names.insert(record.name), 10)?;
        self.overlay[class] = CLOSURE[record.own as usize];
        if record.superclass != NO_CLASS {
            self.overlay[class] |= self.overlay[record.superclass as usize];
        }
        if record.encloser != NO_CLASS {
            let encloser = record.encloser as usize;
            let mut enclosers = self.classes[encloser].enclosers;
            enclosers.insert(encloser);
            self.classes[class].enclosers = enclosers;
        }
        Ok(())
    }

    /// Class 0 and interfaces have no superclass, any other has a lower one that is no interface.
    fn superclass_fits(&self, class: usize, record: &ClassRecord) -> bool {
        let interface = record.flags & INTERFACE != 0;
        if record.superclass == NO_CLASS {
            return interface != (class == 0);
        }
        let superclass = record.superclass as usize;
        !interface && superclass < class && !self.is_interface(superclass)
    }

    /// Only user classes have enclosers, lower user classes; an inner class needs one.
    fn encloser_fits(&self, class: usize, record: &ClassRecord) -> bool {
        if record.encloser == NO_CLASS {
            return record.flags & INNER == 0;
        }
        let encloser = record.encloser as usize;
        encloser < class && self.is_user(encloser)
    }

    fn link_interface(&mut self, class: usize, interface: usize) -> Result<(), u8> {
        self.require_class(interface)?;
        require(interface < class && self.is_interface(interface), 8)?;
        self.overlay[class] |= self.overlay[interface];
        Ok(())
    }

    fn link_use(&mut self, class: usize, owner: usize, index: usize) -> Result<(), u8> {
        self.require_class(owner)?;
        let of = &self.classes[owner];
        require(self.is_user(owner) && index < of.items, 9)?;
        let encloses = self.classes[class].enclosers.contains(owner);
        require(owner == class || encloses, 8)?;
        self.uses.push(Use {
            user: class as u8,
            owner: owner as u8,
            local: self.items[of.first_item + index],
        });
        Ok(())
    }

    fn require_class(&self, class: usize) -> Result<(), u8> {
        require(class < self.classes.len(), 9)
    }

    fn require_type(&self, ty: Type) -> Result<(), u8> {
        ty.class().map_or(Ok(()), |class| self.require_class(class))
    }

    /// Refusal 11.
    fn check_deemed_markers(&self) -> Result<(), Refusal> {
        let marked_root = self.overlay[0] != markers::NONE;
        let clashing = |&class: &usize| markers::clash(self.overlay[class]);
        let fault = if marked_root {
            Some(0)
        } else {
            (0..self.library_classes).find(clashing)
        };
        match fault {
            Some(class) => Err(Refusal::new(11, 0, self.classes[class].start)),
            None => Ok(()),
        }
    }

    pub fn is_user(&self, class: usize) -> bool {
        class >= self.library_classes
    }

    pub fn is_interface(&self, class: usize) -> bool {
        self.classes[class].flags & INTERFACE != 0
    }

    pub fn user_classes(&self) -> usize {
        self.classes.len() - self.library_classes
    }

    /// The number of the sheet that holds a class.
    pub fn sheet_of(&self, class: usize) -> u8 {
        self.is_user(class) as u8
    }

    fn sheet_with(&self, class: usize) -> &'a [u8] {
        if self.is_user(class) {
            self.user
        } else {
            self.library
        }
    }

    /// The records of a class's group, each with the byte where it begins.
    pub fn group(&self, class: usize) -> Records<'a> {
        let Class { start, end, .. } = self.classes[class];
        Records {
            sheet: &self.sheet_with(class)[..end],
            at: start,
        }
    }

    pub fn name(&self, class: usize) -> &'a [u8] {
        let sheet = self.sheet_with(class);
        let start = self.classes[class].start;
        &sheet[start + CLASS_NAME..start + number(sheet, start) as usize]
    }

    pub fn local_type(&self, local: Item) -> Type {
        Type::of_local(&self.user[local.at as usize..])
    }

    /// Is this MEMBER of a library class allowed?
    pub fn member_allowed(&self, class: usize, index: usize) -> bool {
        let member = self.items[self.classes[class].first_item + index];
        number(self.library, member.at as usize + 4) & MEMBER_ALLOWED != 0
    }
}

fn require(holds: bool, reason: u8) -> Result<(), u8> {
    if holds {
        Ok(())
    } else {
        Err(reason)
    }
}

/// A walk over records whose lengths are known to be good.
pub struct Records<'a> {
    sheet: &'a [u8],
    at: usize,
}

impl<'a> Iterator for Records<'a> {
    type Item = (usize, Record<'a>);

    #[inline]
    fn next(&mut self) -> Option<Self::Item> {
        let at = self.at;
        if at >= self.sheet.len() {
            return None;
        }
        let end = at + number(self.sheet, at) as usize;
        self.at = end;
        Some((at, Record::read(&self.sheet[at..end])))
    }
}
