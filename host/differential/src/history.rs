//! A history: two sheets, and calls upon them of any sort, good and bad ones in turn.

use kerdzhusi::{INDEX_PLACES, SCRATCH_BYTES, SHEET_BYTES, VERDICT_BYTES};
use sheets::{
    broken_group, damage, edited_group, fitting_group, groups, random_group, varied_pair, Random,
};

use crate::call::{Answer, Call, Value};
use crate::desk::{Desk, Difference};
use crate::examiner::Examiner;
use crate::forms::form_length;
use crate::lent::Side;
use crate::names::{class_names, ABSENT};
use crate::searcher::Searcher;
use crate::stock::{Stock, MOST_PLACES};
use crate::tally::Tally;

/// Verdicts that a row has room for: one more than there can be classes.
const ROW: usize = 257 * VERDICT_BYTES;
/// More bytes than lie around a part that is lent.
const MARGIN: usize = 64;
/// Sheets of more bytes get fewer calls.
const LONG: usize = 4_000;

pub struct History<'a> {
    random: Random,
    stock: &'a Stock,
    desk: Desk,
    /// Were the sheets accepted so far?
    sound: bool,
    /// Is their canonical form still to be written, and are their names still to be looked up?
    fresh: bool,
}

/// Those who look at accepted sheets.
pub struct Experts<'a> {
    pub examiner: Examiner<'a>,
    pub searcher: Searcher<'a>,
}

/// How many classes there are.
struct Classes {
    library: usize,
    all: usize,
}

impl<'a> History<'a> {
    pub fn new(seed: u64, number: u64, stock: &'a Stock) -> History<'a> {
        let mut random = Random::new(seed.rotate_left(32) ^ number);
        let (library, user) = draw_pair(&mut random, stock);
        let sound = reference::marks(&library, &user, user.len(), 0).is_ok();
        let desk = Desk::new(lay_out(&mut random, stock, &library, &user));
        History {
            random,
            stock,
            desk,
            sound,
            fresh: true,
        }
    }

    /// Makes all calls of the history.
    pub fn run(&mut self, experts: &mut Experts, tally: &mut Tally) -> Result<(), Box<Difference>> {
        for _ in 0..self.draw_length() {
            let (call, answer) = self.step()?;
            tally.count(call, answer, self.desk.side());
            tally.undone += self.desk.undone as u64;
            self.look_at_sheets(call, answer, experts, tally)?;
        }
        Ok(())
    }

    /// Has the form of each pair of sheets that is accepted written and names looked up in it, and
    /// looks closely at the forms that a call wrote.
    fn look_at_sheets(
        &mut self,
        call: Call,
        answer: Answer,
        experts: &mut Experts,
        tally: &mut Tally,
    ) -> Result<(), Box<Difference>> {
        let (random, sheets) = (&mut self.random, self.desk.side());
        let Experts { examiner, searcher } = experts;
        if answer.0.is_ok() && self.fresh {
            self.fresh = false;
            examiner.write(random, sheets, &mut tally.forms)?;
            searcher.search(random, sheets, &mut tally.searches)?;
        }
        match (call, answer.0) {
            (Call::Canonical, Ok(Value::Number(length))) => {
                let form = &sheets.out.part()[..length];
                examiner.examine(random, sheets, form, &mut tally.forms)
            }
            _ => Ok(()),
        }
    }

    fn draw_length(&mut self) -> usize {
        let side = self.desk.side();
        let bytes = side.library.part().len() + side.used;
        match (self.sound, bytes) {
            (false, _) => 3,
            (true, LONG..) => 8,
            (true, _) => 12 + self.random.below(12),
        }
    }

    fn step(&mut self) -> Result<(Call, Answer), Box<Difference>> {
        // The last call may have been lent a part of the sheet only.
        self.desk.change(|side| side.user.lend(usize::MAX));
        let call = self.draw_call();
        self.lend_buffers(call);
        let before = if self.random.percent(12) {
            let before = self.desk.side().clone();
            self.distort();
            // What comes now does not follow it at once.
            self.desk.addition = None;
            Some(before)
        } else {
            None
        };
        let judged = self.desk.judged;
        self.desk.judged &= before.is_none();
        let answer = self.desk.call(call)?;
        if answer.0.is_ok() {
            self.fresh |= before.is_some() || call.changes_sheets();
            self.sound |= before.is_some();
        } else if let Some(before) = before {
            self.desk.restore(before);
            self.desk.judged = judged;
        }
        Ok((call, answer))
    }

    fn classes(&self) -> Classes {
        let library = groups(self.desk.side().library.part()).len();
        let all = library + groups(self.desk.side().user_sheet()).len();
        Classes { library, all }
    }

    fn draw_call(&mut self) -> Call {
        let classes = self.classes();
        // What was just added is often taken back.
        if self.desk.addition.is_some() && self.random.percent(30) {
            return Call::Withdraw;
        }
        // Verdicts of other sheets are soon judged anew.
        if self.sound && !self.desk.judged && self.random.percent(50) {
            return Call::Judge;
        }
        match self.random.below(100) {
            0..=10 => Call::Judge,
            11..=31 => {
                self.draw_group(&classes, classes.all);
                Call::Add
            }
            32..=64 => {
                let class = self.draw_user_class(&classes);
                self.draw_group(&classes, class);
                Call::Replace(class)
            }
            65..=72 => Call::Withdraw,
            73..=79 => Call::Canonical,
            80..=84 => Call::Index,
            85..=90 => {
                self.draw_name();
                Call::Lookup
            }
            91..=95 => Call::Name(self.draw_class(&classes)),
            _ => Call::Marks(self.draw_class(&classes)),
        }
    }

    /// Any class number, mostly one in use.
    fn draw_class(&mut self, classes: &Classes) -> usize {
        let random = &mut self.random;
        let class = random.below(classes.all.max(1));
        match random.below(20) {
            0 => random.pick(&[classes.all, classes.all + 1, 255, 256, 65_535, usize::MAX]),
            1 => class + (1 << random.pick(&[8, 16, 32, 48, 63])),
            _ => class,
        }
    }

    /// Mostly a user class, and more often a low one, on which more classes depend.
    fn draw_user_class(&mut self, classes: &Classes) -> usize {
        let users = classes.all - classes.library;
        if users == 0 || self.random.percent(8) {
            return self.draw_class(classes);
        }
        let lower = self.random.below(users).min(self.random.below(users));
        classes.library + lower
    }

    /// Lends the name of a class, mostly.
    fn draw_name(&mut self) {
        let (random, names) = (&mut self.random, class_names(self.desk.side()));
        let class = random.below(names.len().max(1));
        let name = names.get(class).copied().unwrap_or_default();
        let name = if random.percent(40) {
            random.pick(&ABSENT).0.draw(random, name)
        } else {
            name.to_vec()
        };
        let lent = self.stock.lend(random, &name);
        self.desk.change(|side| side.name.copy(&lent));
    }

    /// Lends a group for a class, or for the one after the last.
    fn draw_group(&mut self, classes: &Classes, class: usize) {
        let group = if self.sound && (classes.library..=classes.all).contains(&class) {
            self.group_for(classes, class)
        } else {
            self.group_for_none(classes)
        };
        let lent = self.stock.lend(&mut self.random, &group);
        self.desk.change(|side| side.group = lent.clone());
    }

    /// A group for sheets that are refused or a number that no user class has.
    fn group_for_none(&mut self, classes: &Classes) -> Vec<u8> {
        let random = &mut self.random;
        let group = random_group(random.number(), classes.library, classes.all, classes.all);
        if random.percent(40) {
            broken_group(random, &group)
        } else {
            group
        }
    }

    fn group_for(&mut self, classes: &Classes, class: usize) -> Vec<u8> {
        let (random, side) = (&mut self.random, self.desk.side());
        let (library, user) = (side.library.part(), side.user_sheet());
        let present = groups(user);
        let old = present.get(class - classes.library);
        let group = match old {
            Some(group) if random.percent(50) => edited_group(random, group, classes.all),
            _ => fitting_group(random, library, user, class),
        };
        match random.below(100) {
            0..=6 => broken_group(random, &group),
            7..=11 => damage(random.number(), &group),
            12 if !present.is_empty() => random.pick(&present).to_vec(),
            _ => group,
        }
    }

    /// Scratch of any content, and lengths that are enough or not quite.
    fn lend_buffers(&mut self, call: Call) {
        let classes = self.classes();
        let verdicts = classes.all - classes.library + (call == Call::Add) as usize;
        let row = self.draw_row_length(verdicts * VERDICT_BYTES);
        let user = self.draw_user_length(call, &classes);
        self.desk.change(|side| {
            side.verdicts.lend(row);
            side.user.lend(user);
        });
        match call {
            Call::Judge | Call::Add | Call::Replace(_) => self.lend_scratch(),
            Call::Canonical => self.lend_output(),
            Call::Index | Call::Lookup => self.lend_places(),
            _ => {}
        }
    }

    fn lend_scratch(&mut self) {
        let length = self.draw_scratch_length();
        let random = &mut self.random;
        let content = self.stock.bytes(random, SCRATCH_BYTES + 2 * MARGIN);
        self.desk.change(|side| {
            side.scratch.overwrite(content);
            side.scratch.lend(length);
        });
    }

    /// Junk to write over, as much as the canonical form takes or about so.
    fn lend_output(&mut self) {
        let side = self.desk.side();
        let (used, form) = (side.used, form_length(side).unwrap_or(side.used));
        let random = &mut self.random;
        let length = match random.below(12) {
            0 => 0,
            1 | 2 => form.saturating_sub(1),
            3..=6 => form,
            7 => used,
            8 => random.below(form + 1),
            9 => SHEET_BYTES + random.below(300),
            _ => form + 1 + random.below(300),
        };
        let junk = self.stock.bytes(random, length);
        let lent = self.stock.lend(random, junk);
        self.desk.change(|side| side.out.copy(&lent));
    }

    /// Noise to write over, or what the last call left; mostly long enough.
    fn lend_places(&mut self) {
        let random = &mut self.random;
        let length = match random.below(8) {
            0 => random.pick(&[0, INDEX_PLACES - 1]),
            1..=4 => INDEX_PLACES,
            _ => MOST_PLACES,
        };
        let noise = self.stock.noise(random);
        let kept = random.percent(25);
        self.desk.change(|side| {
            side.places.lend(length);
            if !kept {
                side.places.overwrite(noise);
            }
        });
    }

    /// Enough for the verdicts, mostly, or some bytes short of one; often with bytes at the end that
    /// are too few for another one.
    fn draw_row_length(&mut self, needed: usize) -> usize {
        match self.random.below(30) {
            0 => needed.saturating_sub(1 + self.random.below(VERDICT_BYTES + 2)),
            1..=13 => needed,
            14..=17 => needed + 1 + self.random.below(VERDICT_BYTES - 1),
            _ => needed + self.random.below(ROW),
        }
    }

    fn draw_scratch_length(&mut self) -> usize {
        let random = &mut self.random;
        let any = random.below(SCRATCH_BYTES);
        match random.below(30) {
            0 => random.pick(&[0, 1, 512, any, SCRATCH_BYTES - 1]),
            1..=19 => SCRATCH_BYTES,
            _ => SCRATCH_BYTES + random.below(MARGIN),
        }
    }

    /// All of the buffer, or about as much as the sheet that results.
    fn draw_user_length(&mut self, call: Call, classes: &Classes) -> usize {
        let new = self.new_length(call, classes);
        let enough = new.max(self.desk.side().used);
        match self.random.below(16) {
            0 => new.saturating_sub(1),
            1 => new,
            2 => enough,
            3 => enough + 1,
            _ => usize::MAX,
        }
    }

    /// The length of the user sheet that the call leaves if it is accepted; for a withdrawal that
    /// of the present one, which it needs.
    fn new_length(&self, call: Call, classes: &Classes) -> usize {
        let side = self.desk.side();
        match call {
            Call::Add => side.used + side.group.part().len(),
            Call::Replace(class) => {
                let present = groups(side.user_sheet());
                let old = present.get(class.wrapping_sub(classes.library));
                side.used - old.map_or(0, |group| group.len()) + side.group.part().len()
            }
            _ => side.used,
        }
    }

    /// One thing that is not as the last call left it.
    fn distort(&mut self) {
        let used = self.desk.side().used;
        let lent = self.desk.side().user.part().len();
        let random = &mut self.random;
        match random.below(12) {
            0 | 1 => {
                let far = random.pick(&[lent + 1, lent + 256, SHEET_BYTES + 1, usize::MAX]);
                self.desk.change(|side| side.used = far);
            }
            2 => {
                let near = random.below(used + 1);
                self.desk.change(|side| side.used = near);
            }
            3..=5 => self.flip_user_bit(),
            6 => self.damage_library(),
            7 => self.lengthen_library(),
            _ => {
                let row = self.stock.bytes(random, 2 * ROW + MARGIN);
                self.desk.change(|side| side.verdicts.overwrite(row));
            }
        }
    }

    fn flip_user_bit(&mut self) {
        let length = self.desk.side().user_sheet().len();
        if length > 0 {
            let (at, bit) = (self.random.below(length), 1 << self.random.below(8));
            self.desk.change(|side| side.user.part_mut()[at] ^= bit);
        }
    }

    fn damage_library(&mut self) {
        let library = damage(self.random.number(), self.desk.side().library.part());
        self.lend_library(&library);
    }

    fn lengthen_library(&mut self) {
        let wanted = SHEET_BYTES + self.random.below(4);
        let mut library = self.desk.side().library.part().to_vec();
        let missing = wanted.saturating_sub(library.len());
        library.extend(self.stock.bytes(&mut self.random, missing));
        self.lend_library(&library);
    }

    fn lend_library(&mut self, library: &[u8]) {
        let lent = self.stock.lend(&mut self.random, library);
        self.desk.change(|side| side.library = lent.clone());
    }
}

/// Two sheets of any size, now and then a family, whole or damaged.
fn draw_pair(random: &mut Random, stock: &Stock) -> (Vec<u8>, Vec<u8>) {
    if random.below(1000) > 1 {
        return varied_pair(random.number());
    }
    let (library, user) = stock.family(random);
    match random.below(3) {
        0 => (library, damage(random.number(), &user)),
        _ => (library, user),
    }
}

/// All that the calls borrow, before the first.
fn lay_out(random: &mut Random, stock: &Stock, library: &[u8], user: &[u8]) -> Side {
    let spare = draw_spare(random, user.len());
    let buffer = [user, stock.bytes(random, spare)].concat();
    let row = stock.bytes(random, 2 * ROW).to_vec();
    let scratch = vec![0; SCRATCH_BYTES + MARGIN];
    Side {
        library: stock.lend(random, library),
        user: stock.lend(random, &buffer),
        used: user.len(),
        group: stock.lend(random, &[]),
        verdicts: stock.lend(random, &row),
        scratch: stock.lend(random, &scratch),
        out: stock.lend(random, &[]),
        name: stock.lend(random, &[]),
        places: stock.lend_places(random),
    }
}

/// Bytes of the user buffer past the sheet: none, some, or more than a sheet can use.
fn draw_spare(random: &mut Random, used: usize) -> usize {
    match random.below(12) {
        0 => 0,
        1 => random.below(60),
        2 => SHEET_BYTES.saturating_sub(used) + random.below(300),
        _ => 200 + random.below(800),
    }
}
