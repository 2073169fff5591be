//! Canonical forms of accepted sheets, and a close look at some (document 02, C-15).

use kerdzhusi::{verdicts, Refusal, VERDICT_BYTES};
use sheets::build::CLASS_LIMIT;
use sheets::{shuffled_sets, Random};

use crate::call::{Answer, Call, Value};
use crate::desk::{Desk, Difference};
use crate::forms::Forms;
use crate::lent::Side;
use crate::stock::Stock;

type Checked<T> = Result<T, Box<Difference>>;

/// The answer where an output is too short.
const SHORT: Answer = Answer(Err(Refusal {
    number: 15,
    sheet: 0,
    byte: 0,
}));

pub struct Examiner<'a> {
    stock: &'a Stock,
    /// Calls here borrow the sheets and an output alone.
    desk: Desk,
}

impl<'a> Examiner<'a> {
    pub fn new(stock: &'a Stock) -> Examiner<'a> {
        Examiner {
            stock,
            desk: Desk::new(Side::default()),
        }
    }

    /// Has both write the form of accepted sheets, with enough room for it.
    pub fn write(&mut self, random: &mut Random, sheets: &Side, forms: &mut Forms) -> Checked<()> {
        self.desk.lend_sheets(sheets);
        let more = random.pick(&[0, 1, 40]);
        self.lend_output(random, sheets.used + more);
        match self.desk.call(Call::Canonical)? {
            Answer(Ok(Value::Number(length))) => {
                let form = &self.desk.side().out.part()[..length];
                forms.count(sheets.user_sheet(), form);
                Ok(())
            }
            answer => Err(self.differs(format!("accepted sheets have no form: {answer}"))),
        }
    }

    /// In the form of accepted sheets each class has to break the rule that it broke, the fault in
    /// the same class, and it has to be the form of itself and of what else means the same.
    pub fn examine(
        &mut self,
        random: &mut Random,
        sheets: &Side,
        form: &[u8],
        forms: &mut Forms,
    ) -> Checked<()> {
        self.desk.lend_sheets(sheets);
        let user = sheets.user_sheet();
        forms.examined += 1;
        if form != user {
            forms.moved += self.require_rules(random, form)?;
        }
        self.tidy(random, form, form)?;
        let copy = shuffled_sets(random, user);
        forms.copies += (copy != user) as u64;
        self.tidy(random, &copy, form)
    }

    /// Puts the form in the place of its sheet, and gives back how many verdicts name another
    /// record then.
    fn require_rules(&mut self, random: &mut Random, form: &[u8]) -> Checked<u64> {
        let before = self.judge()?;
        self.lend_user(random, form);
        let after = self.judge()?;
        let kept = |row| verdicts(row).map(|verdict| (verdict.rule, verdict.class));
        if !kept(&before[..]).eq(kept(&after)) {
            let what = "in canonical form a class breaks another rule, or in another class";
            return Err(self.differs(what.to_string()));
        }
        let lines = verdicts(&before).zip(verdicts(&after));
        Ok(lines.filter(|(before, after)| before != after).count() as u64)
    }

    fn judge(&mut self) -> Checked<Vec<u8>> {
        let judged = self.desk.judge_anew(CLASS_LIMIT * VERDICT_BYTES);
        judged.map_err(|what| self.differs(what))
    }

    /// Has both write the form of a sheet, which has to be this one, if they are lent enough.
    fn tidy(&mut self, random: &mut Random, sheet: &[u8], form: &[u8]) -> Checked<()> {
        let room = draw_room(random, form.len());
        self.lend_user(random, sheet);
        self.lend_output(random, room);
        let expected = if room < form.len() {
            SHORT
        } else {
            Answer(Ok(Value::Number(form.len())))
        };
        let answer = self.desk.call(Call::Canonical)?;
        let written = self.desk.side().out.part().get(..form.len());
        if answer != expected || written.is_some_and(|written| written != form) {
            let what = format!("what means the same has another form: {answer}");
            return Err(self.differs(what));
        }
        Ok(())
    }

    fn differs(&self, what: String) -> Box<Difference> {
        self.desk.difference(Call::Canonical, what)
    }

    fn lend_user(&mut self, random: &mut Random, sheet: &[u8]) {
        let lent = self.stock.lend(random, sheet);
        self.desk.change(|side| {
            side.user.copy(&lent);
            side.used = sheet.len();
        });
    }

    /// Junk to write over.
    fn lend_output(&mut self, random: &mut Random, length: usize) {
        let junk = self.stock.bytes(random, length);
        let lent = self.stock.lend(random, junk);
        self.desk.change(|side| side.out.copy(&lent));
    }
}

/// Enough bytes of output for a form, mostly, or nearly so.
fn draw_room(random: &mut Random, length: usize) -> usize {
    match random.below(10) {
        0 => 0,
        1 => length.saturating_sub(1),
        2 => length + 1 + random.below(60),
        _ => length,
    }
}
