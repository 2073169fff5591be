//! The two verifiers side by side: equal bytes before each call, and after it.

use kerdzhusi::{INDEX_PLACES, SCRATCH_BYTES, VERDICT_BYTES};

use crate::addition::Addition;
use crate::call::{ask_kerdzhusi, ask_reference, Answer, Call, Value};
use crate::lent::Side;

pub struct Desk {
    ours: Side,
    theirs: Side,
    /// What the last call was lent.
    before: Side,
    /// Are the verdicts those of the present sheets?
    pub judged: bool,
    /// The last call, if it was an addition that was accepted.
    pub addition: Option<Addition>,
    /// Did the last call take back an addition right before it?
    pub undone: bool,
    /// For judging from nothing; all zero.
    scratch: Vec<u8>,
}

/// What went wrong with a call, and what it was lent.
pub struct Difference {
    pub what: String,
    pub call: Call,
    pub before: Side,
}

impl Desk {
    pub fn new(side: Side) -> Desk {
        Desk {
            ours: side.clone(),
            before: side.clone(),
            theirs: side,
            judged: false,
            addition: None,
            undone: false,
            scratch: vec![0; SCRATCH_BYTES],
        }
    }

    pub fn side(&self) -> &Side {
        &self.theirs
    }

    /// The same change on both sides.
    pub fn change(&mut self, change: impl Fn(&mut Side)) {
        change(&mut self.ours);
        change(&mut self.theirs);
    }

    /// Lends the sheets that another side has.
    pub fn lend_sheets(&mut self, sheets: &Side) {
        self.change(|side| {
            side.library.copy(&sheets.library);
            side.user.copy(&sheets.user);
            side.used = sheets.used;
        });
    }

    /// Makes a call of both and compares answers and bytes; after a change of the sheets, also
    /// with a judging from nothing.
    pub fn call(&mut self, call: Call) -> Result<Answer, Box<Difference>> {
        self.before.copy(&self.theirs);
        self.compare(call)
            .map_err(|what| self.difference(call, what))
    }

    /// Something that went wrong with the last call.
    pub fn difference(&self, call: Call, what: String) -> Box<Difference> {
        let before = self.before.clone();
        Box::new(Difference { what, call, before })
    }

    fn compare(&mut self, call: Call) -> Result<Answer, String> {
        let ours = ask_kerdzhusi(call, &mut self.ours);
        let theirs = ask_reference(call, &mut self.theirs);
        if ours != theirs {
            return Err(format!("answers {ours} and {theirs}"));
        }
        if let Some(place) = self.ours.difference(&self.theirs) {
            return Err(format!("after {ours}: {place}"));
        }
        match (call, ours.0) {
            (_, Err(_)) => self.require_unchanged()?,
            (Call::Judge, Ok(Value::Counts { classes, .. })) => {
                self.judged = true;
                self.require_row_kept(classes)?;
            }
            (Call::Canonical, Ok(Value::Number(length))) => self.require_written(length)?,
            (Call::Index | Call::Lookup, _) => self.require_places_kept()?,
            _ if call.changes_sheets() => self.judge_from_nothing(call)?,
            _ => {}
        }
        self.follow_addition(call, ours)?;
        Ok(ours)
    }

    /// A withdrawal right after an addition takes it back, if it is lent enough.
    fn follow_addition(&mut self, call: Call, answer: Answer) -> Result<(), String> {
        let added = self.addition.take();
        self.undone = false;
        match (call, answer.0, added) {
            (Call::Add, Ok(Value::Number(class)), _) => {
                self.addition = Some(Addition::new(class, &self.before));
            }
            (Call::Withdraw, _, Some(added)) if added.must_be_undone(&self.before) => {
                self.undone = true;
                added.require_undone(answer, &self.ours)?;
            }
            _ => {}
        }
        Ok(())
    }

    fn require_unchanged(&self) -> Result<(), String> {
        match self.theirs.difference(&self.before) {
            Some(place) => Err(format!("a refused call changed the {place}")),
            None => Ok(()),
        }
    }

    /// An output holds what it held past the bytes that were written.
    fn require_written(&self, length: usize) -> Result<(), String> {
        if self.ours.out.keeps_all_but(length, &self.before.out) {
            Ok(())
        } else {
            Err(format!(
                "of the output more than {length} bytes are written"
            ))
        }
    }

    /// A row of places holds what it held past those of the index.
    fn require_places_kept(&self) -> Result<(), String> {
        let (row, before) = (&self.ours.places, &self.before.places);
        if row.keeps_all_but(INDEX_PLACES, before) {
            Ok(())
        } else {
            Err("a place past the index is written".to_string())
        }
    }

    /// A row holds what it held past so many verdicts, in bytes too few for another one too.
    fn require_row_kept(&self, verdicts: usize) -> Result<(), String> {
        let (row, before) = (&self.ours.verdicts, &self.before.verdicts);
        if row.keeps_all_but(VERDICT_BYTES * verdicts, before) {
            Ok(())
        } else {
            Err(format!(
                "of the row more than {verdicts} verdicts are written"
            ))
        }
    }

    /// Both judge the sheets anew, and agree with the verdicts that were kept up to date.
    fn judge_from_nothing(&mut self, call: Call) -> Result<(), String> {
        let fresh = self.judge_anew(self.ours.verdicts.part().len())?;
        if self.judged && self.ours.verdicts.part()[..fresh.len()] != fresh {
            return Err("the verdicts are not those of a judging from nothing".to_string());
        }
        // The verdict of a withdrawn class is written, too.
        let withdrawn = (call == Call::Withdraw) as usize;
        self.require_row_kept(fresh.len() / VERDICT_BYTES + withdrawn)
    }

    /// Both judge the sheets from nothing, in a row of so many bytes; gives back the verdicts.
    pub fn judge_anew(&mut self, row: usize) -> Result<Vec<u8>, String> {
        let (ours, theirs) = (&self.ours, &self.theirs);
        let (library, user, used) = (ours.library.part(), ours.user.part(), ours.used);
        let mut our_row = vec![0xEE; row];
        let our_counts = kerdzhusi::judge(library, user, used, &mut our_row, &mut self.scratch);
        let (library, user, used) = (theirs.library.part(), theirs.user.part(), theirs.used);
        let mut their_row = vec![0xEE; row];
        let their_counts = reference::judge(library, user, used, &mut their_row, &mut self.scratch);
        let (Ok(ours), Ok(theirs)) = (our_counts, their_counts) else {
            return Err("judging from nothing is refused".to_string());
        };
        if Value::from(ours) != Value::from(theirs) || our_row != their_row {
            return Err("judgings from nothing differ".to_string());
        }
        our_row.truncate(VERDICT_BYTES * ours.classes);
        Ok(our_row)
    }

    /// Puts both sides back to what they were.
    pub fn restore(&mut self, side: Side) {
        self.ours.copy(&side);
        self.theirs = side;
    }
}
