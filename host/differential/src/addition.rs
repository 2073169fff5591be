//! An addition, and the withdrawal right after it that has to give everything back.

use kerdzhusi::VERDICT_BYTES;
use sheets::groups;

use crate::call::{Answer, Value};
use crate::lent::{Lent, Side};

/// An accepted addition, and what a withdrawal right after it has to leave.
pub struct Addition {
    class: usize,
    line: usize,
    user: Lent,
    used: usize,
    verdicts: Lent,
}

impl Addition {
    /// Of what the addition was lent everything stays, but for zeros in the place of the group and
    /// in its line.
    pub fn new(class: usize, before: &Side) -> Addition {
        let line = groups(before.user_sheet()).len();
        let (used, row) = (before.used, line * VERDICT_BYTES);
        let (mut user, mut verdicts) = (before.user.clone(), before.verdicts.clone());
        user.part_mut()[used..used + before.group.part().len()].fill(0);
        verdicts.part_mut()[row..row + VERDICT_BYTES].fill(0);
        Addition {
            class,
            line,
            user,
            used,
            verdicts,
        }
    }

    /// Is the withdrawal lent the whole sheet and all its lines? Then it has to be accepted.
    pub fn must_be_undone(&self, lent: &Side) -> bool {
        let lines = lent.verdicts.part().len() / VERDICT_BYTES;
        lent.used <= lent.user.part().len() && lines > self.line
    }

    /// Does the withdrawal answer the same class and leave what it has to?
    pub fn require_undone(mut self, answer: Answer, after: &Side) -> Result<(), String> {
        if answer.0 != Ok(Value::Number(self.class)) {
            let class = self.class;
            return Err(format!("class {class} was added, its withdrawal: {answer}"));
        }
        // The addition may have been lent more or less.
        self.user.lend(after.user.part().len());
        self.verdicts.lend(after.verdicts.part().len());
        let expected = (self.used, &self.user, &self.verdicts);
        if expected != (after.used, &after.user, &after.verdicts) {
            return Err("an addition and a withdrawal do not give everything back".to_string());
        }
        Ok(())
    }
}
