//! What has been met, and what has to be.

use std::fmt;
use std::ops::Range;

use kerdzhusi::{verdicts, Refusal, INDEX_PLACES, VERDICT_BYTES};
use sheets::build::{FINAL, IMMUTABLE, POWERLESS};
use sheets::{groups, number, records};

use crate::call::{Answer, Call, Value, OPERATIONS};
use crate::forms::{form_length, Forms};
use crate::lent::Side;
use crate::names::class_names;
use crate::searches::Searches;
use crate::sites::Sites;

/// The numbers of refusals.
const REFUSALS: Range<usize> = 1..18;
const SHEETS: [&str; 2] = ["library", "user"];
const RULES: usize = 10;
/// A replacement with so many dependents counts as one with several.
const SEVERAL: usize = 3;

/// What C-11 of document 02 is about.
const IMMUTABLE_CONSTANTS: &str = "rule 5 at constants of Immutable types that are not Powerless";
/// What C-12 is about.
const UNDONE: &str = "additions that were withdrawn at once";
/// What C-13 is about.
const OUT_OF_ORDER: usize = 16;
/// What C-15 is about. The first two are refused.
const OUTPUTS: [&str; 4] = [
    "no output for a canonical form",
    "outputs one byte shorter than a canonical form",
    "outputs as long as a canonical form",
    "outputs longer than a canonical form",
];
/// What C-16 is about, beside sites: loose bytes at a row's end, too few for a verdict. The first two
/// are accepted, however many verdicts they have room for; the last two are refused.
const ROWS: [&str; 4] = [
    "rows with one loose byte",
    "rows with two loose bytes",
    "rows two bytes shorter than their verdicts",
    "rows one byte shorter than their verdicts",
];

/// What C-17 is about, beside searches: rows that were lent for an index. The first three are
/// refused, the third one for a name that is not there.
const PLACES: [&str; 5] = [
    "no places for an index",
    "rows one place shorter than an index",
    "too few places for a name that is not there",
    "rows of places as long as an index",
    "rows of places longer than an index",
];

const LEAST_CALLS: u64 = 1_000_000;
const LEAST_ACCEPTED_IN_100: u64 = 30;
const LEAST_OF_A_REFUSAL: u64 = 1_000;
const LEAST_OF_A_REFUSAL_BY_OPERATION: u64 = 100;
const LEAST_OF_A_RULE: u64 = 1_000;
const LEAST_WITH_SEVERAL: u64 = 10_000;
const LEAST_CONSTANTS: u64 = 1_000;
const LEAST_WITHDRAWALS: u64 = 10_000;
const LEAST_UNDONE: u64 = 10_000;
const LEAST_OF_AN_OUTPUT: u64 = 1_000;
const LEAST_OF_A_ROW: u64 = 1_000;
const LEAST_OF_PLACES: u64 = 500;

pub struct Tally {
    /// By operation, then by refusal, 0 for accepted calls.
    answers: [[u64; REFUSALS.end]; OPERATIONS.len()],
    /// Refusals of records out of order, by sheet.
    out_of_order: [u64; SHEETS.len()],
    /// Verdicts of accepted judgings by rule: at record 0, at a later one.
    rules: [[u64; 2]; RULES + 1],
    sites: Sites,
    /// Rows with loose bytes that were lent for verdicts.
    rows: [u64; ROWS.len()],
    with_several: u64,
    /// Verdicts of rule 5 at a constant of a class that is Immutable and not Powerless.
    immutable_constants: u64,
    /// Additions that a withdrawal right after them took back.
    pub undone: u64,
    /// User classes of accepted judgings by their own markers.
    own_markers: [u64; 256],
    /// Outputs that were lent for canonical forms, by length.
    outputs: [u64; OUTPUTS.len()],
    pub forms: Forms,
    /// Rows that were lent for an index, by length.
    places: [u64; PLACES.len()],
    pub searches: Searches,
}

impl Tally {
    pub fn new() -> Tally {
        Tally {
            answers: [[0; REFUSALS.end]; OPERATIONS.len()],
            out_of_order: [0; SHEETS.len()],
            rules: [[0; 2]; RULES + 1],
            sites: Sites::default(),
            rows: [0; ROWS.len()],
            with_several: 0,
            immutable_constants: 0,
            undone: 0,
            own_markers: [0; 256],
            outputs: [0; OUTPUTS.len()],
            forms: Forms::default(),
            places: [0; PLACES.len()],
            searches: Searches::default(),
        }
    }

    /// Counts a call, given what it left.
    pub fn count(&mut self, call: Call, answer: Answer, after: &Side) {
        let number = answer.0.map_or_else(|refusal| refusal.number, |_| 0) as usize;
        self.answers[call.operation()][number] += 1;
        if call.writes_verdicts() {
            self.count_row(call, number, after);
        }
        match (call, answer.0) {
            (_, Err(Refusal { sheet, .. })) if number == OUT_OF_ORDER => {
                self.out_of_order[sheet as usize] += 1;
            }
            (Call::Canonical, answer) => self.count_output(answer, after),
            (Call::Index | Call::Lookup, _) => self.count_places(call, number, after),
            (Call::Judge, Ok(Value::Counts { classes, .. })) => self.count_verdicts(after, classes),
            (Call::Replace(_), Ok(Value::Number(SEVERAL..))) => self.with_several += 1,
            _ => {}
        }
    }

    /// A refused call left the sheets as they were.
    fn count_row(&mut self, call: Call, refusal: usize, after: &Side) {
        let row = after.verdicts.part().len();
        let (verdicts, loose) = (row / VERDICT_BYTES, row % VERDICT_BYTES);
        let needed = || groups(after.user_sheet()).len() + (call == Call::Add) as usize;
        match (refusal, loose) {
            (0, 1..) => self.rows[loose - 1] += 1,
            (12, 1..) if verdicts + 1 == needed() => self.rows[loose + 1] += 1,
            _ => {}
        }
    }

    fn count_verdicts(&mut self, after: &Side, classes: usize) {
        let lines = || verdicts(after.verdicts.part()).take(classes);
        self.sites.count(lines(), after);
        for (verdict, group) in lines().zip(groups(after.user_sheet())) {
            let record = verdict.record as usize;
            self.rules[verdict.rule as usize][(record > 0) as usize] += 1;
            self.own_markers[group[6] as usize] += 1;
            if verdict.rule == 5 && is_immutable_constant(after, group, record) {
                self.immutable_constants += 1;
            }
        }
    }

    fn count_output(&mut self, answer: Result<Value, Refusal>, after: &Side) {
        let room = after.out.part().len();
        let output = match answer.map_err(|refusal| refusal.number) {
            Err(15) if room == 0 => 0,
            Err(15) if form_length(after) == Some(room + 1) => 1,
            Ok(Value::Number(length)) if length == room => 2,
            Ok(_) => 3,
            Err(_) => return,
        };
        self.outputs[output] += 1;
    }

    fn count_places(&mut self, call: Call, refusal: usize, after: &Side) {
        let places = after.places.part().len();
        let met = match (refusal, places) {
            (12, 0) => 0,
            (12, _) => 1,
            (0, INDEX_PLACES) => 3,
            (0, _) => 4,
            _ => return,
        };
        self.places[met] += 1;
        let is_absent = || !class_names(after).contains(&after.name.part());
        if call == Call::Lookup && refusal == 12 && is_absent() {
            self.places[2] += 1;
        }
    }

    pub fn add(&mut self, other: &Tally) {
        add_rows(
            self.answers.as_flattened_mut(),
            other.answers.as_flattened(),
        );
        add_rows(&mut self.out_of_order, &other.out_of_order);
        add_rows(self.rules.as_flattened_mut(), other.rules.as_flattened());
        self.sites.add(&other.sites);
        add_rows(&mut self.rows, &other.rows);
        add_rows(&mut self.own_markers, &other.own_markers);
        self.with_several += other.with_several;
        self.immutable_constants += other.immutable_constants;
        self.undone += other.undone;
        add_rows(&mut self.outputs, &other.outputs);
        self.forms.add(&other.forms);
        add_rows(&mut self.places, &other.places);
        self.searches.add(&other.searches);
    }

    pub fn calls(&self) -> u64 {
        self.answers.as_flattened().iter().sum()
    }

    fn accepted_in_100(&self) -> u64 {
        100 * self.answered(0) / self.calls().max(1)
    }

    fn answered(&self, number: usize) -> u64 {
        self.answers.iter().map(|row| row[number]).sum()
    }

    fn marker_sets(&self) -> usize {
        self.own_markers.iter().filter(|&&count| count > 0).count()
    }

    /// What has been met too rarely, in words.
    pub fn shortfalls(&self) -> Vec<String> {
        let mut short = Vec::new();
        let mut require = |what: String, met: u64, least: u64| {
            if met < least {
                short.push(format!("{what}: {met}, not {least}"));
            }
        };
        self.require_answers(&mut require);
        self.require_verdicts(&mut require);
        self.require_edits(&mut require);
        for (output, met) in OUTPUTS.iter().zip(self.outputs) {
            require(output.to_string(), met, LEAST_OF_AN_OUTPUT);
        }
        self.forms.require(&mut require);
        for (row, met) in PLACES.iter().zip(self.places) {
            require(row.to_string(), met, LEAST_OF_PLACES);
        }
        self.searches.require(&mut require);
        short
    }

    fn require_answers(&self, require: &mut impl FnMut(String, u64, u64)) {
        require("calls".into(), self.calls(), LEAST_CALLS);
        let accepted = self.accepted_in_100();
        require("accepted in 100".into(), accepted, LEAST_ACCEPTED_IN_100);
        for number in REFUSALS {
            let met = self.answered(number);
            require(format!("refusal {number}"), met, LEAST_OF_A_REFUSAL);
        }
        for (operation, row) in OPERATIONS.iter().zip(&self.answers) {
            for number in refusals_of(operation) {
                let what = format!("refusal {number} of {operation}");
                require(what, row[number], LEAST_OF_A_REFUSAL_BY_OPERATION);
            }
        }
        for (sheet, met) in SHEETS.iter().zip(self.out_of_order) {
            let what = format!("refusal {OUT_OF_ORDER} in the {sheet} sheet");
            require(what, met, LEAST_OF_A_REFUSAL);
        }
    }

    fn require_verdicts(&self, require: &mut impl FnMut(String, u64, u64)) {
        for (rule, places) in self.rules.iter().enumerate() {
            let met = places.iter().sum();
            require(format!("rule {rule}"), met, LEAST_OF_A_RULE);
        }
        self.sites.require(require);
        let constants = self.immutable_constants;
        require(IMMUTABLE_CONSTANTS.into(), constants, LEAST_CONSTANTS);
        require("own marker sets".into(), self.marker_sets() as u64, 256);
        for (row, met) in ROWS.iter().zip(self.rows) {
            require(row.to_string(), met, LEAST_OF_A_ROW);
        }
    }

    fn require_edits(&self, require: &mut impl FnMut(String, u64, u64)) {
        let several = format!("replacements with {SEVERAL} or more dependents");
        require(several, self.with_several, LEAST_WITH_SEVERAL);
        let accepted = self.answers[Call::Withdraw.operation()][0];
        require("accepted withdrawals".into(), accepted, LEAST_WITHDRAWALS);
        require(UNDONE.into(), self.undone, LEAST_UNDONE);
    }
}

/// Is this FIELD final, and its type a class that is Immutable and not Powerless?
fn is_immutable_constant(after: &Side, group: &[u8], record: usize) -> bool {
    let field = records(group).nth(record).expect("the record of a verdict");
    let (flags, dimensions_and_code) = (number(field, 4), number(field, 6));
    let (library, user) = (after.library.part(), after.user.part());
    let marks = reference::marks(library, user, after.used, number(field, 8));
    let immutable = marks.is_ok_and(|set| set & (IMMUTABLE | POWERLESS) == IMMUTABLE);
    flags & FINAL as usize != 0 && dimensions_and_code == 0 && immutable
}

/// The refusals that an operation can give: those of the sheets, and some more.
fn refusals_of(operation: &str) -> impl Iterator<Item = usize> {
    let more: &[usize] = match operation {
        "judge" => &[12],
        "add" => &[12, 14, 15],
        "replace" => &[12, 13, 14, 15],
        "withdraw" => &[12, 13, 17],
        "canonical" => &[15],
        "index" => &[12],
        "lookup" => &[12, 13],
        _ => &[13],
    };
    (1..=11).chain([OUT_OF_ORDER]).chain(more.iter().copied())
}

fn add_rows(sums: &mut [u64], counts: &[u64]) {
    for (sum, count) in sums.iter_mut().zip(counts) {
        *sum += count;
    }
}

impl fmt::Display for Tally {
    fn fmt(&self, f: &mut fmt::Formatter) -> fmt::Result {
        self.write_answers(f)?;
        writeln!(f)?;
        self.write_rules(f)?;
        writeln!(f)?;
        writeln!(f, "{}", self.sites)?;
        writeln!(f, "{}", self.forms)?;
        writeln!(f, "{}", self.searches)?;
        let (calls, accepted) = (self.calls(), self.accepted_in_100());
        writeln!(f, "calls {calls}, {accepted} in 100 accepted")?;
        let several = self.with_several;
        writeln!(
            f,
            "replacements with {SEVERAL} or more dependents {several}"
        )?;
        writeln!(f, "{IMMUTABLE_CONSTANTS} {}", self.immutable_constants)?;
        writeln!(f, "{UNDONE} {}", self.undone)?;
        for (sheet, met) in SHEETS.iter().zip(self.out_of_order) {
            writeln!(f, "refusal {OUT_OF_ORDER} in the {sheet} sheet {met}")?;
        }
        writeln!(f, "own marker sets {} of 256", self.marker_sets())?;
        for (output, met) in OUTPUTS.iter().zip(self.outputs) {
            writeln!(f, "{output} {met}")?;
        }
        for (row, met) in ROWS.iter().zip(self.rows) {
            writeln!(f, "{row} {met}")?;
        }
        for (row, met) in PLACES.iter().zip(self.places) {
            writeln!(f, "{row} {met}")?;
        }
        Ok(())
    }
}

impl Tally {
    fn write_answers(&self, f: &mut fmt::Formatter) -> fmt::Result {
        write!(f, "| answer   |")?;
        for operation in OPERATIONS {
            write!(f, " {operation:>9} |")?;
        }
        writeln!(f, " {:>9} |", "all")?;
        writeln!(
            f,
            "|:---------|{}",
            "----------:|".repeat(OPERATIONS.len() + 1)
        )?;
        for number in [0].into_iter().chain(REFUSALS) {
            let name = match number {
                0 => "accepted".to_string(),
                _ => format!("{number}"),
            };
            write!(f, "| {name:8} |")?;
            for row in &self.answers {
                write!(f, " {:9} |", row[number])?;
            }
            writeln!(f, " {:9} |", self.answered(number))?;
        }
        Ok(())
    }

    fn write_rules(&self, f: &mut fmt::Formatter) -> fmt::Result {
        writeln!(f, "| rule     | record 0 |    later |      all |")?;
        writeln!(f, "|:---------|---------:|---------:|---------:|")?;
        for (rule, [first, later]) in self.rules.iter().enumerate() {
            let all = first + later;
            writeln!(f, "| {rule:<8} | {first:8} | {later:8} | {all:8} |")?;
        }
        Ok(())
    }
}
