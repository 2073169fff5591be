//! In which place of the walk faults sit (document 02, C-16): how often each has been met.

use std::fmt;

use kerdzhusi::Verdict;
use sheets::{groups, Site};

use crate::lent::Side;

/// One more than the highest rule.
const RULES: usize = 11;

const LEAST_OF_A_SITE: u64 = 500;

/// Faults by rule and site.
#[derive(Default)]
pub struct Sites([[u64; Site::ALL.len()]; RULES]);

impl Sites {
    /// Counts the faults among the verdicts on accepted sheets.
    pub fn count(&mut self, verdicts: impl Iterator<Item = Verdict>, sheets: &Side) {
        let library = groups(sheets.library.part()).len();
        let users = groups(sheets.user_sheet());
        for (class, verdict) in (library..).zip(verdicts) {
            if !verdict.is_clean() {
                let line = [verdict.rule, verdict.record, verdict.class];
                let site = Site::of(line, class, library, &users);
                self.0[verdict.rule as usize][site as usize] += 1;
            }
        }
    }

    pub fn add(&mut self, other: &Sites) {
        for (sums, counts) in self.0.iter_mut().zip(other.0) {
            for (sum, count) in sums.iter_mut().zip(counts) {
                *sum += count;
            }
        }
    }

    /// Asks of each rule and each site that it can have whether it was met often enough.
    pub fn require(&self, require: &mut impl FnMut(String, u64, u64)) {
        for rule in 1..RULES as u8 {
            for &site in Site::of_rule(rule) {
                let met = self.0[rule as usize][site as usize];
                require(format!("rule {rule} at {site}"), met, LEAST_OF_A_SITE);
            }
        }
    }
}

impl fmt::Display for Sites {
    fn fmt(&self, f: &mut fmt::Formatter) -> fmt::Result {
        write!(f, "| fault of |")?;
        for site in Site::ALL {
            write!(f, " {site:>14} |")?;
        }
        writeln!(
            f,
            "\n|:---------|{}",
            "---------------:|".repeat(Site::ALL.len())
        )?;
        for (rule, counts) in self.0.iter().enumerate().skip(1) {
            write!(f, "| {rule:<8} |")?;
            for count in counts {
                write!(f, " {count:14} |")?;
            }
            writeln!(f)?;
        }
        Ok(())
    }
}
