//! Counting checks: one line for each family, and the total as the last line.

use std::fmt::Debug;
use std::panic::{catch_unwind, AssertUnwindSafe};

/// How many failures of one family are shown; all are counted.
const SHOWN: usize = 10;

/// The counts of one family of checks, and a remark for its line.
#[derive(Default)]
pub struct Tally {
    passed: usize,
    failed: usize,
    pub remark: String,
}

impl Tally {
    pub fn check(&mut self, name: impl Debug, holds: bool) {
        self.check_with(name, holds, String::new);
    }

    pub fn equal<T: Debug + PartialEq>(&mut self, name: impl Debug, found: T, expected: T) {
        let holds = found == expected;
        self.check_with(name, holds, || {
            format!(": found {found:?}, expected {expected:?}")
        });
    }

    /// A check whose failure has something to say beside its name.
    pub fn check_with(&mut self, name: impl Debug, holds: bool, say: impl FnOnce() -> String) {
        if holds {
            self.passed += 1;
            return;
        }
        self.failed += 1;
        if self.failed <= SHOWN {
            println!("FAILED {name:?}{}", say());
        } else if self.failed == SHOWN + 1 {
            println!("FAILED: and more");
        }
    }
}

/// The total over all families.
#[derive(Default)]
pub struct Report {
    passed: usize,
    failed: usize,
}

impl Report {
    /// Runs one family and prints its line. A panic in it counts as one failed check, so the total
    /// is always printed.
    pub fn family(&mut self, name: &str, checks: impl FnOnce(&mut Tally)) {
        let mut tally = Tally::default();
        if catch_unwind(AssertUnwindSafe(|| checks(&mut tally))).is_err() {
            tally.check((name, "panicked"), false);
        }
        let all = tally.passed + tally.failed;
        println!("{name}: {}/{all}{}", tally.passed, tally.remark);
        self.passed += tally.passed;
        self.failed += tally.failed;
    }

    /// Prints the total and ends the program, with status 1 where a check failed or none was made.
    pub fn finish(self) -> ! {
        println!("{} passed, {} failed", self.passed, self.failed);
        std::process::exit(i32::from(self.failed > 0 || self.passed == 0))
    }
}
