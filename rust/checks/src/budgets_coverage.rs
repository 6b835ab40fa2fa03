//! What a run of jobs with budgets has covered, and what it ought to.

use crate::budgets::BudgetCase;
use crate::counts::Counts;
use crate::names::{
    end, ends, is_version_before_counts, job_version, kind, version, KINDS, VERSION_BEFORE_COUNTS,
};
use engine::{REPORT_BYTES, TEXT_BYTES};
use model::job::{Report, BUDGET};
use model::{question, VERSIONS};

pub struct BudgetsCoverage {
    met: Counts,
}

const BUDGETS: [u64; 4] = [0, 1, BUDGET, u64::MAX];

const END_SPENT: &str = "end spent";
const SPENT_AT_ONCE: &str = "spent, budget 0";
const SPENT_LAST: &str = "spent, one pick before the end";
const SPENT: &str = "spent, more picks before the end";
const ENDED_LAST: &str = "ended on the budget's last pick";
const ENDED: &str = "ended before the budget's last pick";
const WRONG_REPORT: &str = "a report of another length, good job";
const WRONG_REPORT_AND_JOB: &str = "a report of another length, refused job";
const WRONG_TEXT: &str = "a text of another length";
const TEXT_OF_REFUSAL: &str = "text of a refusal";
const TEXT: &str = "text of a report";

const NAMES: [&str; 10] = [
    SPENT_AT_ONCE,
    SPENT_LAST,
    SPENT,
    ENDED_LAST,
    ENDED,
    WRONG_REPORT,
    WRONG_REPORT_AND_JOB,
    WRONG_TEXT,
    TEXT_OF_REFUSAL,
    TEXT,
];

fn answer(number: u8) -> String {
    format!("job answers {:2}", number)
}

fn with_budget(budget: u64, outcome: &str) -> String {
    format!("{} with budget {}", outcome, budget)
}

fn final_register(kind: &str) -> String {
    format!("final register with {}", kind)
}

/// Whether the job ends with one pick more than its budget.
fn ends_with_one_more(case: &BudgetCase) -> bool {
    let report = model::job::run(&case.job, case.budget + 1);
    report.map_or(false, |report| report.end.is_some())
}

impl Default for BudgetsCoverage {
    fn default() -> Self {
        // Sixteen registers are always there, and 15 is counted with the lengths.
        let numbers = (0..=question::INTERVAL).chain([question::WORDS]);
        let mut names: Vec<String> = numbers.map(answer).collect();
        names.extend(ends(END_SPENT));
        for budget in BUDGETS {
            names.push(with_budget(budget, "refused"));
            // No job ends without a pick, and these that would be spent run too long.
            if budget != 0 {
                names.push(with_budget(budget, "ended"));
            }
            if budget != u64::MAX {
                names.push(with_budget(budget, "spent"));
            }
        }
        names.extend(KINDS.map(final_register));
        names.extend(VERSIONS.map(version));
        names.push(VERSION_BEFORE_COUNTS.to_string());
        names.extend(NAMES.map(String::from));
        BudgetsCoverage {
            met: Counts::of("jobs", names),
        }
    }
}

impl BudgetsCoverage {
    pub fn count(&mut self, case: &BudgetCase, answered: &Result<Report, u8>) {
        self.met.cases += 1;
        let number = answered.as_ref().err().copied().unwrap_or(0);
        self.met.meet(&answer(number));
        if number == 0 {
            self.met.meet(&job_version(&case.job));
        } else if is_version_before_counts(&case.job, number) {
            self.met.meet(VERSION_BEFORE_COUNTS);
        }
        let outcome = match answered {
            Err(_) => "refused",
            Ok(Report { end: None, .. }) => "spent",
            Ok(_) => "ended",
        };
        if BUDGETS.contains(&case.budget) {
            self.met.meet(&with_budget(case.budget, outcome));
        }
        if case.report_len != REPORT_BYTES {
            self.met.meet(match answered {
                Ok(_) => WRONG_REPORT,
                Err(_) => WRONG_REPORT_AND_JOB,
            });
        }
        self.met.meet(match answered {
            _ if case.text_len != TEXT_BYTES => WRONG_TEXT,
            Err(_) => TEXT_OF_REFUSAL,
            Ok(_) => TEXT,
        });
        if let Ok(report) = answered {
            self.count_report(case, report);
        }
    }

    /// The same job with a smaller budget.
    pub fn count_again(&mut self, report: &Report) {
        self.met.sum("smaller budgets", 1);
        self.met.sum("picks", report.picks);
    }

    fn count_report(&mut self, case: &BudgetCase, report: &Report) {
        self.met.sum("picks", report.picks);
        self.met.meet(&end(report.end, END_SPENT));
        self.met.meet(match report.end {
            None if case.budget == 0 => SPENT_AT_ONCE,
            None if ends_with_one_more(case) => SPENT_LAST,
            None => SPENT,
            Some(_) if report.picks == case.budget => ENDED_LAST,
            Some(_) => ENDED,
        });
        if report.end.is_none() {
            return;
        }
        for value in report.registers {
            self.met.meet(&final_register(kind(value)));
        }
    }
}

impl From<BudgetsCoverage> for Counts {
    fn from(coverage: BudgetsCoverage) -> Self {
        coverage.met
    }
}
