//! The dispatcher's counts for a job, and the bound that they have to keep.

use crate::examples::{self, Example};
use checks::numbers::number_at;
use checks::report::{FAULT, ROUNDS, SPAN, SPENT, WORK};
use engine::DISPATCH_BYTES;
use model::job::BUDGET;

/// Numbers of lanes that the dispatcher takes: 1 to this.
pub const MAX_LANES: u64 = 8;

/// Places of numbers in a report.
const END: usize = 0;
const FAULT_NUMBER: usize = 1;

/// What is the same on every number of lanes.
#[derive(Clone, Debug, PartialEq, Eq)]
pub struct Outcome {
    /// As the run program prints it: `halt`, `fault 37`.
    pub end: String,
    pub work: u64,
    pub span: u64,
}

/// A job that ends, on 1 to 8 lanes.
#[derive(Clone, Debug)]
pub struct Counts {
    pub name: String,
    pub outcome: Outcome,
    /// On one lane, on two, and so on.
    pub rounds: Vec<u64>,
}

impl Counts {
    /// The rounds with their numbers of lanes.
    pub fn on_lanes(&self) -> impl Iterator<Item = (u64, u64)> + '_ {
        (1..).zip(self.rounds.iter().copied())
    }

    /// The most rounds that the bound allows.
    pub fn limit(&self, lanes: u64) -> u64 {
        self.allowed(lanes) / lanes
    }

    fn allowed(&self, lanes: u64) -> u64 {
        self.outcome.work + (lanes - 1) * self.outcome.span
    }

    /// The statements of docs/lanes.md, 'The bound', that work, span and rounds are held to.
    fn check(&self) -> Result<(), String> {
        let Outcome { work, span, .. } = self.outcome;
        for (lanes, rounds) in self.on_lanes() {
            let statements = [
                (
                    "lanes × rounds ≤ work + (lanes − 1) × span",
                    lanes * rounds <= self.allowed(lanes),
                ),
                ("span ≤ rounds", span <= rounds),
                ("work ≤ lanes × rounds", work <= lanes * rounds),
            ];
            if let Some((broken, _)) = statements.iter().find(|(_, holds)| !holds) {
                let numbers = format!("work {}, span {}, rounds {}", work, span, rounds);
                let place = format!("{}, lanes {}", self.name, lanes);
                return Err(format!("{}: {} break {}", place, numbers, broken));
            }
        }
        Ok(())
    }
}

/// Those of the examples, each tested. A job that is spent has no row: the bound says nothing of it.
pub fn of_examples() -> Result<Vec<Counts>, String> {
    let examples = examples::all()?;
    let counted = examples.iter().map(count);
    counted.filter_map(Result::transpose).collect()
}

/// None: on one lane, where the rounds are the most, the job does not end within the run program's
/// budget.
fn count(example: &Example) -> Result<Option<Counts>, String> {
    let (outcome, first) = match dispatch(example, 1)? {
        Some(dispatched) => dispatched,
        None => return Ok(None),
    };
    let mut rounds = vec![first];
    for lanes in 2..=MAX_LANES {
        match dispatch(example, lanes)? {
            Some((same, count)) if same == outcome => rounds.push(count),
            other => return Err(differs(&example.name, lanes, &outcome, other)),
        }
    }
    let counts = Counts {
        name: example.name.clone(),
        outcome,
        rounds,
    };
    counts.check()?;
    Ok(Some(counts))
}

fn differs(name: &str, lanes: u64, one: &Outcome, other: Option<(Outcome, u64)>) -> String {
    let other = other.map(|(outcome, _)| outcome);
    format!(
        "{}: {:?} on one lane, {:?} on {}",
        name,
        Some(one),
        other,
        lanes
    )
}

/// Outcome and rounds. None: the job is spent.
fn dispatch(example: &Example, lanes: u64) -> Result<Option<(Outcome, u64)>, String> {
    let mut report = [0; DISPATCH_BYTES];
    engine::job_dispatch(&example.job, lanes, BUDGET, &mut report)
        .map_err(|number| format!("{}, lanes {}: refused {}", example.name, lanes, number))?;
    let number = |index| number_at(&report, index);
    let end = match number(END) {
        SPENT => return Ok(None),
        FAULT => format!("fault {}", number(FAULT_NUMBER)),
        _ => "halt".to_string(),
    };
    let outcome = Outcome {
        end,
        work: number(WORK),
        span: number(SPAN),
    };
    Ok(Some((outcome, number(ROUNDS))))
}

#[cfg(test)]
mod tests {
    use super::*;

    fn made_up(work: u64, span: u64, rounds: &[u64]) -> Counts {
        Counts {
            name: "made-up".to_string(),
            outcome: Outcome {
                end: "halt".to_string(),
                work,
                span,
            },
            rounds: rounds.to_vec(),
        }
    }

    #[test]
    fn limits_of_f() {
        let f = made_up(9, 7, &[9, 7, 7]);
        assert_eq!([1, 2, 3, 8].map(|lanes| f.limit(lanes)), [9, 8, 7, 7]);
        assert_eq!(f.check(), Ok(()));
    }

    #[test]
    fn what_breaks_the_bound_is_said() {
        let cases = [
            (made_up(9, 7, &[9, 9]), "lanes 2", "+ (lanes − 1) × span"),
            (made_up(9, 7, &[9, 8, 8]), "lanes 3", "+ (lanes − 1) × span"),
            (made_up(9, 7, &[9, 6]), "lanes 2", "break span ≤ rounds"),
            (
                made_up(9, 2, &[8]),
                "lanes 1",
                "break work ≤ lanes × rounds",
            ),
        ];
        for (counts, place, statement) in cases {
            let message = counts.check().unwrap_err();
            assert!(message.contains(place), "{}", message);
            assert!(message.ends_with(statement), "{}", message);
        }
    }

    #[test]
    fn a_job_that_does_not_end_has_no_row() {
        let assembly = tpasm::assemble(b"main:\n  jump main\n").unwrap();
        let example = Example {
            name: "endless".to_string(),
            source: "endless.tpal".into(),
            options: String::new(),
            job: tpasm::job(&assembly.image, &assembly.settings),
            output: String::new(),
        };
        assert!(count(&example).unwrap().is_none());
    }
}
