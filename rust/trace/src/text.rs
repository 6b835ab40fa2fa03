//! The trace: a line for each pick, or a column for each slot, and what the job came to.

mod columns;
mod lines;

use crate::course::Course;
use crate::faults::Faults;
use crate::order::{Order, Turns};
use crate::outcome::Outcome;
use crate::skim::Skim;
use crate::state::State;
use crate::subject::Subject;
use crate::watch::{Observer, Watch};
use lines::Shown;
use std::io::{self, Write};

/// What is to be traced and how.
pub struct Request {
    pub order: Order,
    pub budget: u64,
    /// The picks that are shown, from this one to that one. None are shown where the first is behind the
    /// second.
    pub from: u64,
    pub to: u64,
    /// One column a slot.
    pub slots: bool,
}

/// What stops a trace: a stream that takes no more, or an order that cannot be drawn up.
#[derive(Debug)]
pub enum Stop {
    Written(io::Error),
    Order(String),
}

impl From<io::Error> for Stop {
    fn from(error: io::Error) -> Self {
        Stop::Written(error)
    }
}

/// Writes the trace.
pub fn write(subject: &Subject, request: &Request, out: &mut dyn Write) -> Result<(), Stop> {
    let mut faults = Faults::default();
    let shows_all = request.from <= 1 && request.to >= request.budget;
    let state = if shows_all {
        let first = subject.player.first().clone();
        let turns = Turns::new(&request.order);
        show(subject, request, (first, turns), &mut faults, out)?
    } else {
        part(subject, request, &mut faults, out)?
    };
    let outcome = Outcome {
        subject,
        state: &state,
        faults: &faults,
        stopped: &stopped(request, &state),
    };
    out.write_all(outcome.text().as_bytes())?;
    out.flush()?;
    Ok(())
}

/// Shows a part of the picks; the others are carried out in a few calls.
fn part(
    subject: &Subject,
    request: &Request,
    faults: &mut Faults,
    out: &mut dyn Write,
) -> Result<State, Stop> {
    let course = Course::new(&subject.player, &request.order, request.budget);
    let course = course.map_err(Stop::Order)?;
    let skim = Skim {
        player: &subject.player,
        program: &subject.program,
        course: &course,
    };
    if request.from > request.to {
        skim.note(0, course.length, faults)?;
        return Ok(course.last());
    }
    let begin = course.position(request.from.saturating_sub(1), course.length);
    let end = course.position(request.to, course.length);
    skim.note(0, begin, faults)?;
    let at = (course.after(begin), course.turns(begin));
    show(subject, request, at, faults, out)?;
    skim.note(end, course.length, faults)?;
    Ok(course.last())
}

/// Goes on pick by pick, with a line for each, and an empty one after them.
fn show(
    subject: &Subject,
    request: &Request,
    (state, mut turns): (State, Turns),
    faults: &mut Faults,
    out: &mut dyn Write,
) -> Result<State, Stop> {
    let watch = Watch {
        player: &subject.player,
        program: &subject.program,
    };
    let until = request.to.min(request.budget);
    let shown = Shown {
        subject,
        faults,
        out: &mut *out,
    };
    let mut observer: Box<dyn Observer + '_> = if request.slots {
        Box::new(columns::Columns::new(shown, &state)?)
    } else {
        Box::new(lines::Lines::new(shown)?)
    };
    let state = watch.until(until, state, &mut turns, &mut *observer)?;
    drop(observer);
    writeln!(out)?;
    Ok(state)
}

fn stopped(request: &Request, state: &State) -> String {
    if state.work() >= request.budget {
        return format!("the budget of {} picks is spent", request.budget);
    }
    match &request.order {
        Order::Listed(slots) => format!("the order's {} picks are done", slots.len()),
        _ => "the work stands at its limit".to_string(),
    }
}
