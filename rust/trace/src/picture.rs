//! The picture: picks or rounds downward, slots across, a bar for each task.

mod chart;
mod colours;
mod draw;
mod field;
mod legend;
mod thin;

use crate::order::{Order, Turns};
use crate::player::Player;
use crate::state::State;
use crate::subject::Subject;
use crate::text::Stop;
use crate::watch::Watch;
use chart::Recorder;
use draw::Drawing;
use engine::DISPATCH_BYTES;
use model::numbers::number_at;
use model::report::NUMBERS;
use model::End;

/// What is drawn.
pub struct Request {
    pub order: Order,
    /// The order in words.
    pub named: String,
    pub budget: u64,
}

/// A picture is smaller than this.
pub const MAX_BYTES: usize = 1_000_000;

/// The rows of a long job's picture, one a pixel. Where the file gets too large they are halved.
const ROWS: u64 = 720;

pub fn svg(subject: &Subject, request: &Request) -> Result<String, Stop> {
    let mut turns = Turns::new(&request.order);
    let mut recorder = Recorder::new(subject, &request.order);
    let watch = Watch {
        player: &subject.player,
        program: &subject.program,
    };
    let first = subject.player.first().clone();
    let state = watch.until(request.budget, first, &mut turns, &mut recorder)?;
    match request.order {
        Order::Lanes(lanes) if state.end().is_some() => {
            confirm(&subject.player, lanes, turns.rounds())?;
        }
        _ => {}
    }
    let chart = recorder.finished();
    let drawing = Drawing {
        subject,
        chart: &chart,
        below: below(request, &state, &turns),
    };
    let mut rows = ROWS;
    loop {
        let picture = drawing.svg(rows);
        if picture.len() < MAX_BYTES || rows < 2 {
            return Ok(picture);
        }
        rows /= 2;
    }
}

/// The dispatcher counts the same rounds.
fn confirm(player: &Player, lanes: u64, rounds: u64) -> Result<(), Stop> {
    let mut report = [0; DISPATCH_BYTES];
    let counted = engine::job_dispatch(player.job(), lanes, u64::MAX, &mut report);
    if counted.is_ok() && number_at(&report, NUMBERS) == rounds {
        return Ok(());
    }
    Err(Stop::Order(
        "the dispatcher counts other rounds".to_string(),
    ))
}

/// The lines below the picture: how the job ended, and how it was run.
fn below(request: &Request, state: &State, turns: &Turns) -> [String; 2] {
    let span = state.slot(0).task.span;
    let end = match state.end() {
        None => "end spent".to_string(),
        Some(End::Halt) => "end halt".to_string(),
        Some(End::Fault(number)) => format!("end fault {}", number),
    };
    let mut result = format!("{}, work {}", end, state.work());
    if state.end().is_some() && span > 0 {
        let ratio = state.work() as f64 / f64::from(span);
        result += &format!(", span {}, work ÷ span {:.2}", span, ratio);
    }
    if turns.rounds() > 0 {
        result += &format!(", rounds {}", turns.rounds());
    }
    let how = format!("places {}, {}", state.places(), request.named);
    [result, how]
}
