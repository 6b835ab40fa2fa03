//! The command line.

use model::job::BUDGET;
use model::MAX_LANES;
use std::ffi::{OsStr, OsString};
use tpasm::command::{self, wrong, Changes, Failure, Grammar, Known, Place};
use tpasm::nearest;
use trace::order::{self, Order, ORDERS};

const ALL: &[&str] = &["trace", "picture", "profile"];
const TRACE: &[&str] = &["trace"];

const fn known(name: &'static str, has_value: bool, commands: &'static [&'static str]) -> Known {
    Known {
        name,
        has_value,
        commands,
    }
}

static GRAMMAR: Grammar = Grammar {
    commands: ALL,
    options: &[
        known("-o", true, ALL),
        known("--order", true, ALL),
        known("--budget", true, ALL),
        known("--places", true, ALL),
        known("--interval", true, ALL),
        known("--set", true, ALL),
        known("--words", true, ALL),
        known("--from", true, TRACE),
        known("--to", true, TRACE),
        known("--slots", false, TRACE),
        known("--summary", false, TRACE),
        known("--lanes", true, &["picture"]),
    ],
};

#[derive(Debug)]
pub struct Options {
    pub command: &'static str,
    pub input: Place,
    pub output: Place,
    pub changes: Changes,
    pub order: Option<OsString>,
    pub lanes: Option<u64>,
    pub budget: u64,
    pub from: u64,
    pub to: u64,
    pub slots: bool,
    pub summary: bool,
}

#[derive(Debug)]
pub enum Request {
    Help,
    Run(Options),
}

/// The arguments after the program's name, or what is wrong with them.
pub fn parse(arguments: impl Iterator<Item = OsString>) -> Result<Request, String> {
    let arguments = match GRAMMAR.parse(arguments)? {
        command::Request::Help => return Ok(Request::Help),
        command::Request::Run(arguments) => arguments,
    };
    let mut options = Options {
        command: arguments.command,
        input: arguments.input,
        output: Place::Standard,
        changes: Changes::default(),
        order: None,
        lanes: None,
        budget: BUDGET,
        from: 1,
        to: u64::MAX,
        slots: false,
        summary: false,
    };
    for (name, value) in arguments.given {
        options.note(name, value)?;
    }
    options.check()?;
    Ok(Request::Run(options))
}

impl Options {
    fn note(&mut self, name: &'static str, value: OsString) -> Result<(), String> {
        match name {
            "-o" => self.output = Place::of(value),
            "--order" => self.order = Some(value),
            "--slots" => self.slots = true,
            "--summary" => self.summary = true,
            "--budget" => self.budget = natural(name, "a number of picks", &value)?,
            "--from" => self.from = natural(name, "the number of a pick", &value)?,
            "--to" => self.to = natural(name, "the number of a pick", &value)?,
            "--lanes" => {
                let lanes = natural(name, "1 to 8 lanes", &value)?;
                if !(1..=MAX_LANES).contains(&lanes) {
                    return Err(wrong(name, "1 to 8 lanes", &value));
                }
                self.lanes = Some(lanes);
            }
            _ => self.changes.note(name, value)?,
        }
        Ok(())
    }

    /// What does not go together.
    fn check(&self) -> Result<(), String> {
        self.changes.check_input(&self.input)?;
        if self.lanes.is_some() && self.order.is_some() {
            return Err("--lanes and --order: the rounds are an order of their own".into());
        }
        if self.summary && (self.slots || self.from > 1 || self.to < u64::MAX) {
            return Err("--summary shows no picks: leave out --slots, --from and --to".into());
        }
        if self.from > self.to {
            let (from, to) = (self.from, self.to);
            return Err(format!("--from {} is behind --to {}", from, to));
        }
        Ok(())
    }

    /// How the job is run.
    pub fn order_in_words(&self) -> String {
        match (self.lanes, &self.order) {
            (Some(1), _) => "1 lane".to_string(),
            (Some(lanes), _) => format!("{} lanes", lanes),
            (None, None) => "order passes".to_string(),
            (None, Some(word)) => format!("order {}", word.to_string_lossy()),
        }
    }

    /// The order of picks, read from its file where it is one.
    pub fn order(&self) -> Result<Order, Failure> {
        if let Some(lanes) = self.lanes {
            return Ok(Order::Lanes(lanes));
        }
        let word = match &self.order {
            None => return Ok(Order::Passes),
            Some(word) => word,
        };
        match word.to_str().and_then(order::named) {
            Some(order) => Ok(order),
            None => listed(word),
        }
    }
}

/// A number from 0 on, in words for what it is.
fn natural(name: &str, expected: &str, value: &OsStr) -> Result<u64, String> {
    let number = value.to_str().and_then(|text| text.parse().ok());
    number.ok_or_else(|| wrong(name, expected, value))
}

fn listed(file: &OsString) -> Result<Order, Failure> {
    let place = Place::of(file.clone());
    let text = place.read().map_err(|error| {
        let near = nearest(&file.to_string_lossy(), ["passes", "first", "last"]);
        let hint = near.map_or(error, |near| format!("did you mean '{}'?", near));
        Failure::Usage(format!("{}: {}", wrong("--order", ORDERS, file), hint))
    })?;
    let text = String::from_utf8_lossy(&text);
    order::listed(&text).map_err(|(line, found)| {
        Failure::File(format!(
            "{}:{}: error: expected a slot, 0 to 63, found '{}'\n",
            place.name(),
            line,
            found.escape_debug()
        ))
    })
}
