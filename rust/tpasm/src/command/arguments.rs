//! Command lines: a command, one file to read, and options with their values.

use super::files::Place;
use crate::suggest::nearest;
use std::ffi::{OsStr, OsString};

/// An option, and the commands that have it.
pub struct Known {
    pub name: &'static str,
    pub has_value: bool,
    pub commands: &'static [&'static str],
}

/// What a program's command lines may be made of. Each command also has `-h` and `--help`.
pub struct Grammar {
    pub commands: &'static [&'static str],
    pub options: &'static [Known],
}

#[derive(Debug)]
pub struct Arguments {
    pub command: &'static str,
    pub input: Place,
    /// The options in their order. One that has no value stands with an empty one.
    pub given: Vec<(&'static str, OsString)>,
}

#[derive(Debug)]
pub enum Request {
    Help,
    Run(Arguments),
}

const HELP: [&str; 2] = ["-h", "--help"];

impl Grammar {
    /// The arguments after the program's name, or what is wrong with them.
    pub fn parse(
        &'static self,
        mut arguments: impl Iterator<Item = OsString>,
    ) -> Result<Request, String> {
        let expected = || format!("expected {}", one_of(self.commands));
        let first = arguments.next().ok_or_else(expected)?;
        let first = first.to_string_lossy();
        if HELP.contains(&&*first) {
            return Ok(Request::Help);
        }
        let known = self.commands.iter().find(|name| **name == first);
        let command = known.ok_or_else(|| {
            let hint = did_you_mean(&first, self.commands.iter().copied());
            format!("{}, found '{}'{}", expected(), first, hint)
        })?;
        let mut reader = Reader {
            grammar: self,
            command,
            arguments,
            input: None,
            given: Vec::new(),
        };
        if reader.read_all()? {
            return Ok(Request::Help);
        }
        Ok(Request::Run(Arguments {
            command,
            input: reader.input.ok_or("expected a file to read")?,
            given: reader.given,
        }))
    }
}

/// `a`, `a or b`, `a, b or c`
fn one_of(words: &[&str]) -> String {
    match words {
        [before @ .., last] if !before.is_empty() => format!("{} or {}", before.join(", "), last),
        _ => words.concat(),
    }
}

fn did_you_mean(word: &str, known: impl Iterator<Item = &'static str>) -> String {
    match nearest(word, known) {
        None => String::new(),
        Some(near) => format!(": did you mean '{}'?", near),
    }
}

struct Reader<I> {
    grammar: &'static Grammar,
    command: &'static str,
    arguments: I,
    input: Option<Place>,
    given: Vec<(&'static str, OsString)>,
}

impl<I: Iterator<Item = OsString>> Reader<I> {
    /// True: help was asked for.
    fn read_all(&mut self) -> Result<bool, String> {
        let mut only_files = false;
        while let Some(argument) = self.arguments.next() {
            let text = argument.to_string_lossy();
            if only_files || text == "-" || !text.starts_with('-') {
                self.set_input(argument)?;
            } else if text == "--" {
                only_files = true;
            } else if HELP.contains(&&*text) {
                return Ok(true);
            } else {
                self.option(&text)?;
            }
        }
        Ok(false)
    }

    fn set_input(&mut self, argument: OsString) -> Result<(), String> {
        if self.input.is_some() {
            let found = argument.to_string_lossy();
            return Err(format!("expected one file to read, also found '{}'", found));
        }
        self.input = Some(Place::of(argument));
        Ok(())
    }

    /// An option, with its value after `=` or as the next argument.
    fn option(&mut self, text: &str) -> Result<(), String> {
        let (name, attached) = match text.split_once('=') {
            Some((name, value)) if name.starts_with("--") => (name, Some(value.into())),
            _ => (text, None),
        };
        let options = self.grammar.options;
        let known = options.iter().find(|known| known.name == name);
        let known = known.filter(|known| known.commands.contains(&self.command));
        let known = known.ok_or_else(|| self.unknown(name))?;
        let value = match (known.has_value, attached) {
            (false, None) => OsString::new(),
            (false, Some(_)) => return Err(format!("{}: expected no value", name)),
            (true, attached) => attached
                .or_else(|| self.arguments.next())
                .ok_or_else(|| format!("expected a value after {}", name))?,
        };
        self.given.push((known.name, value));
        Ok(())
    }

    /// An option of no command, or of others.
    fn unknown(&self, name: &str) -> String {
        let options = self.grammar.options;
        let of_others = options.iter().find(|known| known.name == name);
        let hint = match of_others.and_then(|known| known.commands.first()) {
            Some(command) => format!(": it is an option of 'tpasm {}'", command),
            None => {
                let own = options
                    .iter()
                    .filter(|known| known.commands.contains(&self.command));
                did_you_mean(name, own.map(|known| known.name))
            }
        };
        format!("unknown option '{}'{}", name, hint)
    }
}

pub fn number(value: &OsStr) -> Option<i64> {
    value.to_str()?.parse().ok()
}

pub fn wrong(name: &str, expected: &str, found: &OsStr) -> String {
    let found = found.to_string_lossy();
    format!("{}: expected {}, found '{}'", name, expected, found)
}
