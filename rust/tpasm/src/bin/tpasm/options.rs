//! The command line.

use std::ffi::OsString;
use tpasm::command::{self, Changes, Grammar, Known, Place};

#[derive(Clone, Copy, Debug, PartialEq, Eq)]
pub enum Command {
    Image,
    Job,
    List,
    Names,
}

const ALL: &[&str] = &["image", "job", "list", "names"];

const fn known(name: &'static str, has_value: bool, commands: &'static [&'static str]) -> Known {
    Known {
        name,
        has_value,
        commands,
    }
}

static GRAMMAR: Grammar = Grammar {
    commands: &[
        "image", "job", "list", "names", "trace", "picture", "profile",
    ],
    options: &[
        known("-o", true, ALL),
        known("--deny-warnings", false, &["image", "job"]),
        known("--places", true, &["job"]),
        known("--interval", true, &["job"]),
        known("--set", true, &["job"]),
        known("--words", true, &["job"]),
        known("--offsets", false, &["list"]),
    ],
};

#[derive(Debug)]
pub struct Options {
    pub command: Command,
    pub input: Place,
    pub output: Place,
    pub deny_warnings: bool,
    pub offsets: bool,
    pub changes: Changes,
}

#[derive(Debug)]
pub enum Request {
    Help,
    Run(Options),
}

/// The arguments after the program's name, or what is wrong with them.
pub fn parse(arguments: impl Iterator<Item = OsString>) -> Result<Request, String> {
    let arguments = match GRAMMAR.parse(arguments)? {
        command::Request::Help => return Ok(Request::Help),
        command::Request::Run(arguments) => arguments,
    };
    let mut options = Options {
        command: match arguments.command {
            "image" => Command::Image,
            "job" => Command::Job,
            "list" => Command::List,
            _ => Command::Names,
        },
        input: arguments.input,
        output: Place::Standard,
        deny_warnings: false,
        offsets: false,
        changes: Changes::default(),
    };
    for (name, value) in arguments.given {
        match name {
            "-o" => options.output = Place::of(value),
            "--deny-warnings" => options.deny_warnings = true,
            "--offsets" => options.offsets = true,
            _ => options.changes.note(name, value)?,
        }
    }
    options.changes.check_input(&options.input)?;
    Ok(Request::Run(options))
}
