//! `tpasm-trace`: what `tpasm trace`, `tpasm picture` and `tpasm profile` hand over. Status 0; 1 when a
//! file is at fault or the job is refused; 2 for a bad command line. A file is written whole or not at
//! all.

mod options;
mod usage;

use options::{Options, Request};
use std::env;
use std::io::{self, BufWriter, ErrorKind, Write};
use tpasm::command::{at_fault, check_output, finish, Failure, Place};
use trace::order::Order;
use trace::subject::Subject;
use trace::text::{self, Stop};
use trace::{picture, profile};

fn main() {
    finish(match options::parse(env::args_os().skip(1)) {
        Ok(Request::Help) => print(usage::USAGE),
        Ok(Request::Run(options)) => run(&options),
        Err(message) => Err(Failure::Usage(message)),
    });
}

fn print(text: &str) -> Result<(), Failure> {
    Place::Standard.write(text.as_bytes()).map_err(at_fault)
}

fn run(options: &Options) -> Result<(), Failure> {
    check_output(&options.output, &options.input, &options.changes)?;
    let order = options.order()?;
    let bytes = options.input.read().map_err(at_fault)?;
    let subject = Subject::new(options.input.name(), bytes, &options.changes)?;
    match options.output {
        // A trace is long: it is printed as it comes.
        Place::Standard => {
            let out = &mut BufWriter::new(io::stdout());
            stopped(write(options, order, &subject, out))
        }
        Place::File(_) => {
            let mut text = Vec::new();
            stopped(write(options, order, &subject, &mut text))?;
            options.output.write(&text).map_err(at_fault)
        }
    }
}

fn write(
    options: &Options,
    order: Order,
    subject: &Subject,
    out: &mut dyn Write,
) -> Result<(), Stop> {
    let budget = options.budget;
    match options.command {
        "trace" => {
            let request = text::Request {
                order,
                budget,
                from: options.from,
                to: if options.summary { 0 } else { options.to },
                slots: options.slots,
            };
            return text::write(subject, &request, out);
        }
        "profile" => {
            let profile = profile::text(subject, &order, budget)?;
            out.write_all(profile.as_bytes())?;
        }
        _ => {
            let request = picture::Request {
                order,
                named: options.order_in_words(),
                budget,
            };
            out.write_all(picture::svg(subject, &request)?.as_bytes())?;
        }
    }
    Ok(out.flush()?)
}

/// A reader that has seen enough is no failure.
fn stopped(outcome: Result<(), Stop>) -> Result<(), Failure> {
    match outcome {
        Ok(()) => Ok(()),
        Err(Stop::Written(error)) if error.kind() == ErrorKind::BrokenPipe => Ok(()),
        Err(Stop::Written(error)) => Err(at_fault(format!("<stdout>: {}", error))),
        Err(Stop::Order(what)) => Err(at_fault(what)),
    }
}
