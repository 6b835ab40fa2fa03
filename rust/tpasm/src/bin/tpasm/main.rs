//! `tpasm`: assembles images and jobs, lists them, prints the names of registers, and hands what needs
//! the engine to `tpasm-trace`. Status 0; 1 when a source, an image, a job or a file is at fault, or
//! there are warnings that are denied; 2 for a bad command line. Nothing is written before all has
//! gone well.

mod beside;
mod options;
mod usage;

use options::{Command, Options, Request};
use std::env;
use tpasm::command::{at_fault, check_output, complain, finish, Failure, Place};
use tpasm::{show, Assembly, Registers};

fn main() {
    let arguments = || env::args_os().skip(1);
    if beside::has(arguments().next()) {
        beside::run(arguments());
    }
    finish(match options::parse(arguments()) {
        Ok(Request::Help) => write(&Place::Standard, usage::USAGE.as_bytes()),
        Ok(Request::Run(options)) => run(&options),
        Err(message) => Err(Failure::Usage(message)),
    });
}

fn run(options: &Options) -> Result<(), Failure> {
    check_output(&options.output, &options.input, &options.changes)?;
    let input = options.input.read().map_err(at_fault)?;
    let bytes = match options.command {
        Command::Image => {
            let assembly = assemble(options, &input)?;
            warn(options, &input, &assembly)?;
            assembly.image
        }
        Command::Job => {
            let assembly = assemble(options, &input)?;
            let changes = &options.changes;
            let settings = changes.applied(&assembly.settings, &assembly.registers)?;
            warn(options, &input, &assembly)?;
            tpasm::job(&assembly.image, &settings)
        }
        Command::List => {
            let listed = tpasm::list_file(&input, options.offsets);
            let named = |refusal| format!("{}: {}", options.input.name(), refusal);
            listed.map_err(|refusal| at_fault(named(refusal)))?.into()
        }
        Command::Names => names(&assemble(options, &input)?.registers).into(),
    };
    write(&options.output, &bytes)
}

fn assemble(options: &Options, source: &[u8]) -> Result<Assembly, Failure> {
    let file = options.input.name();
    tpasm::assemble(source).map_err(|errors| Failure::File(show(&file, source, &errors)))
}

/// Prints the warnings.
fn warn(options: &Options, source: &[u8], assembly: &Assembly) -> Result<(), Failure> {
    let file = options.input.name();
    complain(&show(&file, source, &assembly.warnings));
    if options.deny_warnings && !assembly.warnings.is_empty() {
        let message = "nothing is written: --deny-warnings";
        return Err(at_fault(format!("{}: {}", file, message)));
    }
    Ok(())
}

/// A line for each register that has a name.
fn names(registers: &Registers) -> String {
    let line = |(number, name)| format!("r{} {}\n", number, name);
    registers.named().map(line).collect()
}

fn write(place: &Place, bytes: &[u8]) -> Result<(), Failure> {
    place.write(bytes).map_err(at_fault)
}
