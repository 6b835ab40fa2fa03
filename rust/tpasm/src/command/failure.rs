//! How a command ends when something is wrong.

use super::files::complain;
use std::process::exit;

#[derive(Debug)]
pub enum Failure {
    /// What is wrong with the command line.
    Usage(String),
    /// What is wrong with a file, as it is printed.
    File(String),
}

/// A file is at fault, in a line of its own.
pub fn at_fault(what: String) -> Failure {
    Failure::File(format!("tpasm: {}\n", what))
}

/// Ends the program: status 0; 1 when a file is at fault; 2 for a bad command line.
pub fn finish(outcome: Result<(), Failure>) -> ! {
    match outcome {
        Ok(()) => exit(0),
        Err(Failure::File(text)) => {
            complain(&text);
            exit(1);
        }
        Err(Failure::Usage(message)) => {
            complain(&format!("tpasm: {} (see 'tpasm --help')\n", message));
            exit(2);
        }
    }
}
