//! `lanes`: the rounds of the examples on 1 to 8 lanes. Status 0; 1 when a job breaks the bound, or a
//! file is at fault; 2 for a bad command line. Nothing is written before all has gone well.

use lanes::counts::{of_examples, Counts};
use lanes::{page, plot, table};
use std::io::{self, Write};
use std::process::exit;
use std::{env, fs};

const USAGE: &str = "\
usage: lanes table      prints the rounds as a Markdown table
       lanes plot       prints an SVG of the speed
       lanes page FILE  writes the table and a link to lanes.svg in their places in FILE
";

fn main() {
    let arguments: Vec<String> = env::args().skip(1).collect();
    let arguments: Vec<&str> = arguments.iter().map(String::as_str).collect();
    let outcome = match arguments[..] {
        ["table"] => of_examples().and_then(|counts| print(&table::table(&counts))),
        ["plot"] => of_examples().and_then(|counts| print(&plot::plot(&counts)?)),
        ["page", file] => of_examples().and_then(|counts| write_page(file, &counts)),
        _ => {
            eprint!("{}", USAGE);
            exit(2);
        }
    };
    if let Err(message) = outcome {
        eprintln!("lanes: {}", message);
        exit(1);
    }
}

fn print(text: &str) -> Result<(), String> {
    let mut out = io::stdout();
    let written = out.write_all(text.as_bytes()).and_then(|()| out.flush());
    written.map_err(|error| format!("<stdout>: {}", error))
}

fn write_page(file: &str, counts: &[Counts]) -> Result<(), String> {
    let at = |what: String| format!("{}: {}", file, what);
    let old = fs::read_to_string(file).map_err(|error| at(error.to_string()))?;
    let new = page::filled(&old, counts).map_err(at)?;
    fs::write(file, new).map_err(|error| at(error.to_string()))
}
